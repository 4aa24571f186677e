/* The proved services for C. Link libgrebetallboy.a, which `tools/staticlib` writes to target/staticlib.
 *
 * A call has no requirement but that each pointer has so many elements behind it as its count says, that no two tables of a call
 * overlap, and that there is stack enough. It answers 0 where it accepts, else the number that README.md explains, and tells its
 * numbers in `counts`, which has room for three, for running for four (a shorter table is left alone). Document 01 says what each table
 * holds afterwards, and for comparing and running docs/DECISIONS.md does.
 *
 * Stack: what a call takes at most is given below, by what it is lent. Reading and expanding take less than 8 MiB for every input;
 * writing, comparing and running words take as much as these are many, since each may open a part of the term inside the one before:
 * 32,000 words may take 8 MiB. A recipe that is run takes no more than expanding it. A call with less stack than it takes overruns it. docs/BENCHMARKS.md has what the deepest inputs take.
 */
#ifndef GREBETALLBOY_H
#define GREBETALLBOY_H

#include <stddef.h>
#include <stdint.h>

#ifdef __cplusplus
extern "C" {
#endif

/* What to lend for reading, and for the text of a comparison: words of the item table, bytes of the name table. */
#define GREBETALLBOY_ITEM_WORDS 12288
#define GREBETALLBOY_NAME_BYTES 65536

/* What to lend for expanding so many items with so much fuel (at most 8,192): words of the work table and of the core table. */
#define GREBETALLBOY_WORK_WORDS(items, fuel) (24 * ((size_t)(items) + (size_t)(fuel)))
#define GREBETALLBOY_CORE_WORDS(items, fuel) (3 * ((size_t)(items) + (size_t)(fuel)))

/* What to lend for writing so many words (at most 10^9) so that the text of any term fits: bytes of output. */
#define GREBETALLBOY_TEXT_BYTES(words) (57 * (size_t)(words))

/* What to lend for running with so large a budget (at most 65,535): words of its table. */
#define GREBETALLBOY_RUN_WORDS(budget) (16 * ((size_t)(budget) + 1))

/* Bytes of stack that a call takes at most: reading; expanding so many items (at most 4,096) with so much fuel (at most 8,192);
 * writing so many words; comparing a text with so many words; running so many words; running a recipe of so many items with so much
 * fuel. Running has tables of 148 KiB of its own; the test of the words and the pass that finds where each part of the term ends
 * go as deep as the term is nested, evaluation does not. */
#define GREBETALLBOY_READ_STACK ((size_t)16384)
#define GREBETALLBOY_EXPAND_STACK(items, fuel) (262144 + 512 * ((size_t)(items) + (size_t)(fuel)))
#define GREBETALLBOY_WRITE_STACK(words) (49152 + 256 * (size_t)(words))
#define GREBETALLBOY_COMPARE_STACK(words) (131072 + 256 * (size_t)(words))
#define GREBETALLBOY_RUN_STACK(words) (262144 + 256 * (size_t)(words))
#define GREBETALLBOY_RUN_RECIPE_STACK(items, fuel) GREBETALLBOY_EXPAND_STACK(items, fuel)

/* Reads a recipe text of at most 65,535 bytes. Accepted: counts has the items (three words each) and the names, then 0.
 * An item's first word is its kind: 0 empty list, 1 integer, 2 boolean, 3 name, 4 pair, 5 decimal (its value without the dot, and
 * its places, 1 to 4). */
uint32_t grebetallboy_read(const uint8_t *text, size_t text_count, uint32_t *items, size_t items_count, uint8_t *names,
                           size_t names_count, uint64_t *counts, size_t counts_count);

/* Expands an item table. Accepted: counts has the steps, the sum of items and the words of the term, which begin the core table.
 * A decimal in it has three words: 9, its value without the dot, and its places. A lambda has 7, its first variable's number, their
 * count, and for each the number of its name, before the words of its body.
 * Refused by 11 to 18: the steps and the sum so far, then 0.
 * Where neither 8, 9 nor 18 is answered, the sum is the least fuel that gives this answer, and every fuel from it to 8,192
 * gives it too, in tables for that fuel. */
uint32_t grebetallboy_expand(const uint32_t *items, size_t items_count, uint32_t fuel, uint32_t *work, size_t work_count,
                             uint32_t *core, size_t core_count, uint64_t *counts, size_t counts_count);

/* Writes the text of a core term, with so many operations (256 where none is known). A variable is written with its name, as v0.t;
 * where a term has more than 6,144 variables, each of its names is looked for in the words, and the time is no longer linear. Testing the
 * words, here and in comparing, goes through them once for every 4,096 variables. Accepted: counts has its length, then 0, 0. */
uint32_t grebetallboy_write(const uint32_t *words, size_t words_count, uint32_t operations, const uint8_t *names,
                            size_t names_count, uint8_t *out, size_t out_count, uint64_t *counts, size_t counts_count);

/* Holds a supplier's text, one element, against a core term: whether it is that term up to the choice of bound names, other names by
 * spelling. Items and names are those of the recipe whose term the words are; operations are spelled out in the text. The text is read
 * into two tables of its own, as a recipe is. Accepted: counts has 1 for yes, 0 for no, then 0, 0, and the two tables the text's
 * items and names, zeros behind them. Refused by 3 to 6, 21 or 22: both are zero; by 7, 10, 19, 1 or 2: as they were. */
uint32_t grebetallboy_compare(const uint32_t *items, size_t items_count, const uint8_t *names, size_t names_count,
                              const uint32_t *words, size_t words_count, const uint8_t *text, size_t text_count,
                              uint32_t *text_items, size_t text_items_count, uint8_t *text_names, size_t text_names_count,
                              uint64_t *counts, size_t counts_count);

/* What a term's value is. */
enum grebetallboy_kind {
    GREBETALLBOY_INTEGER = 1, /* its 32 bits, in two's complement */
    GREBETALLBOY_BOOLEAN = 2, /* 0 for #f, 1 for #t */
    GREBETALLBOY_DATUM = 3,   /* quoted: the place of its first word in the term, name words counted */
    GREBETALLBOY_CLOSURE = 4,
    GREBETALLBOY_OPERATION = 5
};

/* Runs a core term. Its first four operations are sum, difference, less and equal, each over two integers; operands are evaluated from
 * the left after the head, and only #f is false. A unit is spent for each node begun, a quoted datum being one. Accepted: counts has what
 * the value is, then its word, truth or place (0 for a closure or operation), then 0, then the units. Refused: four zeros; by 19 (the
 * words), 8 (the budget) or 9 (the table) the table is as it was, and by 25, 26 or 27, as where it is accepted, it is zero.
 * Where 27 is not answered, every larger budget up to 65,535 gives this answer too, in a table for that budget; the units are the least
 * budget that accepts. A lookup goes through the variables in scope one by one. Where parts of the first 36,864 words end is noted, as
 * many as expansion can give; past them it is looked for at each visit, and the time is no longer linear in the units. */
uint32_t grebetallboy_run(const uint32_t *words, size_t words_count, uint32_t budget, uint32_t *table, size_t table_count,
                          uint64_t *counts, size_t counts_count);

/* Expands an item table and runs its term. First come the refusals of expanding, with its numbers in counts and the tables as it leaves
 * them; then those of running, 8 and 9 of its own budget and table among them, but never 19. Past expansion the core table has
 * the term, zeros behind it, and a datum's place is one in it. Accepted: counts as in running. */
uint32_t grebetallboy_run_recipe(const uint32_t *items, size_t items_count, uint32_t fuel, uint32_t *work, size_t work_count,
                                 uint32_t *core, size_t core_count, uint32_t budget, uint32_t *table, size_t table_count,
                                 uint64_t *counts, size_t counts_count);

#ifdef __cplusplus
}
#endif

#endif
