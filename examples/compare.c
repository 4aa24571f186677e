/* Expands a recipe and holds a supplier's text against its term: prints yes, no, or the number for which it is refused.
 *
 *   tools/staticlib
 *   cc -Iinclude examples/compare.c target/staticlib/libgrebetallboy.a -o compare && ./compare recipe.scm text
 */
#include "grebetallboy.h"
#include <stdio.h>
#include <stdlib.h>

enum { FUEL = 512, ITEMS = 4095 };

static uint8_t recipe[65536], text[65536], names[GREBETALLBOY_NAME_BYTES], text_names[GREBETALLBOY_NAME_BYTES];
static uint32_t items[GREBETALLBOY_ITEM_WORDS], text_items[GREBETALLBOY_ITEM_WORDS];
static uint32_t work[GREBETALLBOY_WORK_WORDS(ITEMS, FUEL)], core[GREBETALLBOY_CORE_WORDS(ITEMS, FUEL)];

static int refused(uint32_t ground)
{
    printf("refused with %u\n", ground);
    return 1;
}

static size_t file(const char *name, uint8_t *bytes)
{
    FILE *in = fopen(name, "rb");
    size_t length = in ? fread(bytes, 1, 65536, in) : 0;
    if (!in || ferror(in)) {
        perror(name);
        exit(2);
    }
    fclose(in);
    return length;
}

int main(int count, char **arguments)
{
    uint64_t counts[3];
    if (count != 3)
        return 2;
    size_t length = file(arguments[1], recipe), text_length = file(arguments[2], text);
    uint32_t ground = grebetallboy_read(recipe, length, items, GREBETALLBOY_ITEM_WORDS, names, sizeof names, counts, 3);
    if (ground)
        return refused(ground);
    size_t words = 3 * counts[0];
    ground = grebetallboy_expand(items, words, FUEL, work, sizeof work / 4, core, sizeof core / 4, counts, 3);
    if (ground)
        return refused(ground);
    ground = grebetallboy_compare(items, words, names, sizeof names, core, counts[2], text, text_length, text_items,
                                  GREBETALLBOY_ITEM_WORDS, text_names, sizeof text_names, counts, 3);
    if (ground)
        return refused(ground);
    puts(counts[0] ? "yes" : "no");
    return 0;
}
