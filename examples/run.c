/* Runs the recipe on standard input and prints its value and the units that it took, or the number for which it is refused.
 *
 *   tools/staticlib
 *   cc -Iinclude examples/run.c target/staticlib/libgrebetallboy.a -o run && ./run < recipe.scm
 */
#include "grebetallboy.h"
#include <inttypes.h>
#include <stdio.h>

enum { FUEL = 8192, ITEMS = 4095, BUDGET = 65535 };

static uint8_t text[65536], names[GREBETALLBOY_NAME_BYTES];
static uint32_t items[GREBETALLBOY_ITEM_WORDS], table[GREBETALLBOY_RUN_WORDS(BUDGET)];
static uint32_t work[GREBETALLBOY_WORK_WORDS(ITEMS, FUEL)], core[GREBETALLBOY_CORE_WORDS(ITEMS, FUEL)];

static int refused(uint32_t ground)
{
    printf("refused with %u\n", ground);
    return 1;
}

int main(void)
{
    uint64_t counts[4];
    size_t length = fread(text, 1, sizeof text, stdin);
    uint32_t ground = grebetallboy_read(text, length, items, GREBETALLBOY_ITEM_WORDS, names, sizeof names, counts, 4);
    if (ground)
        return refused(ground);
    ground = grebetallboy_run_recipe(items, 3 * counts[0], FUEL, work, sizeof work / 4, core, sizeof core / 4, BUDGET, table,
                                     sizeof table / 4, counts, 4);
    if (ground)
        return refused(ground);
    printf("%" PRIu64 " units\n", counts[3]);
    switch (counts[0]) {
    case GREBETALLBOY_INTEGER:
        printf("%" PRId32 "\n", (int32_t)(uint32_t)counts[1]);
        break;
    case GREBETALLBOY_BOOLEAN:
        puts(counts[1] ? "#t" : "#f");
        break;
    case GREBETALLBOY_DATUM:
        printf("datum %" PRIu64 "\n", counts[1]);
        break;
    default:
        puts(counts[0] == GREBETALLBOY_CLOSURE ? "closure" : "operation");
    }
    return 0;
}
