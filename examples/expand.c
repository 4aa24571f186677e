/* Expands the recipe on standard input and prints its core term, or the number for which it is refused.
 *
 *   tools/staticlib
 *   cc -Iinclude examples/expand.c target/staticlib/libgrebetallboy.a -o expand && ./expand < recipe.scm
 */
#include "grebetallboy.h"
#include <stdio.h>

enum { FUEL = 512, ITEMS = 4095 };

static uint8_t text[65536], names[GREBETALLBOY_NAME_BYTES], out[GREBETALLBOY_TEXT_BYTES(GREBETALLBOY_CORE_WORDS(ITEMS, FUEL))];
static uint32_t items[GREBETALLBOY_ITEM_WORDS];
static uint32_t work[GREBETALLBOY_WORK_WORDS(ITEMS, FUEL)], core[GREBETALLBOY_CORE_WORDS(ITEMS, FUEL)];

static int refused(uint32_t ground)
{
    printf("refused with %u\n", ground);
    return 1;
}

int main(void)
{
    uint64_t counts[3];
    size_t length = fread(text, 1, sizeof text, stdin);
    uint32_t ground = grebetallboy_read(text, length, items, GREBETALLBOY_ITEM_WORDS, names, sizeof names, counts, 3);
    if (ground)
        return refused(ground);
    ground = grebetallboy_expand(items, 3 * counts[0], FUEL, work, sizeof work / 4, core, sizeof core / 4, counts, 3);
    if (ground)
        return refused(ground);
    printf("%u steps, %u items\n", (unsigned)counts[0], (unsigned)counts[1]);
    ground = grebetallboy_write(core, counts[2], 256, names, sizeof names, out, sizeof out, counts, 3);
    if (ground)
        return refused(ground);
    printf("%.*s\n", (int)counts[0], (const char *)out);
    return 0;
}
