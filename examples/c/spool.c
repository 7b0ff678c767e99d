/* Adds sheets to a spool, one octet store at a time, and shows its entries:
 *
 *     spool TEXT..
 *
 * Each text is an advanced S-expression. Build and run: see Makefile. */
#include <stdio.h>
#include <string.h>

#include "etglavino.h"

static uint8_t area[64];
static uint8_t canonical[ETG_MOST_CANONICAL];
static uint32_t table[ETG_MOST_NODES * ETG_RECORD];

static uint32_t add(const uint8_t *sheet, size_t length)
{
    struct etg_spool_state state;
    uint32_t number, stores = 0;

    number = etg_spool_add_start(area, sizeof area, sheet, length, length, &state);
    if (number != ETG_ACCEPTED)
        return number;
    do {
        stores++; /* an area on a disk is synced before the step that commits */
    } while (!etg_spool_add_step(&state, area, sizeof area, sheet, length));
    printf("added in %u stores\n", (unsigned)stores);
    return ETG_ACCEPTED;
}

int main(int argc, char **argv)
{
    size_t length, nodes, place, count, start, end, number;
    uint32_t refusal;
    int i;

    for (i = 1; i < argc; i++) {
        refusal = etg_read(ETG_ADVANCED, (const uint8_t *)argv[i], strlen(argv[i]),
                           canonical, sizeof canonical,
                           table, sizeof table / sizeof *table, &length, &nodes, &place);
        if (refusal == ETG_ACCEPTED)
            refusal = add(canonical, length);
        if (refusal != ETG_ACCEPTED)
            printf("%s: refused %u\n", argv[i], (unsigned)refusal);
    }
    etg_spool_open(area, sizeof area, 0, &count, &start, &end);
    for (number = 0; number < count; number++) {
        etg_spool_open(area, sizeof area, number, &count, &start, &end);
        printf("entry %u: %.*s\n", (unsigned)number, (int)(end - start), (const char *)area + start);
    }
    return 0;
}
