/* Reads a canonical text that comes in scraps:
 *
 *     pieces SCRAP..
 *
 * Each argument is a scrap, which may be empty. Build and run: see Makefile. */
#include <stdio.h>
#include <string.h>

#include "etglavino.h"

static uint8_t canonical[ETG_MOST_CANONICAL];
static struct etg_record records[64];

#define RECORDS (sizeof records / sizeof *records)

int main(int argc, char **argv)
{
    struct etg_pieces_state state;
    size_t taken, length, nodes, place;
    uint32_t number;
    int i;

    etg_pieces_start(&state, sizeof canonical, RECORDS);
    for (i = 1; i < argc; i++) {
        number = etg_pieces_feed(&state, (const uint8_t *)argv[i], strlen(argv[i]),
                                 canonical, sizeof canonical, RECORDS, &taken);
        if (number != ETG_ACCEPTED) /* only where another size is lent than at the start */
            return 1;
        printf("%u octets taken\n", (unsigned)taken);
    }
    number = etg_pieces_end_records(&state, canonical, sizeof canonical, records, RECORDS,
                                    &length, &nodes, &place);
    if (number == ETG_ACCEPTED)
        printf("sheet of %u nodes: %.*s\n", (unsigned)nodes, (int)length, (const char *)canonical);
    else
        printf("refused %u at %u\n", (unsigned)number, (unsigned)place);
    return 0;
}
