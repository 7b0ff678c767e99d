/* Splits a run of sheets, written back to back:
 *
 *     run OCTETS
 *
 * Build and run: see Makefile. */
#include <stdio.h>
#include <string.h>

#include "etglavino.h"

int main(int argc, char **argv)
{
    const uint8_t *run;
    size_t left, octets;

    if (argc != 2) {
        fprintf(stderr, "usage: run OCTETS\n");
        return 2;
    }
    run = (const uint8_t *)argv[1];
    left = strlen(argv[1]);
    while ((octets = etg_split(run, left)) > 0) {
        printf("sheet: %.*s\n", (int)octets, (const char *)run);
        run += octets;
        left -= octets;
    }
    printf("left: %.*s\n", (int)left, (const char *)run);
    return 0;
}
