/* Reads a text, shows a node, replaces it and writes the result in form 3, whole
 * and as a foreman may see it; a word put into the list and struck out again
 * leaves nothing behind:
 *
 *     correct TEXT NODE REPLACEMENT
 *
 * Both texts are advanced S-expressions. Build and run: see Makefile. */
#include <stdio.h>
#include <stdlib.h>
#include <string.h>

#include "etglavino.h"

static uint8_t canonical[ETG_MOST_CANONICAL];
static uint32_t table[ETG_MOST_NODES * ETG_RECORD];
static uint8_t out[2 * ETG_MOST_CANONICAL];

/* The foreman's own sheet and table. */
static uint8_t shown[ETG_MOST_CANONICAL];
static uint32_t shown_table[ETG_MOST_NODES * ETG_RECORD];

static void show(const char *name, const uint8_t *octets, size_t count)
{
    printf("%s: ", name);
    fwrite(octets, 1, count, stdout);
    putchar('\n');
}

static int refused(const char *step, uint32_t number)
{
    printf("%s: refused %u\n", step, (unsigned)number);
    return 1;
}

/* What a foreman may see of the sheet, by each of the two ways to ask for it. */
static int foreman(size_t length, size_t nodes)
{
    size_t shown_length, shown_nodes, written;
    uint32_t number;

    number = etg_extract(canonical, sizeof canonical, length,
                         shown, sizeof shown,
                         shown_table, sizeof shown_table / sizeof *shown_table,
                         &shown_length, &shown_nodes);
    if (number != ETG_ACCEPTED)
        return refused("extract", number);
    show("extract", shown, shown_length);

    /* With the table at hand, and room for just that many records. */
    number = etg_extract_own(canonical, sizeof canonical, length,
                             table, sizeof table / sizeof *table, nodes,
                             shown, sizeof shown,
                             shown_table, shown_nodes * ETG_RECORD,
                             &shown_length, &shown_nodes);
    if (number != ETG_ACCEPTED)
        return refused("extract", number);
    number = etg_write(ETG_ADVANCED, shown, sizeof shown, shown_length,
                       out, sizeof out, &written);
    if (number != ETG_ACCEPTED)
        return refused("write", number);
    show("for the foreman", out, written);
    return 0;
}

/* A word as the list's first element, and the list without it again. */
static int marked(size_t *length, size_t *nodes)
{
    static const uint8_t word[] = "checked";
    size_t place;
    uint32_t number;

    number = etg_insert(ETG_ADVANCED, word, sizeof word - 1,
                        canonical, sizeof canonical,
                        table, sizeof table / sizeof *table,
                        *length, *nodes, 0, 0, length, nodes, &place);
    if (number != ETG_ACCEPTED)
        return refused("insert", number);
    show("marked", canonical, *length);

    number = etg_remove(canonical, sizeof canonical,
                        table, sizeof table / sizeof *table,
                        *length, *nodes, 1, length, nodes);
    if (number != ETG_ACCEPTED)
        return refused("remove", number);
    show("struck out", canonical, *length);
    return 0;
}

int main(int argc, char **argv)
{
    size_t length, nodes, place, node, start, end, written;
    uint32_t number;

    if (argc != 4) {
        fprintf(stderr, "usage: correct TEXT NODE REPLACEMENT\n");
        return 2;
    }
    node = (size_t)strtoul(argv[2], NULL, 10);

    number = etg_read(ETG_ADVANCED, (const uint8_t *)argv[1], strlen(argv[1]),
                      canonical, sizeof canonical,
                      table, sizeof table / sizeof *table, &length, &nodes, &place);
    if (number != ETG_ACCEPTED)
        return refused("read", number);
    show("sheet", canonical, length);

    if (etg_data(canonical, sizeof canonical, length,
                 table, sizeof table / sizeof *table, nodes, node, &start, &end))
        show("node", canonical + start, end - start);

    number = etg_replace(ETG_ADVANCED, (const uint8_t *)argv[3], strlen(argv[3]),
                         canonical, sizeof canonical,
                         table, sizeof table / sizeof *table,
                         length, nodes, node, &length, &nodes, &place);
    if (number != ETG_ACCEPTED)
        return refused("replace", number);
    show("corrected", canonical, length);

    number = etg_write(ETG_ADVANCED, canonical, sizeof canonical, length,
                       out, sizeof out, &written);
    if (number != ETG_ACCEPTED)
        return refused("write", number);
    show("written", out, written);
    return marked(&length, &nodes) || foreman(length, nodes);
}
