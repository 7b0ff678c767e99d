/* A fuzz target over the C interface, for libFuzzer: see Makefile.
 *
 * An input is an octet for the form, one for a node and one for the room lent;
 * the rest is a text, a sheet and the area of a spool. Every buffer ends where a
 * page begins that nobody may touch, so that a step past its end is caught though
 * the library is not instrumented; with an even octet for the room it begins at
 * such a page instead.
 *
 * What an entry says is compared with what others say, and a difference ends the
 * run: a refusal leaves what is lent; flat tables and records agree; what is
 * written reads back; a node replaced is the corrected sheet read afresh; reading
 * and replacing tell one place of a refused text; an extract of an extract is
 * the same; a spool shows what was added; a text in pieces, cut where its own
 * octets say, ends as the whole is read in form 1.
 *
 * The library has no counters for libFuzzer. So inputs are kept by what they make
 * it answer, counted in `seen`, besides by what this file's code does. */
#include <stdio.h>
#include <stdlib.h>
#include <string.h>
#include <sys/mman.h>

#include "etglavino.h"

#define PAGE 4096
#define MOST (128 * PAGE) /* octets of the largest buffer: a flat table */

__attribute__((section("__libfuzzer_extra_counters"))) static uint8_t seen[4096];

#define HOLDS(fact) ((fact) ? (void)0 : differs(#fact, __LINE__))

static void differs(const char *fact, int line)
{
    fprintf(stderr, "entries.c:%d: %s\n", line, fact);
    abort();
}

/* Counts an answer of an entry, with how large its outcome is. */
static void saw(unsigned entry, uint32_t answer, size_t size)
{
    unsigned bits = 0;

    while (size >> bits && bits < 15)
        bits++;
    seen[(entry * 16 + answer % 16) * 16 + bits]++;
}

/* Memory between two pages that can't be touched; one for each purpose. */
enum { TEXT, SHEET, TABLE, RECORDS, OUT, OTHER, OTHER_TABLE, AREA, PURPOSES };

static uint8_t *memory[PURPOSES];

static void *room(int purpose, size_t size, size_t unit, int at_end)
{
    uint8_t *start;

    HOLDS(size * unit <= MOST);
    if (memory[purpose] == NULL) {
        start = mmap(NULL, MOST + 2 * PAGE, PROT_NONE, MAP_PRIVATE | MAP_ANONYMOUS, -1, 0);
        HOLDS(start != MAP_FAILED);
        HOLDS(mprotect(start + PAGE, MOST, PROT_READ | PROT_WRITE) == 0);
        memory[purpose] = start + PAGE;
    }
    start = memory[purpose] + (at_end ? MOST - size * unit : 0);
    memset(start, 0xa5, size * unit);
    return start;
}

static int untouched(const void *lent, size_t size)
{
    const uint8_t *octets = lent;

    for (; size > 0; size--, octets++)
        if (*octets != 0xa5)
            return 0;
    return 1;
}

/* A sheet with its table, in room for any that fits. */
struct sheet {
    uint8_t *octets;
    uint32_t *table;
    size_t length, nodes, place;
};

#define TABLE_ROOM (ETG_MOST_NODES * ETG_RECORD)

static uint32_t read_to(struct sheet *sheet, int octets, int table, uint32_t form,
                        const uint8_t *text, size_t size, int at_end)
{
    sheet->octets = room(octets, ETG_MOST_CANONICAL, 1, at_end);
    sheet->table = room(table, TABLE_ROOM, sizeof(uint32_t), at_end);
    return etg_read(form, text, size, sheet->octets, ETG_MOST_CANONICAL, sheet->table, TABLE_ROOM,
                    &sheet->length, &sheet->nodes, &sheet->place);
}

static int alike(const struct sheet *a, const struct sheet *b)
{
    return a->length == b->length && a->nodes == b->nodes &&
           memcmp(a->octets, b->octets, a->length) == 0 &&
           memcmp(a->table, b->table, a->nodes * ETG_RECORD * sizeof(uint32_t)) == 0;
}

/* In room that may be too small: a refusal leaves it, and what is past stays. */
static void read_small(uint32_t form, const uint8_t *text, size_t size, size_t octets, size_t records, int at_end)
{
    uint8_t *canonical = room(OTHER, octets, 1, at_end);
    struct etg_record *rows = room(RECORDS, records, sizeof *rows, at_end);
    size_t length = 1, nodes = 1, place = 1;
    uint32_t answer = etg_read_records(form, text, size, canonical, octets, rows, records, &length, &nodes, &place);

    saw(1, answer, nodes);
    HOLDS(answer <= ETG_SIZE && length <= octets && nodes <= records);
    HOLDS(answer == ETG_ACCEPTED || (length == 0 && nodes == 0));
    HOLDS(place <= size && (place == 0 || (answer == ETG_SYNTAX && form < ETG_ADVANCED)));
    HOLDS(untouched(canonical + length, octets - length));
    HOLDS(untouched(rows + nodes, (records - nodes) * sizeof *rows));
}

/* The text in pieces, in room that may be too small: it ends as reading the whole
 * does. A piece's first octet says how long it is, up to 64 octets, and where it
 * is odd an empty piece comes before. */
static void in_pieces(const uint8_t *text, size_t size, size_t octets, size_t records, int at_end)
{
    uint8_t *whole = room(OTHER, octets, 1, at_end), *canonical = room(OUT, octets, 1, at_end);
    struct etg_record *rows = room(RECORDS, records, sizeof *rows, at_end);
    struct etg_record *fed = room(OTHER_TABLE, records, sizeof *fed, at_end);
    struct etg_pieces_state state, before;
    size_t at, step, taken = 0, length, nodes, place, told[3], begun;
    uint32_t answer = etg_read_records(ETG_CANONICAL, text, size, whole, octets, rows, records, &length, &nodes, &place);

    etg_pieces_start(&state, octets, records);
    for (at = 0; at < size; at += step) {
        step = text[at] % 64 + 1;
        if (step > size - at)
            step = size - at;
        if (text[at] & 1)
            HOLDS(etg_pieces_feed(&state, text + at, 0, canonical, octets, records, &taken) == ETG_ACCEPTED);
        HOLDS(etg_pieces_feed(&state, text + at, step, canonical, octets, records, &taken) == ETG_ACCEPTED);
        HOLDS(taken == (at + step > ETG_MOST_SOURCE ? ETG_MOST_SOURCE + 1 : at + step));
    }
    before = state;
    HOLDS(etg_pieces_feed(&state, text, size, canonical, octets, records + 1, &taken) == ETG_NOT_OWN && taken == 0);
    begun = size < octets ? size : octets;
    begun = begun < ETG_MOST_CANONICAL ? begun : ETG_MOST_CANONICAL;
    HOLDS(memcmp(canonical, text, begun) == 0 && untouched(canonical + begun, octets - begun));
    HOLDS(etg_pieces_end_records(&state, canonical, octets, fed, records, &told[0], &told[1], &told[2]) == answer);
    saw(10, answer, nodes);
    HOLDS(told[0] == length && told[1] == nodes && told[2] == place);
    HOLDS(memcmp(&state, &before, sizeof state) == 0);
    HOLDS(memcmp(fed, rows, records * sizeof *fed) == 0);
    HOLDS(answer != ETG_ACCEPTED || memcmp(canonical, whole, octets) == 0);
}

/* What is written reads back, in each form; form 4 is only read. */
static void written(const struct sheet *sheet, int at_end)
{
    struct sheet again;
    uint32_t form, same;
    size_t size;
    uint8_t *out;

    for (form = ETG_CANONICAL; form <= ETG_ADVANCED; form++) {
        out = room(OUT, 2 * sheet->length + 2, 1, at_end);
        HOLDS(etg_write(form, sheet->octets, ETG_MOST_CANONICAL, sheet->length,
                        out, 2 * sheet->length + 2, &size) == ETG_ACCEPTED);
        saw(2, form, size);
        HOLDS(read_to(&again, OTHER, OTHER_TABLE, form, out, size, at_end) == ETG_ACCEPTED);
        HOLDS(alike(sheet, &again));
    }
    HOLDS(etg_write(ETG_1997, sheet->octets, ETG_MOST_CANONICAL, sheet->length,
                    out, 2 * sheet->length + 2, &size) == ETG_FORM);
    HOLDS(size == 0);
    HOLDS(etg_same(sheet->octets, sheet->length, sheet->length, again.octets, again.length, again.length,
                   (const uint8_t *)"", 0, &same) == ETG_ACCEPTED);
    HOLDS(same == 1);
}

/* The extract, and the extract of it. */
static void extracted(const struct sheet *sheet, int at_end)
{
    struct sheet extract = {room(OTHER, sheet->length, 1, at_end),
                            room(OTHER_TABLE, sheet->nodes * ETG_RECORD, sizeof(uint32_t), at_end), 0, 0, 0};
    uint8_t *out = room(OUT, sheet->length, 1, at_end);
    uint32_t *rows = room(RECORDS, sheet->nodes * ETG_RECORD, sizeof(uint32_t), at_end);
    size_t length, nodes;

    HOLDS(etg_extract_own(sheet->octets, ETG_MOST_CANONICAL, sheet->length, sheet->table, TABLE_ROOM, sheet->nodes,
                          extract.octets, sheet->length, extract.table, sheet->nodes * ETG_RECORD,
                          &extract.length, &extract.nodes) == ETG_ACCEPTED);
    saw(3, extract.length < sheet->length, sheet->length - extract.length);
    HOLDS(etg_extract(extract.octets, sheet->length, extract.length, out, sheet->length,
                      rows, sheet->nodes * ETG_RECORD, &length, &nodes) == ETG_ACCEPTED);
    HOLDS(length == extract.length && nodes == extract.nodes && memcmp(out, extract.octets, length) == 0);
}

/* Values, lines and weeks of each node; values are written again. */
static void valued(const struct sheet *sheet)
{
    size_t node, start, end, lines, bad, written;
    uint32_t kind, quarters, answer;
    double number, hours, parts[3];
    int64_t whole;
    float single;
    uint8_t out[8];

    for (node = 0; node <= sheet->nodes && node < 64; node++) {
#define LENT sheet->octets, ETG_MOST_CANONICAL, sheet->length, sheet->table, TABLE_ROOM, sheet->nodes, node
        answer = etg_value(LENT, &kind, &single, &number, &whole, &start, &end);
        saw(4, answer, kind);
        HOLDS((answer == ETG_NO_NODE) == (node == sheet->nodes));
        if (answer == ETG_ACCEPTED && kind != ETG_RAW) {
            HOLDS(etg_put_value(kind, single, number, whole, 0, 0, out, 0, out, 8, &written) == ETG_ACCEPTED);
            HOLDS(etg_data(LENT, &start, &end) == 1);
            HOLDS(end - start == written && memcmp(out, sheet->octets + start, written) == 0);
        }
        answer = etg_line(LENT, &parts[0], &parts[1], &parts[2], &quarters, &hours);
        saw(5, answer, quarters);
        HOLDS(answer != ETG_ACCEPTED || (parts[0] + parts[1] + parts[2] == hours && hours * 4 == quarters));
        answer = etg_week(LENT, &lines, &quarters, &hours, &bad);
        saw(6, answer, lines);
        HOLDS(bad < sheet->nodes && (answer != ETG_ACCEPTED || hours * 4 == quarters));
    }
}

/* A node replaced by the text is the corrected sheet read afresh. */
static void replaced(struct sheet *sheet, uint32_t form, const uint8_t *text, size_t size, size_t node, int at_end)
{
    struct sheet afresh;
    size_t length, nodes, place;
    uint32_t answer = etg_replace(form, text, size, sheet->octets, ETG_MOST_CANONICAL, sheet->table, TABLE_ROOM,
                                  sheet->length, sheet->nodes, node, &length, &nodes, &place);

    saw(7, answer, nodes);
    if (answer != ETG_ACCEPTED) {
        HOLDS(read_to(&afresh, OTHER, OTHER_TABLE, form, text, size, at_end) == ETG_ACCEPTED);
        HOLDS(length == 0 && nodes == 0 && alike(sheet, &afresh));
        return;
    }
    sheet->length = length;
    sheet->nodes = nodes;
    HOLDS(read_to(&afresh, OTHER, OTHER_TABLE, ETG_CANONICAL, sheet->octets, length, at_end) == ETG_ACCEPTED);
    HOLDS(alike(sheet, &afresh));
}

/* A correction by a refused text is refused alike and tells the same place; the octets before it, read alone, are a sheet or tell it again. */
static void refused(struct sheet *sheet, uint32_t form, const uint8_t *text, size_t size, uint32_t number, size_t told, int at_end)
{
    struct sheet before;
    size_t length, nodes, place;
    uint32_t answer = etg_replace(form, text, size, sheet->octets, ETG_MOST_CANONICAL, sheet->table, TABLE_ROOM,
                                  sheet->length, sheet->nodes, 0, &length, &nodes, &place);

    HOLDS(answer == number && length == 0 && nodes == 0 && place == told);
    if (told > 0) {
        answer = read_to(&before, OTHER, OTHER_TABLE, form, text, told, at_end);
        HOLDS(answer != ETG_FORM && answer != ETG_SOURCE_SIZE);
        HOLDS(before.place == (answer == ETG_SYNTAX ? told : 0));
    }
}

/* The octets as a spool's area, to which the sheet is added. */
static void spooled(const struct sheet *sheet, const uint8_t *octets, size_t size, int at_end)
{
    size_t count, start, end, more;
    uint32_t answer;
    uint8_t *area = room(AREA, size, 1, at_end);

    memcpy(area, octets, size);
    answer = etg_spool_open(area, size, 0, &count, &start, &end);
    saw(8, answer, count);
    HOLDS(start <= end && end <= size && (answer == ETG_ACCEPTED || answer == ETG_DAMAGED));
    answer = etg_spool_add(area, size, sheet->octets, ETG_MOST_CANONICAL, sheet->length);
    saw(9, answer, count);
    if (answer != ETG_ACCEPTED) {
        HOLDS(memcmp(area, octets, size) == 0);
        return;
    }
    HOLDS(etg_spool_open(area, size, count, &more, &start, &end) == ETG_ACCEPTED && more == count + 1);
    HOLDS(end - start == sheet->length && memcmp(area + start, sheet->octets, sheet->length) == 0);
}

int LLVMFuzzerTestOneInput(const uint8_t *data, size_t size)
{
    struct sheet sheet;
    uint32_t form, answer;
    size_t place;
    uint8_t *text;
    int at_end;

    if (size < 3 || size - 3 > MOST)
        return 0;
    form = data[0] % 6;
    at_end = data[2] & 1;
    size -= 3;
    text = room(TEXT, size, 1, at_end);
    memcpy(text, data + 3, size);

    read_small(form, text, size, (size_t)data[2] * 8, data[2], at_end);
    in_pieces(text, size, (size_t)data[2] * 8, data[2], at_end);
    answer = read_to(&sheet, SHEET, TABLE, form, text, size, at_end);
    saw(0, answer, sheet.nodes);
    HOLDS((answer == ETG_FORM) == (form < ETG_CANONICAL || form > ETG_1997));
    if (answer != ETG_ACCEPTED) {
        HOLDS(sheet.length == 0 && sheet.nodes == 0 && untouched(sheet.octets, ETG_MOST_CANONICAL));
        place = sheet.place;
        HOLDS(read_to(&sheet, SHEET, TABLE, ETG_CANONICAL, (const uint8_t *)"2:ok", 4, at_end) == ETG_ACCEPTED);
        refused(&sheet, form, text, size, answer, place, at_end);
        spooled(&sheet, text, size, at_end);
        return 0;
    }
    written(&sheet, at_end);
    extracted(&sheet, at_end);
    valued(&sheet);
    replaced(&sheet, form, text, size, data[1] % (sheet.nodes + 1), at_end);
    return 0;
}
