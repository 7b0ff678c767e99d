/* Shows what every node of a text is: a value, with its octets written again, a
 * shift line, a list of lines. Each is asked over numbers and over records. Then
 * totals two lines of its own:
 *
 *     hours TEXT
 *
 * The text is an advanced S-expression. Build and run: see Makefile. */
#include <inttypes.h>
#include <stdio.h>
#include <string.h>

#include "etglavino.h"

#define NUMBERS (ETG_MOST_NODES * ETG_RECORD)

static uint8_t canonical[ETG_MOST_CANONICAL];
static uint32_t table[NUMBERS];
static struct etg_record records[ETG_MOST_NODES];
static uint8_t out[ETG_MOST_CANONICAL];

struct value {
    uint32_t number, kind;
    float single;
    double number64;
    int64_t whole;
    size_t start, end;
};

struct line {
    uint32_t number, quarters;
    double ordinary, night, holiday, hours;
};

struct week {
    uint32_t number, quarters;
    size_t lines, bad;
    double hours;
};

/* All that a node is. */
struct answers {
    struct value value;
    struct line line;
    struct week week;
};

static void by_numbers(size_t length, size_t nodes, size_t node, struct answers *a)
{
    struct value *v = &a->value;
    struct line *l = &a->line;
    struct week *w = &a->week;

    v->number = etg_value(canonical, sizeof canonical, length, table, NUMBERS, nodes, node,
                          &v->kind, &v->single, &v->number64, &v->whole, &v->start, &v->end);
    l->number = etg_line(canonical, sizeof canonical, length, table, NUMBERS, nodes, node,
                         &l->ordinary, &l->night, &l->holiday, &l->quarters, &l->hours);
    w->number = etg_week(canonical, sizeof canonical, length, table, NUMBERS, nodes, node,
                         &w->lines, &w->quarters, &w->hours, &w->bad);
}

static void by_records(size_t length, size_t nodes, size_t node, struct answers *a)
{
    struct value *v = &a->value;
    struct line *l = &a->line;
    struct week *w = &a->week;

    v->number = etg_value_records(canonical, sizeof canonical, length,
                                  records, ETG_MOST_NODES, nodes, node,
                                  &v->kind, &v->single, &v->number64, &v->whole,
                                  &v->start, &v->end);
    l->number = etg_line_records(canonical, sizeof canonical, length,
                                 records, ETG_MOST_NODES, nodes, node,
                                 &l->ordinary, &l->night, &l->holiday, &l->quarters, &l->hours);
    w->number = etg_week_records(canonical, sizeof canonical, length,
                                 records, ETG_MOST_NODES, nodes, node,
                                 &w->lines, &w->quarters, &w->hours, &w->bad);
}

static void show_value(const struct value *v)
{
    size_t written, i;

    if (v->number != ETG_ACCEPTED) {
        printf("value refused %" PRIu32, v->number);
        return;
    }
    if (v->kind == ETG_SINGLE)
        printf("single %.2f", (double)v->single);
    else if (v->kind == ETG_DOUBLE)
        printf("double %.2f", v->number64);
    else if (v->kind == ETG_WHOLE)
        printf("whole %" PRId64, v->whole);
    else
        printf("raw %zu to %zu", v->start, v->end);
    if (etg_put_value(v->kind, v->single, v->number64, v->whole, v->start, v->end,
                      canonical, sizeof canonical, out, sizeof out, &written) != ETG_ACCEPTED)
        printf(", not written");
    printf(" #");
    for (i = 0; i < written; i++)
        printf("%02x", out[i]);
    printf("#");
}

static void show_line(const struct line *l)
{
    if (l->number != ETG_ACCEPTED)
        printf("; line refused %" PRIu32, l->number);
    else
        printf("; line %.2f %.2f %.2f, %" PRIu32 " quarters, %.2f hours",
               l->ordinary, l->night, l->holiday, l->quarters, l->hours);
}

static void show_week(const struct week *w)
{
    if (w->number != ETG_ACCEPTED)
        printf("; week refused %" PRIu32 " at %zu", w->number, w->bad);
    else
        printf("; week of %zu lines, %" PRIu32 " quarters, %.2f hours",
               w->lines, w->quarters, w->hours);
}

static void show_total(double ordinary, double night, double holiday)
{
    struct line l = {0, 0, ordinary, night, holiday, 0};

    l.number = etg_total(ordinary, night, holiday, &l.quarters, &l.hours);
    printf("made up");
    show_line(&l);
    putchar('\n');
}

int main(int argc, char **argv)
{
    /* Static, so that what lies between fields is 0 in both. */
    static struct answers one, other;
    size_t length, nodes, place, node;
    const uint8_t *text;

    if (argc != 2) {
        fprintf(stderr, "usage: hours TEXT\n");
        return 2;
    }
    text = (const uint8_t *)argv[1];
    if (etg_read(ETG_ADVANCED, text, strlen(argv[1]), canonical, sizeof canonical,
                 table, NUMBERS, &length, &nodes, &place) != ETG_ACCEPTED
        || etg_read_records(ETG_ADVANCED, text, strlen(argv[1]), canonical, sizeof canonical,
                            records, ETG_MOST_NODES, &length, &nodes, &place) != ETG_ACCEPTED) {
        printf("read: refused\n");
        return 1;
    }
    /* One more than there are. */
    for (node = 0; node <= nodes; node++) {
        by_numbers(length, nodes, node, &one);
        by_records(length, nodes, node, &other);
        printf("%zu: ", node);
        show_value(&one.value);
        show_line(&one.line);
        show_week(&one.week);
        printf(memcmp(&one, &other, sizeof one) == 0 ? "\n" : "; over records otherwise\n");
    }
    show_total(8.0, 0.25, 0.0);
    show_total(-0.0, 0.0, 0.0);
    return 0;
}
