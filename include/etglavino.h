/* Etglavino: S-expressions (RFC 9804) read, written, corrected and compared.
 *
 * `make install` puts it where `pkg-config etglavino` finds it; or build it
 * by `rt lib` in crates/etglavino_c and link out/libetglavino_c.a there.
 * It needs nothing but the C library's memset and memcpy, allocates nothing,
 * keeps nothing between calls and never fails otherwise than by the number that
 * it returns.
 *
 * What a caller lends
 *   Pointers are never null: where a count is 0, any valid pointer will do.
 *   Each points to as many elements as the count after it says; tables and
 *   records are aligned as their types ask. No buffer that a function may
 *   write to overlaps another argument. Nothing else is asked: lengths, node
 *   counts, node numbers, forms and what stands in the buffers may be anything.
 *
 * Forms (both of what comes in and of what goes out)
 *   1 canonical, 2 basic, 3 advanced (RFC 9804), and of what comes in also 4,
 *   advanced with trees in base-64 in braces. Low bits that base-64 leaves
 *   over must be zero.
 *
 * A sheet is a tree's canonical form in the first `length` octets of a lent
 * buffer. Its table has nine numbers to a node, in the order in which nodes
 * begin: kind (0 string, 1 string with hint, 2 list), start, end (one past),
 * nodes in it counting itself, hint start and end, data start and end, offsets
 * being into the sheet, and the node number of the list directly around it, 0
 * for node 0. Without a hint both hint numbers are 0. A list's data is what
 * stands between its parentheses. A host keeps the table either
 * flat, as numbers, or as records; each function that takes a table comes in
 * both ways and gives the same answers.
 *
 * Stack that a call takes at most, in octets (x86-64), besides what the C
 * library's memset and memcpy take. Measured with rattle-kit-13f.
 *   etg_read                 119,656
 *   etg_read_records         121,848
 *   etg_write                 33,176
 *   etg_replace              120,824
 *   etg_replace_records      122,424
 *   etg_insert               120,808
 *   etg_insert_records       122,424
 *   etg_remove               120,808
 *   etg_remove_records       122,424
 *   etg_same                   2,376
 *   etg_hint                  65,856
 *   etg_hint_records          67,552
 *   etg_data                  65,856
 *   etg_data_records          67,552
 *   etg_spool_open             2,376
 *   etg_spool_add_start        2,456
 *   etg_spool_add_step            48
 *   etg_spool_add_commits          8
 *   etg_spool_add              2,472
 *   etg_value                 65,968
 *   etg_value_records         67,536
 *   etg_put_value                 48
 *   etg_line                  65,952
 *   etg_line_records          67,616
 *   etg_total                     32
 *   etg_week                  65,936
 *   etg_week_records          67,568
 *   etg_extract              137,000
 *   etg_extract_own          136,968
 *   etg_extract_records      138,616
 *   etg_extract_own_records  138,664
 *   etg_split                    120
 *   etg_pieces_start               8
 *   etg_pieces_feed              424
 *   etg_pieces_end            68,008
 *   etg_pieces_end_records    67,832
 *
 * Refusals. Every function but those that find a hint or data, that split a
 * run of sheets, or that go on with an addition to a spool, returns one of
 * these numbers; the start of a text in pieces returns nothing. In a refusal the
 * values given out are 0, but for `*place` with 3, for `*bad` of etg_week with 12
 * and for the state of a refused start, and every lent buffer holds what it held,
 * but for the sheet that a text in pieces went to.
 */
#ifndef ETGLAVINO_H
#define ETGLAVINO_H

#include <stddef.h>
#include <stdint.h>

#ifdef __cplusplus
extern "C" {
#endif

enum {
    ETG_CANONICAL = 1,
    ETG_BASIC = 2,
    ETG_ADVANCED = 3,
    ETG_1997 = 4        /* advanced, with base-64 of one tree's canonical
                           form in braces wherever a value may
                           stand; it is read and never written */
};

enum {
    ETG_ACCEPTED = 0,
    ETG_FORM = 1,       /* the form is not 1 to 4, or in writing not 1 to 3 */
    ETG_SOURCE_SIZE = 2, /* the source has over 32,768 octets */
    ETG_SYNTAX = 3,     /* the source is not in the form's language */
    ETG_DEPTH = 4,      /* lists nest over 128 deep */
    ETG_NODES = 5,      /* more nodes than records are lent */
    ETG_SIZE = 6,       /* the canonical form has over 16,384 octets, or the
                           result more than are lent */
    ETG_NOT_OWN = 7,    /* not the canonical form of one tree that fits, or the
                           table is not its own, or a length or count is
                           beyond what is lent; a raw value to be written
                           whose place is no part of the octets lent; a sheet
                           or a table of another size than at the start of a
                           text in pieces */
    ETG_NO_NODE = 8,    /* there is no node of that number */
    ETG_NO_PLACE = 9,   /* the node isn't a list, the list has no such place, or
                           node 0 is to be removed */
    ETG_DAMAGED = 10,   /* the area of a spool is damaged */
    ETG_NOT_TYPED = 11, /* the node is no value of its type: a list, octets of
                           a wrong length, an int that is not the shortest, NaN
                           or infinity; NaN or infinity to be written */
    ETG_NOT_LINE = 12   /* not a list of exactly three f64 strings, each 0 to 24
                           hours in whole quarters with the sign clear */
};

/* Kinds of a value; 0 in a refusal. */
enum {
    ETG_SINGLE = 1, /* hint `f32`: four octets, IEEE 754 big-endian */
    ETG_DOUBLE = 2, /* hint `f64`: eight */
    ETG_WHOLE = 3,  /* hint `int`: the shortest big-endian two's complement of at
                       most eight octets, zero being no octets */
    ETG_RAW = 4     /* any other hint, or none */
};

/* The version of this header. */
#define ETG_VERSION "0.1.0"

/* The most that a source, a canonical form, a table and an output can take.
   Nodes have no limit of their own: each takes two octets or more. */
#define ETG_MOST_SOURCE 32768
#define ETG_MOST_CANONICAL 16384
#define ETG_MOST_NODES 8192
#define ETG_RECORD 9 /* numbers to a record */

/* A node's record: the nine numbers of a flat table, in the same order. `parent`
 * is the number of the list directly around the node, and 0 for node 0. */
struct etg_record {
    uint32_t kind, start, end, nodes, hint_start, hint_end, data_start, data_end, parent;
};

/* The version of the library that is linked. This and the next one are in what
 * `make` builds and installs, and not in the archive of `rt lib` alone. */
const char *etg_version(void);

/* What a refusal's number means, in a sentence without capital and full stop;
 * never null. */
const char *etg_refusal_text(uint32_t number);

/* Reads `source` in `form` into canonical octets and their table.
 *
 * Refusals, the first that applies: 1, 2, 3, 4, 5, 6. `table_room` counts
 * numbers; a remainder of a division by 8 is never written.
 * On acceptance `*length` and `*nodes` tell the sheet's length and its node
 * count; octets and records past them stay as they were.
 * With refusal 3 in form 1, and in form 2 where the text does not begin with
 * `{`, `*place` tells how many octets of the text begin some canonical form, of
 * any size: the octet at that place is the first that is wrong, or the text is
 * cut short there. In all other cases it is 0. */
uint32_t etg_read(uint32_t form,
                  const uint8_t *source, size_t source_len,
                  uint8_t *canonical, size_t canonical_room,
                  uint32_t *table, size_t table_room,
                  size_t *length, size_t *nodes, size_t *place);

/* Writes a sheet in `form` to `out`.
 *
 * Refusals: 1, 7, 6. On acceptance `*written` tells how many octets were
 * written; output past them stays as it was. A sheet's output takes at most
 * twice its length and two octets more. */
uint32_t etg_write(uint32_t form,
                   const uint8_t *canonical, size_t canonical_room, size_t length,
                   uint8_t *out, size_t out_room,
                   size_t *written);

/* Replaces node `node` of a sheet, with its own table, by the tree of `text`,
 * in place. Node 0 is the whole.
 *
 * Refusals: 1, 2, 3, 7, 8, 4, 5, 6, where 4 to 6 speak of the tree with the
 * node replaced. On acceptance sheet and table are what reading the corrected
 * sheet afresh would give. Octets and records between the new end and a larger
 * old one become 0; past both nothing changes. `*place` is a place in `text`, as
 * etg_read tells it. */
uint32_t etg_replace(uint32_t form,
                     const uint8_t *text, size_t text_len,
                     uint8_t *canonical, size_t canonical_room,
                     uint32_t *table, size_t table_room,
                     size_t length, size_t nodes, size_t node,
                     size_t *new_length, size_t *new_nodes, size_t *place);

/* Puts the tree of `text` into the list that node `node` of a sheet is, as its
 * element `k`, counted from 0, in place. The list's element count as `k` puts it
 * at the end.
 *
 * Refusals: 1, 2, 3, 7, 8, 9, 4, 5, 6, where 4 to 6 speak of the tree with the
 * element in it. On acceptance sheet and table are what reading the changed
 * sheet afresh would give; past them nothing changes. `*place` is a place in
 * `text`, as etg_read tells it. */
uint32_t etg_insert(uint32_t form,
                    const uint8_t *text, size_t text_len,
                    uint8_t *canonical, size_t canonical_room,
                    uint32_t *table, size_t table_room,
                    size_t length, size_t nodes, size_t node, size_t k,
                    size_t *new_length, size_t *new_nodes, size_t *place);

/* Removes node `node` of a sheet, which is any but node 0, with all that is in
 * it, in place.
 *
 * Refusals: 7, 8, 9. On acceptance sheet and table are what reading the changed
 * sheet afresh would give. Octets and records between the new end and the old
 * one become 0, and the next insertion may use them. */
uint32_t etg_remove(uint8_t *canonical, size_t canonical_room,
                    uint32_t *table, size_t table_room,
                    size_t length, size_t nodes, size_t node,
                    size_t *new_length, size_t *new_nodes);

/* Compares two sheets: `*same` becomes 1 where they have the same shape, and
 * at each string the same data and the same hint, else 0. A missing hint
 * counts as `default_hint`; an empty hint is not a missing one.
 *
 * Refusal: 7. */
uint32_t etg_same(const uint8_t *a, size_t a_room, size_t a_length,
                  const uint8_t *b, size_t b_room, size_t b_length,
                  const uint8_t *default_hint, size_t default_len,
                  uint32_t *same);

/* Finds a node's hint. Returns 1 where sheet and table are good and the node
 * is a string with a hint: its octets are [*start, *end) of `canonical`.
 * Returns 0 in every other case, with both 0: the caller's own default holds. */
uint32_t etg_hint(const uint8_t *canonical, size_t canonical_room, size_t length,
                  const uint32_t *table, size_t table_room, size_t nodes, size_t node,
                  size_t *start, size_t *end);

/* Finds a node's data: a string's octets, or what stands between a list's
 * parentheses. Returns 1 where sheet and table are good and the node exists:
 * [*start, *end) of `canonical`. Else returns 0, with both 0. */
uint32_t etg_data(const uint8_t *canonical, size_t canonical_room, size_t length,
                  const uint32_t *table, size_t table_room, size_t nodes, size_t node,
                  size_t *start, size_t *end);

/* etg_read with the table lent as records.
 *
 * Refusals: as etg_read. `record_room` counts records. A refusal changes no
 * record; on acceptance records past the count stay as they were. */
uint32_t etg_read_records(uint32_t form,
                          const uint8_t *source, size_t source_len,
                          uint8_t *canonical, size_t canonical_room,
                          struct etg_record *records, size_t record_room,
                          size_t *length, size_t *nodes, size_t *place);

/* etg_replace with the table lent as records.
 *
 * Refusals: as etg_replace. `record_room` counts records. A refusal changes no
 * record. On acceptance records between the new count and a larger old one
 * become all zeros; records past both stay as they were. */
uint32_t etg_replace_records(uint32_t form,
                             const uint8_t *text, size_t text_len,
                             uint8_t *canonical, size_t canonical_room,
                             struct etg_record *records, size_t record_room,
                             size_t length, size_t nodes, size_t node,
                             size_t *new_length, size_t *new_nodes, size_t *place);

/* etg_insert and etg_remove with the table lent as records; `record_room` counts
 * records. A refusal changes no record. */
uint32_t etg_insert_records(uint32_t form,
                            const uint8_t *text, size_t text_len,
                            uint8_t *canonical, size_t canonical_room,
                            struct etg_record *records, size_t record_room,
                            size_t length, size_t nodes, size_t node, size_t k,
                            size_t *new_length, size_t *new_nodes, size_t *place);

uint32_t etg_remove_records(uint8_t *canonical, size_t canonical_room,
                            struct etg_record *records, size_t record_room,
                            size_t length, size_t nodes, size_t node,
                            size_t *new_length, size_t *new_nodes);

/* etg_hint with the table lent as records; `record_room` counts records. */
uint32_t etg_hint_records(const uint8_t *canonical, size_t canonical_room, size_t length,
                          const struct etg_record *records, size_t record_room,
                          size_t nodes, size_t node,
                          size_t *start, size_t *end);

/* etg_data with the table lent as records; `record_room` counts records. */
uint32_t etg_data_records(const uint8_t *canonical, size_t canonical_room, size_t length,
                          const struct etg_record *records, size_t record_room,
                          size_t nodes, size_t node,
                          size_t *start, size_t *end);

/* A spool: sheets that wait in a lent area.
 *
 * An entry is the sheet's length in groups of seven bits, lowest group first,
 * top bit set on all but the last, and then the sheet. An octet 0 where a length
 * would start, or the area's end, ends the spool: an area of zeros is empty.
 * What lies behind the end may be anything. An area is damaged if, before its
 * spool ends, a length has more groups than it needs or runs past the area, or
 * an entry is not one sheet.
 *
 * Opens an area. Refusal: 10. On acceptance `*count` tells how many entries
 * there are, and [*start, *end) of `area` is the sheet of the one with this
 * number from 0; where there is none such, both are 0. */
uint32_t etg_spool_open(const uint8_t *area, size_t area_size, size_t number,
                        size_t *count, size_t *start, size_t *end);

/* An addition under way. The numbers are the library's own business; any may
 * stand there. */
struct etg_spool_state {
    uint64_t opaque[4];
};

/* Starts to add the sheet in the first `length` octets of `sheet`: only the
 * checks are made. Refusals: 10, 7, and 6 where the entry is longer than what
 * follows the old entries. A refused start gives out a state that is done. */
uint32_t etg_spool_add_start(const uint8_t *area, size_t area_size,
                             const uint8_t *sheet, size_t sheet_size, size_t length,
                             struct etg_spool_state *state);

/* Stores one octet of an addition; returns 1 with the last one, and else 0. A
 * state that is done stores nothing and returns 1. An addition takes at most one
 * store more than its entry has octets. After a cut between any two, opening
 * shows the old entries, or those and the new one, and nothing else.
 *
 * `area` and `sheet` are those of the start. With others, or with other numbers
 * in the state, a call stores nothing or one octet inside `area`. */
uint32_t etg_spool_add_step(struct etg_spool_state *state,
                            uint8_t *area, size_t area_size,
                            const uint8_t *sheet, size_t sheet_size);

/* Whether the next step makes the last store, which shows the entry: 1 or 0. An
 * area that lies on a disk is synced before it, and after it. The stores before
 * it may reach the disk in any order. */
uint32_t etg_spool_add_commits(const struct etg_spool_state *state,
                               const uint8_t *area, size_t area_size,
                               const uint8_t *sheet, size_t sheet_size);

/* A whole addition: the start and all its steps, for an area that nobody sees
 * meanwhile. Within one call a compiler is free to join stores and to change
 * their order, so that an area which has to stand a cut is added to by steps.
 *
 * Refusals: as etg_spool_add_start; the area then holds what it held. On
 * acceptance the octet behind the new entry is 0, if the area has one; octets
 * past it stay as they were. That is said of the area when the call returns:
 * where a cut may come while it runs, take steps. */
uint32_t etg_spool_add(uint8_t *area, size_t area_size,
                       const uint8_t *sheet, size_t sheet_size, size_t length);

/* Sheets written back to back can be split in only one way. How many octets of
 * a run of sheets are its first one; 0 where none begins. The sheet may have any
 * size and depth: whether it fits is for whoever reads it. Nothing past its end
 * is looked at, nor the octets of its strings, so that a run of any number of
 * sheets is split in time that grows with its length and no faster:
 *
 *   while ((n = etg_split(run, len)) > 0) { use(run, n); run += n; len -= n; }
 *
 * What is then left, if anything, begins no sheet. */
size_t etg_split(const uint8_t *run, size_t len);

/* Texts in pieces */

/* A reading of canonical text that comes in pieces. The numbers are the
 * library's own business; any may stand there. They may be copied, and kept
 * between calls anywhere. */
struct etg_pieces_state {
    uint64_t opaque[10];
};

/* Starts a reading into a sheet with room for `canonical_size` octets and a
 * table of `table_size`: numbers of a flat table, or records. The state doesn't
 * know which, so keep to one of them up to the end. The table is not touched
 * before an accepted end, so that the start and the pieces take its size
 * alone. */
void etg_pieces_start(struct etg_pieces_state *state,
                      size_t canonical_size, size_t table_size);

/* The next piece of the text. It may be empty, and may be cut anywhere. Sheet
 * and table are the same each time, and left alone between.
 *
 * `*taken` tells the octets taken so far, up to 32,769: the text is then too
 * long, whatever comes. The sheet begins with them, as far as its room and
 * 16,384 go; past them it is as it was. Whether the text is one is told by the
 * end alone. After the same octets, however they were cut, state and sheet are
 * the same.
 *
 * Refusal: 7 where a size is not that of the start. `*taken` is 0 then, and
 * nothing changes, nor does the state. With other numbers in the state, or a
 * sheet that was changed between, a call still makes this check, and keeps
 * inside what is lent. */
uint32_t etg_pieces_feed(struct etg_pieces_state *state,
                         const uint8_t *piece, size_t piece_size,
                         uint8_t *canonical, size_t canonical_size, size_t table_size,
                         size_t *taken);

/* The end of the text: the answer of etg_read in form 1 on all octets fed, with
 * length, node count and place. On acceptance sheet and table are what etg_read
 * leaves. A refusal restores nothing: the sheet stays as the pieces left it, and
 * the table as it was.
 *
 * Refusals, the first that applies: 7 where a size is not that of the start, 2,
 * 3, 4, 5, 6. With other numbers in the state, or a sheet that was changed
 * between, a call still makes the first check, and keeps inside what is lent. */
uint32_t etg_pieces_end(const struct etg_pieces_state *state,
                        const uint8_t *canonical, size_t canonical_size,
                        uint32_t *table, size_t table_size,
                        size_t *length, size_t *nodes, size_t *place);

/* The same with the table lent as records; `record_count` counts records, and
 * is the table's size at the start. */
uint32_t etg_pieces_end_records(const struct etg_pieces_state *state,
                                const uint8_t *canonical, size_t canonical_size,
                                struct etg_record *records, size_t record_count,
                                size_t *length, size_t *nodes, size_t *place);

/* Values with a type, and hours */

/* A node's value, by its hint. `*kind` tells what it is; `*single`, `*number64`
 * and `*whole` carry it, or [*start, *end) of `canonical` has a raw one's
 * octets. What the kind doesn't use is 0.
 *
 * Refusals, the first that applies: 7, 8, 11. */
uint32_t etg_value(const uint8_t *canonical, size_t canonical_room, size_t length,
                   const uint32_t *table, size_t table_room, size_t nodes, size_t node,
                   uint32_t *kind, float *single, double *number64, int64_t *whole,
                   size_t *start, size_t *end);

/* The data octets of a value, written to `out`; a raw one's are copied from
 * [start, end) of `octets`. What the kind doesn't use is not looked at; any
 * number but 1 to 3 is raw. `*written` tells how many octets were written;
 * output past them stays as it was.
 *
 * Refusals: 7 where a raw place is not a part of `octets`, 11 for NaN and
 * infinity, 6. */
uint32_t etg_put_value(uint32_t kind, float single, double number64, int64_t whole,
                       size_t start, size_t end,
                       const uint8_t *octets, size_t octets_len,
                       uint8_t *out, size_t out_room,
                       size_t *written);

/* A node's shift line: a list of exactly three `f64` strings, its ordinary,
 * night and holiday hours, each 0 to 24 in whole quarters, with its total: the
 * exact count of quarters, and the double that is exactly a quarter of it.
 *
 * Refusals: 7, 8, 12. */
uint32_t etg_line(const uint8_t *canonical, size_t canonical_room, size_t length,
                  const uint32_t *table, size_t table_room, size_t nodes, size_t node,
                  double *ordinary, double *night, double *holiday,
                  uint32_t *quarters, double *hours);

/* The total of a line that the caller made up. Refusal: 12. */
uint32_t etg_total(double ordinary, double night, double holiday,
                   uint32_t *quarters, double *hours);

/* A list of lines: how many there are, and the sum of their totals, exact.
 *
 * Refusals: 7, 8, 12. With 12 `*bad` is the first element that is no line, or
 * the node itself where it is a string; else it is 0. */
uint32_t etg_week(const uint8_t *canonical, size_t canonical_room, size_t length,
                  const uint32_t *table, size_t table_room, size_t nodes, size_t node,
                  size_t *lines, uint32_t *quarters, double *hours, size_t *bad);

/* The same with the table lent as records; `record_room` counts records. */
uint32_t etg_value_records(const uint8_t *canonical, size_t canonical_room, size_t length,
                           const struct etg_record *records, size_t record_room,
                           size_t nodes, size_t node,
                           uint32_t *kind, float *single, double *number64, int64_t *whole,
                           size_t *start, size_t *end);

uint32_t etg_line_records(const uint8_t *canonical, size_t canonical_room, size_t length,
                          const struct etg_record *records, size_t record_room,
                          size_t nodes, size_t node,
                          double *ordinary, double *night, double *holiday,
                          uint32_t *quarters, double *hours);

uint32_t etg_week_records(const uint8_t *canonical, size_t canonical_room, size_t length,
                          const struct etg_record *records, size_t record_room,
                          size_t nodes, size_t node,
                          size_t *lines, uint32_t *quarters, double *hours, size_t *bad);

/* Gives the extract of a sheet for a foreman: the sheet with every list, at
 * any depth, whose first element is the unhinted string `private` replaced by
 * `()`.
 *
 * Refusals: 7, 5, 6, where 7 speaks of the sheet, and 5 and 6 of the extract
 * and the foreman's room. On acceptance `canonical` and `table` are what
 * reading the extract in form 1 would leave there, and `*new_length` and
 * `*new_nodes` tell its length and its node count. Sheets that differ only
 * inside such lists, both still beginning so, leave the same behind and get
 * the same answer. No octet that is hidden is ever written to what is lent. */
uint32_t etg_extract(const uint8_t *sheet, size_t sheet_room, size_t length,
                     uint8_t *canonical, size_t canonical_room,
                     uint32_t *table, size_t table_room,
                     size_t *new_length, size_t *new_nodes);

/* etg_extract of a sheet with its own table, which `rows` begins with; 7 also
 * where the table is not the sheet's own. */
uint32_t etg_extract_own(const uint8_t *sheet, size_t sheet_room, size_t length,
                         const uint32_t *rows, size_t rows_room, size_t nodes,
                         uint8_t *canonical, size_t canonical_room,
                         uint32_t *table, size_t table_room,
                         size_t *new_length, size_t *new_nodes);

/* etg_extract with the foreman's table lent as records. */
uint32_t etg_extract_records(const uint8_t *sheet, size_t sheet_room, size_t length,
                             uint8_t *canonical, size_t canonical_room,
                             struct etg_record *records, size_t record_room,
                             size_t *new_length, size_t *new_nodes);

/* etg_extract_own with both tables lent as records. */
uint32_t etg_extract_own_records(const uint8_t *sheet, size_t sheet_room, size_t length,
                                 const struct etg_record *rows, size_t rows_room,
                                 size_t nodes,
                                 uint8_t *canonical, size_t canonical_room,
                                 struct etg_record *records, size_t record_room,
                                 size_t *new_length, size_t *new_nodes);

#ifdef __cplusplus
}
#endif

#endif
