/* Yeldmur: sheets read and written, text rows turned into sheets and back, distances, lists of the
 * cheapest readings, the sheet of what two sheets both allow, and the two parts of a sheet, with every
 * promise proved. Link with libyeldmur.a, which `tools/library` writes.
 *
 * A slice is a pointer and a count of its elements, and not of bytes. No pointer is NULL, also where
 * the count is 0, as that of the work area may be for n = 0: malloc(0) may give NULL, so that a caller
 * asks for one element more, or hands over any other address that is aligned. A pointer to 32-bit or
 * 64-bit numbers is aligned for them, and no two of a call's areas and numbers overlap; slices that are
 * only read may, as where both sheets of yeldmur_two_probes are the same. The calls keep nothing, and take
 * no memory but the areas and up to YELDMUR_STACK bytes of stack, yeldmur_two_probes up to
 * YELDMUR_TWO_PROBES_STACK.
 *
 * A sheet ends in one of two trailers: the shorter, of 20 bytes, or the longer, of 24, whose sixth field is the
 * sheet's unit, 64 or 256. With the shorter the unit is 64. A weight is k/64 or k/256 by the sheet's unit, for a
 * whole k, and stands as a number in single precision. Costs are told by k, in the sheet's own unit, which
 * yeldmur_unit tells. No byte string passes test 1 under both trailers. A sheet that a call makes of another has the
 * other's trailer; what yeldmur_two_probes makes, the first's.
 *
 * Where tests "1 to 4", "1 to 6" or "1 to 7" are named, 14 is among them, right after 1.
 *
 * The proofs are about rounding to nearest; what follows of other modes is tested, not proved. Weights
 * are summed in single precision, and every sum is exact, or infinite over what is barred. So an answer is
 * the same in every rounding mode of fenv.h, but for the sign of a distance of 0 in which weights cancel:
 * it is negative zero where the caller rounds downward. No weight or sum is denormal, so that flushing these
 * to zero changes nothing. The calls leave the floating-point environment as it is, and raise no flag.
 *
 * Each call returns 0 or the number of a refusal. A refusal leaves the numbers behind `size`,
 * `values`, `states`, `links`, `taken`, `first`, `second`, `slots`, `bytes` and those of the calls that read
 * back as they were. In 1 to 20 no area changes.
 * From then on, 21 included, the work slots needed are left zero and those beyond keep their value.
 * With 21 the result area keeps its bytes; bytes past an answer keep their value.
 *
 * N is the count of a sheet's nodes, T that of its links, F that of its nodes with mark 1. */
#ifndef YELDMUR_H
#define YELDMUR_H

#include <stddef.h>
#include <stdint.h>

#ifdef __cplusplus
extern "C" {
#endif

enum {
    YELDMUR_DONE = 0,
    /* length, offsets, a count or offset too big for its field, marks, an absent final's weight field
     * or the sum of link counts is not as laid out under either trailer */
    YELDMUR_LAYOUT = 1,
    /* start neither below N nor none */
    YELDMUR_START = 2,
    /* next node not below N */
    YELDMUR_NEXT = 3,
    /* a weight that is neither on the grid, k/64 or, where the unit is 256, k/256 for a whole k up to
     * YELDMUR_WEIGHT_LIMIT either way, nor YELDMUR_BARRED; NaN, negative infinity and negative zero are neither */
    YELDMUR_WEIGHT = 4,
    /* N above YELDMUR_NODE_LIMIT or T above YELDMUR_LINK_LIMIT */
    YELDMUR_LIMITS = 5,
    /* a link that does not lead to a higher node */
    YELDMUR_CLIMB = 6,
    /* n above YELDMUR_LIST_LIMIT */
    YELDMUR_COUNT = 7,
    /* a text without rows, a row that cannot be read or a second final row for a node; tested before all
     * others */
    YELDMUR_ROWS = 8,
    /* a sheet that has no rows, as one with the longer trailer */
    YELDMUR_NO_ROWS = 9,
    /* of two sheets, a link of either, reached or not, whose input label is 0 or is not its output label */
    YELDMUR_LABELS = 10,
    /* what two sheets both allow has more than YELDMUR_NODE_LIMIT nodes or YELDMUR_LINK_LIMIT links */
    YELDMUR_PRODUCT = 11,
    /* the weights of two links with one label, or of two final nodes, have a finite sum off the grid: more than
     * YELDMUR_WEIGHT_LIMIT units either way */
    YELDMUR_SUM = 12,
    /* a machine that does not narrow to node c: c is not below N, the start is absent or above c, a node below c
     * has mark 1, or a link leads from below c to above it; reached or not, barred or not */
    YELDMUR_NARROW = 13,
    /* a unit that is neither 64 nor 256; or of two sheets the second has another unit than the first. Tested right
     * after that sheet's 1 */
    YELDMUR_UNIT = 14,
    /* work area shorter than needed, in slots of eight 32-bit words: none for n = 0; N for distances
     * and for n = 1; otherwise N + T + 2 x F + 2 + n x (T + 1) */
    YELDMUR_WORK = 20,
    /* result area shorter than this very answer */
    YELDMUR_RESULT = 21,
    /* a result that is no answer: it cannot be read back as the list, or the distances, that it is said to
     * hold */
    YELDMUR_NO_ANSWER = 30,
    /* no reading, distance, link or node has this number */
    YELDMUR_ABSENT = 31
};

/* The limits: the most nodes and links of a sheet that is searched, the most units of a weight that is not
 * barred either way, so that the largest weight is 128 or, where the unit is 256, 32, and the most readings
 * that a list is asked for. */
#define YELDMUR_NODE_LIMIT 2048u
#define YELDMUR_LINK_LIMIT 16384u
#define YELDMUR_WEIGHT_LIMIT 8192
#define YELDMUR_LIST_LIMIT 64u

/* The words of a work slot. */
#define YELDMUR_SLOT 8u

/* The bytes of a distance: two words. */
#define YELDMUR_DISTANCE 8u

/* Bytes of stack that are enough for a call: measured at the limits with a painted stack. Most of it are
 * 8 KB of final nodes, by which a second final row is found, where rows are read; in a search the queue's
 * record of 2 KB and a copy. */
#define YELDMUR_STACK 10240u

/* The same for yeldmur_two_probes. Most of it are 384 KB of keys: of the links of either sheet, by which those
 * of one label are found, and of the links of the answer. */
#define YELDMUR_TWO_PROBES_STACK 401408u

/* The bytes of the two trailers. */
#define YELDMUR_TRAILER 20u
#define YELDMUR_LONG_TRAILER 24u

/* The bytes of the trailer of a sheet that has passed test 1: those that its nodes and links leave. */
#define YELDMUR_TRAILER_OF(sheet_bytes, nodes, links) \
    ((size_t)(sheet_bytes) - 16 * (size_t)(links) - 12 * (size_t)(nodes))

/* The bytes of a sheet of so many nodes and links: with a trailer of so many bytes, with the shorter and with the
 * longer. */
#define YELDMUR_SHEET_WITH(trailer, nodes, links) (16 * (size_t)(links) + 12 * (size_t)(nodes) + (size_t)(trailer))
#define YELDMUR_SHEET_BYTES(nodes, links) YELDMUR_SHEET_WITH(YELDMUR_TRAILER, nodes, links)
#define YELDMUR_LONG_SHEET_BYTES(nodes, links) YELDMUR_SHEET_WITH(YELDMUR_LONG_TRAILER, nodes, links)

/* The bytes of the longest sheet that yeldmur_two_probes writes: that of as many nodes and links as the limits
 * allow, with the longer trailer. In a result area of so many bytes it refuses nothing with 21. */
#define YELDMUR_TWO_PROBES_BYTES 286744u

/* The bytes of what yeldmur_split writes of a sheet of so many nodes and links with a trailer of so many bytes:
 * 20 x T + 12 x (N + 1) and two trailers, whatever c is. */
#define YELDMUR_SPLIT_WITH(trailer, nodes, links) \
    (20 * (size_t)(links) + 12 * ((size_t)(nodes) + 1) + 2 * (size_t)(trailer))

/* Those with the longer trailer, and so a result area in which yeldmur_split does not refuse a sheet of so many nodes
 * and links with 21, whichever trailer it has. With the limits it holds the parts of every sheet. */
#define YELDMUR_SPLIT_BYTES(nodes, links) YELDMUR_SPLIT_WITH(YELDMUR_LONG_TRAILER, nodes, links)

/* Where in the result of yeldmur_split for node c the numbers of the first part's links stand, and where the second
 * part begins: by the bytes of the sheet's trailer, which both parts have, and `first`, the count that it told. */
#define YELDMUR_SPLIT_NUMBERS(trailer, c, first) YELDMUR_SHEET_WITH(trailer, (size_t)(c) + 1, first)
#define YELDMUR_SPLIT_SECOND(trailer, c, first) (YELDMUR_SPLIT_NUMBERS(trailer, c, first) + 4 * (size_t)(first))

/* The start of a sheet that has none, and the word of a link that repeats no input link. */
#define YELDMUR_NONE 0xffffffffu

/* The weight bits of a link or a final node that is barred: positive infinity. A reading has a finite cost,
 * so that none goes over such a link or ends at such a node. */
#define YELDMUR_BARRED 0x7f800000u

/* Reads a sheet: tests 1 to 4. */
uint32_t yeldmur_read_sheet(const uint8_t *sheet, size_t sheet_bytes);

/* Writes a sheet with the shorter trailer, so that weights are k/64, of links, four words each (input label,
 * output label, weight bits, next node), and nodes, three words each (link count, final mark, final weight
 * bits): tests 1 to 4, then 21. `size` becomes its bytes, YELDMUR_SHEET_BYTES. */
uint32_t yeldmur_write_sheet(const uint32_t *links, size_t links_words,
                             const uint32_t *nodes, size_t nodes_words, uint32_t start,
                             uint8_t *result, size_t result_bytes, uint64_t *size);

/* The same with the longer trailer and weights in `unit`, 64 or 256. `size` becomes its bytes,
 * YELDMUR_LONG_SHEET_BYTES. */
uint32_t yeldmur_write_sheet_in(const uint32_t *links, size_t links_words,
                                const uint32_t *nodes, size_t nodes_words, uint32_t start, uint32_t unit,
                                uint8_t *result, size_t result_bytes, uint64_t *size);

/* Reads a sheet, tests 1 to 4, and tells its unit, 64 or 256. */
uint32_t yeldmur_unit(const uint8_t *sheet, size_t sheet_bytes, uint32_t *unit);

/* Turns text rows into a sheet with the shorter trailer: tests 8, 1, 4, then 21. `size` becomes its bytes,
 * YELDMUR_SHEET_BYTES. A row is a link, by its source, next node, input label, output label and
 * weight, or a final node with its weight; a weight that is left out is 0. The first row's first node is the
 * start, nodes run to the highest number named, and a node's links stand in row order. Runs of spaces or tabs part
 * fields and may stand at a row's ends; a newline ends each row, the last too. Numbers are digits
 * within 32 bits. Weights, taken exactly, are digits, with an optional minus sign before (-0 is 0) and
 * perhaps a point and one to six digits after; or Infinity, in this spelling alone, which is
 * YELDMUR_BARRED. The text is read four times, and at the most once more for each 2,047 final rows. */
uint32_t yeldmur_rows_to_sheet(const uint8_t *text, size_t text_bytes,
                               uint8_t *result, size_t result_bytes, uint64_t *size);

/* Turns a sheet into text rows, which convert to that very sheet: tests 1 to 4, 9, then 21. `size`
 * becomes their bytes. The start's rows come first, then the others' by rising node, links before the
 * final row; one tab stands between fields, numbers are in their shortest form, a weight of 0 is left
 * out, and YELDMUR_BARRED is Infinity. A sheet has rows if it has the shorter trailer, its start is
 * present and has a link or a mark, and its last node has a link, a mark or a link to it. */
uint32_t yeldmur_sheet_to_rows(const uint8_t *sheet, size_t sheet_bytes,
                               uint8_t *result, size_t result_bytes, uint64_t *size);

/* The bytes of the sheet that text rows give: tests 8, 1 and 4. In a result area of so many `bytes`, or
 * a longer one, yeldmur_rows_to_sheet refuses nothing. A short text that names a high node gives a long
 * sheet. */
uint32_t yeldmur_rows_sheet_bytes(const uint8_t *text, size_t text_bytes, uint64_t *bytes);

/* The bytes of the text rows that a sheet gives: tests 1 to 4 and 9. In a result area of so many
 * `bytes`, or a longer one, yeldmur_sheet_to_rows refuses nothing. */
uint32_t yeldmur_sheet_rows_bytes(const uint8_t *sheet, size_t sheet_bytes, uint64_t *bytes);

/* The distances of a sheet's nodes: tests 1 to 6, 20 and 21. The result has one value per node, two words
 * each, 32-bit and little-endian: 1 and the weight bits, or 0 and 0 for an unreached node. A barred link
 * reaches nothing, so that distances are finite. The values go up to the highest node that is reached, or
 * that a link from a reached node leads to, barred or not. `values` becomes how many there are,
 * YELDMUR_DISTANCE bytes each. Areas for n = 1 are long enough. */
uint32_t yeldmur_shortest_distance(const uint8_t *sheet, size_t sheet_bytes,
                                   uint32_t *work, size_t work_words,
                                   uint8_t *result, size_t result_bytes, uint32_t *values);

/* The n cheapest readings of a sheet, n up to 64: tests 1 to 7, 20 and 21. The result is the list's
 * machine as a sheet, YELDMUR_SHEET_WITH the trailer of the sheet given, and then one 32-bit word per link of
 * it: the number, from 0, of the input link that it repeats, or YELDMUR_NONE. `states` and `links` become the
 * counts of that machine, `taken` the entries that the search has taken. From n = 2 the k-th reading lies
 * along the start's k-th link and then each state's only link as far as the final state; with n = 1 a
 * machine that is not empty holds the one reading along its one way. A reading's links are the input
 * links repeated on its way, in order.
 * Lists of one sheet are nested in their costs: for k up to n, both from 1, the costs listed for k are the first k
 * of those listed for n, or all of them where there are fewer; and the best reading, that of n = 1, if there is one,
 * costs what heads every list. Without one all are empty. Readings that tie may differ: the list for k may hold other
 * readings of its last cost than the longer one has among its first k, and the order of those of one cost is each
 * list's own. Of each lower cost both hold the same readings; one on the list for k that costs what no other does has
 * the same rank on both; and each on it is somewhere on the longer, unless that is full and holds none that is dearer.
 * Where k is below n, and the cost listed behind the first k for n, if there is one, is higher than theirs, these k
 * readings are those of the list for k. A program that wants just the list for k makes the call for k. */
uint32_t yeldmur_shortest_path(const uint8_t *sheet, size_t sheet_bytes, uint32_t n,
                               uint32_t *work, size_t work_words,
                               uint8_t *result, size_t result_bytes,
                               uint32_t *states, uint32_t *links, uint32_t *taken);

/* Writes the sheet of what two sheets both allow, as two probes in one oven give two machines of the same bake:
 * tests 1 to 6 of the first sheet, 1 to 6 of the second, then 10, 11, 12 and 21. The second's 14 is also that its
 * unit is not the first's; one with the shorter trailer and one with the longer and unit 64 are of one unit. The
 * answer's node for node i of the first and j of the second is i x N + j, by the second's N. It has a link for each
 * link of the first and each of the second that has the same label: with that label, from the node for their sources
 * to the node for their next nodes, of the sum of their weights. A node's links are listed by the first's link
 * number, then the second's. A node is final if both are, and its final weight is the sum of theirs. What is added to
 * YELDMUR_BARRED is barred. The start is the node for both starts, or YELDMUR_NONE where either sheet has none.
 * The answer's readings are the pairs of a reading of each sheet with the same labels, each pair once, and cost
 * their sum; it passes tests 1 to 6 itself. `size` becomes its bytes, YELDMUR_SHEET_WITH the first's trailer.
 * There is no work area. Enough are 16 x the lesser of YELDMUR_LINK_LIMIT and the product of the two T,
 * 12 x the lesser of YELDMUR_NODE_LIMIT and the product of the two N, and 24: YELDMUR_TWO_PROBES_BYTES at the most. */
uint32_t yeldmur_two_probes(const uint8_t *first, size_t first_bytes,
                            const uint8_t *second, size_t second_bytes,
                            uint8_t *result, size_t result_bytes, uint64_t *size);

/* Parts a machine that narrows to node c, as one in which preheat ends there: tests 1 to 6, then 13 and 21. The
 * first part has the nodes up to c and the links that leave those below c; c is final in it, at weight 0, and has
 * no links. The second part has the nodes from c on, which count from 0 there, and their links, and starts at c; c
 * keeps its mark, weight and links. Labels, weights and the order of links are the sheet's, and the first part's
 * start is the sheet's. The result is the first part as a sheet, with c + 1 nodes, and one 32-bit word per link of
 * it: the number that the link has in the sheet given; then the second part, with N - c nodes, and the same. The
 * four follow each other without a gap, YELDMUR_SPLIT_WITH the sheet's trailer in all. `first` and `second` become
 * how many links each part has. So the first part's link l is link l of the sheet, and the second's is link
 * `first` + l. For every n from 1 to 64 the costs of the sheet's list are the n least sums of one cost from each
 * part's list for n, or all of them where there are fewer; both parts pass tests 1 to 6 themselves. There is no work
 * area. */
uint32_t yeldmur_split(const uint8_t *sheet, size_t sheet_bytes, uint32_t c,
                       uint8_t *result, size_t result_bytes, uint32_t *first, uint32_t *second);

/* How many readings the result of yeldmur_shortest_path for n holds, `states` and `links` being the counts
 * that it told: tests 7, then 30. A result is no answer where it is shorter than these counts say, or has
 * more than n readings. No sheet is at hand that tells which trailer it has, so that as many bytes are enough as
 * with the shorter. So the result of a sheet with the longer trailer, cut by up to four bytes, is still counted,
 * while yeldmur_reading, which goes by the sheet's own trailer, answers 30 for it. What follows the answer's
 * bytes is not looked at. `count` becomes how many there are, n at the most. */
uint32_t yeldmur_readings(const uint8_t *result, size_t result_bytes, uint32_t n,
                          uint32_t states, uint32_t links, uint32_t *count);

/* Reading k, from 0 and cheapest first, of the result of yeldmur_shortest_path on this sheet and n: tests 1
 * to 7, then 30 as yeldmur_readings gives it, but by the sheet's own trailer, 31 where k is not below the count,
 * 30 where the way of reading k leaves the result or is no reading of the sheet, then 21 where `run` is too short
 * for it. `run` begins with the numbers of its links in the sheet, from the start on; YELDMUR_NODE_LIMIT words are
 * always enough. `count` becomes how many links there are, `cost` the sum of their weights and the final weight, in
 * the sheet's unit, and `end` the node where it ends. Of a result that is the answer of this sheet and n these are
 * those of the list. Of any other, what is told is still a reading of the sheet at its cost. */
uint32_t yeldmur_reading(const uint8_t *sheet, size_t sheet_bytes, uint32_t n,
                         const uint8_t *result, size_t result_bytes, uint32_t states, uint32_t links,
                         uint32_t k, uint32_t *run, size_t run_words,
                         uint32_t *count, int32_t *cost, uint32_t *end);

/* The distance of a node, from the result of yeldmur_shortest_distance, which told `values`: tests 30 where
 * the result is shorter than so many values, 31 where the node is not below `values`, then 30 where its two
 * words are no distance in sixty-fourths, as they may be where the sheet's unit is 256. `reached` becomes 1 and
 * `cost` the distance in sixty-fourths, or both become 0 where the node is unreached. Negative zero, which a
 * caller that rounds downward may find where weights cancel, is no distance. */
uint32_t yeldmur_distance(const uint8_t *result, size_t result_bytes, uint32_t values, uint32_t node,
                          uint32_t *reached, int32_t *cost);

/* The same with `cost` in this unit, the sheet's own, 64 or 256, which the result does not say: tests 14 for another
 * one, then 30, 31 and 30. */
uint32_t yeldmur_distance_in(const uint8_t *result, size_t result_bytes, uint32_t values, uint32_t node,
                             uint32_t unit, uint32_t *reached, int32_t *cost);

/* Reads a sheet, tests 1 to 4, and tells its counts: N, T and F, and its start or YELDMUR_NONE. */
uint32_t yeldmur_sheet_counts(const uint8_t *sheet, size_t sheet_bytes,
                              uint32_t *nodes, uint32_t *links, uint32_t *finals, uint32_t *start);

/* The fields of a link of a sheet that has passed tests 1 to 4, by its number from 0: 31 past the last. The
 * links of a node follow those of the node before. `weight_bits` may be YELDMUR_BARRED. */
uint32_t yeldmur_link(const uint8_t *sheet, size_t sheet_bytes, uint32_t number,
                      uint32_t *ilabel, uint32_t *olabel, uint32_t *weight_bits, uint32_t *next);

/* The fields of a node of a sheet that has passed tests 1 to 4, by its number from 0: 31 past the last. `links`
 * becomes how many leave it, `mark` 0 or 1, `weight_bits` those of its final weight, which may be YELDMUR_BARRED,
 * and 0 where the mark is 0. */
uint32_t yeldmur_node(const uint8_t *sheet, size_t sheet_bytes, uint32_t number,
                      uint32_t *links, uint32_t *mark, uint32_t *weight_bits);

/* The areas for yeldmur_shortest_path on this sheet and n: tests 1 to 7. `slots` becomes the work slots
 * that it needs, `bytes` as many as its result has at the most: with a work area of YELDMUR_SLOT x slots
 * words and a result area of so many bytes, or longer ones, it refuses nothing; nor, for n = 1, does
 * yeldmur_shortest_distance. */
uint32_t yeldmur_areas(const uint8_t *sheet, size_t sheet_bytes, uint32_t n,
                       uint64_t *slots, uint64_t *bytes);

/* The areas for yeldmur_shortest_path for n, and for n = 1 for yeldmur_shortest_distance, on every
 * accepted sheet, of either trailer, with at most so many nodes, links and nodes with mark 1: tests 5 and 7 of
 * these counts alone. Of a sheet's own N, T and F it tells what yeldmur_areas tells of one with the longer
 * trailer, 4 bytes more than of one with the shorter. More `finals` than nodes count as that many nodes, so that
 * YELDMUR_NONE stands for an F that is not known. */
uint32_t yeldmur_areas_of(uint32_t nodes, uint32_t links, uint32_t finals, uint32_t n,
                          uint64_t *slots, uint64_t *bytes);

#ifdef __cplusplus
}
#endif

#endif
