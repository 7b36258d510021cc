/* Reads answers and a sheet back by the six calls for it. Of Sheet A, but for one output label, what each tells; of answers that are
 * damaged, cut off or taken for others the refusal, and that a refusal leaves what was lent as it was. */
#include <stdio.h>
#include <stdlib.h>
#include <string.h>
#include "yeldmur.h"

enum { N = 3, KEPT = 77 };

static const uint8_t ROWS[] = "0 1 1 9 1\n0 2 2 2 0.5\n1 3 3 3 0.25\n1 2 5 5\n2 3 4 4 0.75\n3 0.5\n";

static uint8_t sheet[148], other[148], result[1000], distances[YELDMUR_DISTANCE * 4];
static uint32_t work[YELDMUR_SLOT * 64], states, links, taken, values;

static void fail(const char *what) {
    printf("failed: %s\n", what);
    exit(1);
}

static void make_answers(void) {
    uint64_t size;
    if (yeldmur_rows_to_sheet(ROWS, sizeof ROWS - 1, sheet, sizeof sheet, &size) || size != sizeof sheet) fail("the sheet");
    if (yeldmur_shortest_distance(sheet, sizeof sheet, work, sizeof work / 4, distances, sizeof distances, &values)) fail("distances");
    if (yeldmur_shortest_path(sheet, sizeof sheet, N, work, sizeof work / 4, result, sizeof result, &states, &links, &taken)) fail("list");
}

static void print_fields(void) {
    uint32_t nodes, count, finals, start, a, b, c, d;
    if (yeldmur_sheet_counts(sheet, sizeof sheet, &nodes, &count, &finals, &start)) fail("counts");
    printf("%u nodes, %u links, %u final, start %u\n", nodes, count, finals, start);
    for (uint32_t l = 0; l < count; l++) {
        if (yeldmur_link(sheet, sizeof sheet, l, &a, &b, &c, &d)) fail("a link");
        printf("link %u: labels %u %u, weight %08x, to %u\n", l, a, b, c, d);
    }
    for (uint32_t v = 0; v < nodes; v++) {
        if (yeldmur_node(sheet, sizeof sheet, v, &a, &b, &c)) fail("a node");
        printf("node %u: %u links, mark %u, weight %08x\n", v, a, b, c);
    }
    printf("past the last: %u %u\n", yeldmur_link(sheet, sizeof sheet, count, &a, &b, &c, &d), yeldmur_node(sheet, sizeof sheet, nodes, &a, &b, &c));
}

static void print_distances(void) {
    uint32_t reached;
    int32_t cost;
    for (uint32_t v = 0; v < values; v++) {
        if (yeldmur_distance(distances, sizeof distances, values, v, &reached, &cost)) fail("a distance");
        printf("distance of %u: reached %u, cost %d\n", v, reached, cost);
    }
}

static void print_readings(void) {
    uint32_t run[4], readings, count, end;
    int32_t cost;
    if (yeldmur_readings(result, sizeof result, N, states, links, &readings)) fail("readings");
    for (uint32_t k = 0; k < readings; k++) {
        if (yeldmur_reading(sheet, sizeof sheet, N, result, sizeof result, states, links, k, run, 4, &count, &cost, &end)) fail("a reading");
        printf("reading %u: cost %d, ends at %u, links", k, cost, end);
        for (uint32_t i = 0; i < count; i++) printf(" %u", run[i]);
        printf("\n");
    }
}

/* A call for a reading that must be refused, and leave the run and the numbers as they were. */
static void refuse_reading(const char *what, const uint8_t *of, size_t of_bytes, uint32_t n, const uint8_t *from, size_t from_bytes,
                           uint32_t k, size_t room) {
    uint32_t run[4] = {KEPT, KEPT, KEPT, KEPT}, count = KEPT, end = KEPT;
    int32_t cost = KEPT;
    uint32_t number = yeldmur_reading(of, of_bytes, n, from, from_bytes, states, links, k, run, room, &count, &cost, &end);
    for (uint32_t i = 0; i < 4; i++) if (run[i] != KEPT) fail(what);
    if (!number || count != KEPT || cost != KEPT || end != KEPT) fail(what);
    printf("%s: refused %u\n", what, number);
}

static void refuse_readings(void) {
    size_t whole = 20 * links + 12 * states + 20;
    uint32_t count = KEPT;
    printf("n of 65: refused %u\n", yeldmur_readings(result, whole, 65, states, links, &count));
    printf("a byte short: refused %u\n", yeldmur_readings(result, whole - 1, N, states, links, &count));
    printf("more readings than n: refused %u\n", yeldmur_readings(result, whole, N - 1, states, links, &count));
    if (count != KEPT) fail("a count told with a refusal");
    refuse_reading("a reading of 19 bytes", sheet, 19, N, result, whole, 0, 4);
    refuse_reading("a reading for n of 65", sheet, sizeof sheet, 65, result, whole, 9, 4);
    refuse_reading("a reading past the last", sheet, sizeof sheet, N, result, whole, 3, 4);
    refuse_reading("a reading of a cut result", sheet, sizeof sheet, N, result, whole - 1, 3, 4);
    refuse_reading("a run too short", sheet, sizeof sheet, N, result, whole, 2, 2);
    memcpy(other, sheet, sizeof sheet);
    other[144] = 1; /* the start */
    refuse_reading("a reading of another sheet", other, sizeof other, N, result, whole, 0, 4);
    other[144] = 4;
    refuse_reading("a start that is no node", other, sizeof other, N, result, whole, 0, 4);
}

static void refuse_distances(void) {
    uint32_t reached = KEPT;
    int32_t cost = KEPT;
    printf("a byte short: refused %u\n", yeldmur_distance(distances, sizeof distances - 1, values, 0, &reached, &cost));
    printf("no such node: refused %u\n", yeldmur_distance(distances, sizeof distances, values, values, &reached, &cost));
    distances[0] = 2; /* neither reached nor unreached */
    printf("a word of 2: refused %u\n", yeldmur_distance(distances, sizeof distances, values, 0, &reached, &cost));
    distances[0] = 0, distances[8 + 4] = 1; /* unreached, and off the grid */
    printf("off the grid: refused %u\n", yeldmur_distance(distances, sizeof distances, values, 1, &reached, &cost));
    if (reached != KEPT || cost != KEPT) fail("a distance told with a refusal");
    if (yeldmur_distance(distances, sizeof distances, values, 0, &reached, &cost)) fail("an unreached node");
    printf("words of 0: reached %u, cost %d\n", reached, cost);
}

/* Each byte of the answer damaged in turn: a reading that is told is one of the sheet, at its cost. */
static void damage_results(void) {
    uint32_t run[4], count, end, refused = 0, told = 0;
    int32_t cost;
    for (uint32_t at = 0; at < 20 * links + 12 * states + 20; at++) {
        result[at] ^= 1;
        for (uint32_t k = 0; k < N; k++) {
            uint32_t number = yeldmur_reading(sheet, sizeof sheet, N, result, sizeof result, states, links, k, run, 4, &count, &cost, &end);
            if (number && number != YELDMUR_NO_ANSWER && number != YELDMUR_ABSENT) fail("another number");
            if (!number && (end != 3 || cost != (count == 3 ? 144 : 112))) fail("no reading of the sheet");
            refused += number != 0, told += number == 0;
        }
        result[at] ^= 1;
    }
    printf("damaged results: %s, %s\n", refused ? "some refused" : "none refused", told ? "others readings of the sheet" : "none told");
}

int main(void) {
    make_answers();
    print_fields();
    print_distances();
    print_readings();
    refuse_readings();
    refuse_distances();
    damage_results();
    return 0;
}
