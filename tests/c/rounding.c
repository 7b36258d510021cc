/* Calls the library in every rounding mode, with denormal numbers kept and flushed to zero: each answer must be the one of the default
 * environment, cell by cell, and its costs those worked out here, also as the library reads them back. The one difference is a distance of 0 in which weights cancel: rounding
 * downward it is negative zero. Such a sum of what two sheets both allow is positive zero in every mode. Both units come in turn, and the same machines, whose costs are the same
 * whole numbers. All arithmetic of this program is in integers, so that no compiler can assume a mode for it. */
#include <fenv.h>
#include <stdio.h>
#include <stdlib.h>
#include <string.h>
#include <xmmintrin.h>
#include "yeldmur.h"

enum { NODES = YELDMUR_NODE_LIMIT, UNITS = YELDMUR_WEIGHT_LIMIT, WIDEST = YELDMUR_LINK_LIMIT / NODES, MOST = 10, FLUSHED = 0x8040 };

/* How many units are 1, 64 or 256; as a power of two; and the bytes of the trailer, the shorter with 64. */
static uint32_t unit, places;
static size_t ends;

/* A chain of nodes with parallel links. Weights are in units, or this one. */
enum { BARRED = INT32_MAX };
static uint32_t nodes, links, first[NODES + 1];
static int32_t weight[NODES * WIDEST], final_weight;
static uint8_t sheet[YELDMUR_LONG_SHEET_BYTES(NODES, NODES * WIDEST)];
static uint64_t size, drawings;

/* What a call leaves. */
struct answer { uint32_t number, counts[3], *work; uint8_t *result; };
static uint64_t slots, bytes;
static uint32_t negative_zeros;

static void fail(const char *what) {
    fesetround(FE_TONEAREST);
    printf("%s: chain of %u nodes and %u links\n", what, nodes, links);
    exit(1);
}

static uint32_t word(const uint8_t *at) { return at[0] | at[1] << 8 | at[2] << 16 | (uint32_t)at[3] << 24; }

/* The bits of so many units, and back. */
static uint32_t bits_of(int32_t units) {
    uint32_t size = units < 0 ? -units : units, top = 0;
    if (units == BARRED) return YELDMUR_BARRED;
    if (size == 0) return 0;
    while (size >> top != 1) top++;
    return (units < 0 ? 0x80000000u : 0) | (top + 127 - places) << 23 | (size << (23 - top) & 0x7fffff);
}

static int32_t units_of(uint32_t bits) {
    if (bits == 0) return 0;
    int32_t exponent = (int32_t)((bits >> 23 & 255) + places) - 150, digits = (bits & 0x7fffff) | 0x800000;
    if (exponent > 1 || exponent < -23 || (exponent < 0 && digits % (1 << -exponent))) fail("a value off the grid");
    digits = exponent < 0 ? digits >> -exponent : digits << exponent;
    return bits >> 31 ? -digits : digits;
}

static uint32_t drawn(uint32_t below) {
    drawings = drawings * 6364136223846793005u + 1442695040888963407u;
    return (uint32_t)(drawings >> 33) % below;
}

static void write_chain(void) {
    static uint32_t link_words[4 * NODES * WIDEST], node_words[3 * NODES];
    for (uint32_t v = 0; v < nodes; v++) {
        for (uint32_t l = first[v]; l < first[v + 1]; l++) {
            uint32_t fields[] = {l + 1, l + 1, bits_of(weight[l]), v + 1};
            memcpy(link_words + 4 * l, fields, sizeof fields);
        }
        uint32_t last = v + 1 == nodes, fields[] = {first[v + 1] - first[v], last, last ? bits_of(final_weight) : 0};
        memcpy(node_words + 3 * v, fields, sizeof fields);
    }
    uint32_t number = unit == 64 ? yeldmur_write_sheet(link_words, 4 * links, node_words, 3 * nodes, 0, sheet, sizeof sheet, &size)
                                 : yeldmur_write_sheet_in(link_words, 4 * links, node_words, 3 * nodes, 0, unit, sheet, sizeof sheet, &size);
    if (number) fail("not written");
}

/* Weights from `least` on, `spread` of them, drawn for each link. Where `balanced`, each second one has the other sign. */
static void draw_chain(uint32_t count, uint32_t width, int32_t least, uint32_t spread, int balanced) {
    nodes = count, links = 0;
    for (uint32_t v = 0; v < nodes; v++) {
        first[v] = links;
        for (uint32_t l = 0; v + 1 < nodes && l < width; l++) {
            int32_t units = least + (int32_t)drawn(spread);
            weight[links++] = balanced && v % 2 ? -units : units;
        }
    }
    first[nodes] = links;
    final_weight = least;
    write_chain();
}

/* Bars each second link on the average, but no node's first. */
static void bar_links(void) {
    for (uint32_t v = 0; v < nodes; v++)
        for (uint32_t l = first[v] + 1; l < first[v + 1]; l++) if (drawn(2)) weight[l] = BARRED;
    write_chain();
}

/* The `most` cheapest costs of runs as far as each node in turn, in order; without the final weight. */
static uint32_t cheapest(uint32_t most, uint32_t node, int32_t *costs) {
    uint32_t count = 1;
    costs[0] = 0;
    for (uint32_t v = 0; v < node; v++) {
        int32_t next[MOST];
        uint32_t put = 0;
        for (uint32_t l = first[v]; l < first[v + 1]; l++) {
            for (uint32_t k = 0; k < count && weight[l] != BARRED; k++) {
                int32_t cost = costs[k] + weight[l];
                uint32_t at = put < most ? put++ : most;
                for (; at > 0 && next[at - 1] > cost; at--) if (at < most) next[at] = next[at - 1];
                if (at < most) next[at] = cost;
            }
        }
        memcpy(costs, next, sizeof next);
        count = put;
    }
    return count;
}

static void check_distances(const struct answer *a) {
    int32_t least = 0;
    if (a->counts[0] != nodes) fail("not a distance for each node");
    for (uint32_t v = 0; v < nodes; v++) {
        if (word(a->result + 8 * v) != 1) fail("an unreached node");
        if (units_of(word(a->result + 8 * v + 4)) != least) fail("not the least distance");
        if (v + 1 == nodes) break;
        int32_t step = weight[first[v]];
        for (uint32_t l = first[v]; l < first[v + 1]; l++) if (weight[l] < step) step = weight[l];
        least += step;
    }
}

/* The cost along link l of the list's machine and then each state's only link. */
static int32_t cost_along(const struct answer *a, uint32_t l, uint32_t *inputs) {
    const uint8_t *states = a->result + 16 * a->counts[1], *words = states + 12 * a->counts[0] + ends;
    static uint32_t firsts[MOST * (NODES + 2) + 2];
    for (uint32_t s = 0, sum = 0; s < a->counts[0]; s++) firsts[s] = sum, sum += word(states + 12 * s);
    for (int32_t cost = 0;;) {
        uint32_t state = word(a->result + 16 * l + 12);
        cost += units_of(word(a->result + 16 * l + 8));
        if (word(words + 4 * l) != YELDMUR_NONE) ++*inputs;
        if (word(states + 12 * state + 4)) return cost + units_of(word(states + 12 * state + 8));
        l = firsts[state];
    }
}

static void check_list(const struct answer *a, uint32_t n) {
    int32_t costs[MOST];
    const uint8_t *trailer = a->result + 16 * a->counts[1] + 12 * a->counts[0];
    uint32_t start = word(trailer + 16), link = 0, count = cheapest(n, nodes - 1, costs);
    for (uint32_t s = 0; s < start; s++) link += word(a->result + 16 * a->counts[1] + 12 * s);
    if (word(a->result + 16 * a->counts[1] + 12 * start) != count) fail("not as many readings as there are");
    for (uint32_t k = 0; k < count; k++) {
        uint32_t inputs = 0;
        if (cost_along(a, link + k, &inputs) != costs[k] + final_weight) fail("not the cheapest readings");
        if (inputs + 1 != nodes) fail("not a reading");
    }
}

static void enter(int mode, uint32_t flushed) {
    fesetround(mode);
    feclearexcept(FE_ALL_EXCEPT);
    _mm_setcsr((_mm_getcsr() & ~FLUSHED) | flushed);
}

/* After a call the environment must be the caller's, with no flag raised. */
static void leave(int mode, uint32_t flushed) {
    int kept = fegetround() == mode && (_mm_getcsr() & FLUSHED) == flushed && !fetestexcept(FE_ALL_EXCEPT);
    _mm_setcsr(_mm_getcsr() & ~FLUSHED);
    fesetround(FE_TONEAREST);
    if (!kept) fail("another environment after the call");
}

/* Distances where n is 0. */
static void call(uint32_t n, int mode, uint32_t flushed, struct answer *a) {
    memset(a->counts, 0, sizeof a->counts);
    memset(a->work, 0xa5, 4 * YELDMUR_SLOT * slots);
    memset(a->result, 0xa5, bytes);
    enter(mode, flushed);
    if (n == 0) a->number = yeldmur_shortest_distance(sheet, size, a->work, YELDMUR_SLOT * slots, a->result, bytes, a->counts);
    else a->number = yeldmur_shortest_path(sheet, size, n, a->work, YELDMUR_SLOT * slots, a->result, bytes, a->counts, a->counts + 1, a->counts + 2);
    leave(mode, flushed);
    if (a->number) fail("refused");
}

/* Takes the sign off each distance that is negative zero. */
static void drop_signs(struct answer *a) {
    for (uint32_t v = 0; v < a->counts[0]; v++) {
        if (word(a->result + 8 * v + 4) != 0x80000000u) continue;
        a->result[8 * v + 7] = 0;
        negative_zeros++;
    }
}

/* What the library reads back in this environment: the costs worked out here. */
static void read_distances(const struct answer *a, int mode, uint32_t flushed) {
    int32_t costs[MOST], cost;
    for (uint32_t v = 0; v < nodes; v += nodes > 64 ? nodes / 7 : 1) {
        uint32_t reached;
        enter(mode, flushed);
        uint32_t number = yeldmur_distance_in(a->result, bytes, a->counts[0], v, unit, &reached, &cost);
        leave(mode, flushed);
        cheapest(1, v, costs);
        if (number || !reached || cost != costs[0]) fail("another distance read back");
    }
}

static void read_list(const struct answer *a, uint32_t n, int mode, uint32_t flushed) {
    static uint32_t run[NODES];
    uint32_t readings, count, end;
    int32_t costs[MOST], cost;
    enter(mode, flushed);
    uint32_t number = yeldmur_readings(a->result, bytes, n, a->counts[0], a->counts[1], &readings);
    leave(mode, flushed);
    if (number || readings != cheapest(n, nodes - 1, costs)) fail("another count read back");
    for (uint32_t k = 0; k < readings; k++) {
        enter(mode, flushed);
        number = yeldmur_reading(sheet, size, n, a->result, bytes, a->counts[0], a->counts[1], k, run, NODES, &count, &cost, &end);
        leave(mode, flushed);
        if (number || count + 1 != nodes || end + 1 != nodes || cost != costs[k] + final_weight) fail("another reading read back");
    }
}

static struct answer lent(void) {
    struct answer a = {0, {0, 0, 0}, malloc(4 * YELDMUR_SLOT * slots), malloc(bytes)};
    if (!a.work || !a.result) fail("no memory");
    return a;
}

static const struct { int mode; const char *name; } MODES[] = {
    {FE_TONEAREST, "to nearest"}, {FE_UPWARD, "upward"}, {FE_DOWNWARD, "downward"}, {FE_TOWARDZERO, "toward zero"}};

static void compare(uint32_t n) {
    if (yeldmur_areas(sheet, size, n ? n : 1, &slots, &bytes)) fail("no areas");
    struct answer plain = lent(), other = lent();
    call(n, FE_TONEAREST, 0, &plain);
    if (n == 0) check_distances(&plain);
    else check_list(&plain, n);
    for (uint32_t m = 0; m < 8; m++) {
        call(n, MODES[m / 2].mode, m % 2 ? FLUSHED : 0, &other);
        if (n == 0 && MODES[m / 2].mode == FE_DOWNWARD) drop_signs(&other);
        if (memcmp(plain.counts, other.counts, sizeof plain.counts) || memcmp(plain.result, other.result, bytes)
            || memcmp(plain.work, other.work, 4 * YELDMUR_SLOT * slots)) {
            printf("n = %u, rounding %s, denormal numbers %s: ", n, MODES[m / 2].name, m % 2 ? "flushed" : "kept");
            fail("another answer");
        }
        if (n == 0) read_distances(&other, MODES[m / 2].mode, m % 2 ? FLUSHED : 0);
        else read_list(&other, n, MODES[m / 2].mode, m % 2 ? FLUSHED : 0);
    }
    free(plain.work), free(plain.result), free(other.work), free(other.result);
}

/* The sheet's text rows, and the sheet that these give: with the shorter trailer alone. */
static void compare_rows(void) {
    if (unit != 64) return;
    static uint8_t text[NODES * (56 * WIDEST + 23)], other[sizeof text], again[sizeof sheet];
    uint64_t length, bytes = 0;
    if (yeldmur_sheet_to_rows(sheet, size, text, sizeof text, &length)) fail("no rows");
    for (uint32_t m = 0; m < 8; m++) {
        enter(MODES[m / 2].mode, m % 2 ? FLUSHED : 0);
        uint32_t number = yeldmur_sheet_to_rows(sheet, size, other, sizeof other, &bytes);
        leave(MODES[m / 2].mode, m % 2 ? FLUSHED : 0);
        if (number || bytes != length || memcmp(other, text, length)) fail("other rows");
        enter(MODES[m / 2].mode, m % 2 ? FLUSHED : 0);
        number = yeldmur_rows_to_sheet(text, length, again, sizeof again, &bytes);
        leave(MODES[m / 2].mode, m % 2 ? FLUSHED : 0);
        if (number || bytes != size || memcmp(again, sheet, size)) fail("another sheet of these rows");
    }
}

/* Its two parts at the middle node. */
static void compare_parts(void) {
    static uint8_t plain[YELDMUR_SPLIT_BYTES(NODES, NODES * WIDEST)], other[sizeof plain];
    uint32_t first, second, counts[2];
    if (yeldmur_split(sheet, size, nodes / 2, plain, sizeof plain, &first, &second)) fail("no parts");
    for (uint32_t m = 0; m < 8; m++) {
        enter(MODES[m / 2].mode, m % 2 ? FLUSHED : 0);
        uint32_t number = yeldmur_split(sheet, size, nodes / 2, other, sizeof other, counts, counts + 1);
        leave(MODES[m / 2].mode, m % 2 ? FLUSHED : 0);
        if (number || counts[0] != first || counts[1] != second || memcmp(other, plain, sizeof plain)) fail("other parts");
    }
}

static void compare_drawn(const char *kind) {
    int32_t cost[MOST];
    compare(0), compare(1), compare(2), compare(10), compare_rows(), compare_parts();
    cheapest(1, nodes - 1, cost);
    printf("%s, %u nodes, %u links: cheapest %d\n", kind, nodes, links, cost[0] + final_weight);
}

static void compare_chain(const char *kind, uint32_t count, uint32_t width, int32_t least, uint32_t spread, int balanced) {
    draw_chain(count, width, least, spread, balanced);
    compare_drawn(kind);
}

static void compare_barred(uint32_t count, int32_t least) {
    draw_chain(count, WIDEST, least, 2, 0);
    bar_links();
    compare_drawn("barred");
}

/* A chain of one label a link, and another with the same labels: what both allow has a link for each, of the sum of the two weights. */
enum { BOTH_NODES = 33, BOTH_LINKS = (BOTH_NODES - 1) * WIDEST };
static uint8_t one[YELDMUR_LONG_SHEET_BYTES(BOTH_NODES, BOTH_LINKS)];
static int32_t one_weight[BOTH_LINKS + 1];

static void keep_one(void) {
    memcpy(one, sheet, size);
    memcpy(one_weight, weight, sizeof *weight * links);
    one_weight[links] = final_weight;
}

/* The sum for link l, or for the final nodes where l is their count. */
static int32_t sum_for(uint32_t l) {
    int32_t other = l == links ? final_weight : weight[l];
    return one_weight[l] == BARRED || other == BARRED ? BARRED : one_weight[l] + other;
}

static uint32_t number_due(void) {
    for (uint32_t l = 0; l <= links; l++) {
        int32_t sum = sum_for(l);
        if (sum != BARRED && (sum > UNITS || sum < -UNITS)) return YELDMUR_SUM;
    }
    return YELDMUR_DONE;
}

static void check_both(const uint8_t *result, uint64_t told) {
    uint64_t trailer = 16 * links + 12 * nodes * nodes;
    if (told != trailer + ends || word(result + trailer + 12) != links) fail("another machine of what both allow");
    for (uint32_t l = 0; l < links; l++) if (word(result + 16 * l + 8) != bits_of(sum_for(l))) fail("another sum");
    if (word(result + trailer - 4) != bits_of(sum_for(links))) fail("another final sum");
}

static void compare_both(const char *kind) {
    static uint8_t result[YELDMUR_LONG_SHEET_BYTES(BOTH_NODES * BOTH_NODES, BOTH_LINKS)];
    uint32_t done = 0;
    for (uint32_t m = 0; m < 8; m++) {
        uint64_t told = 0;
        enter(MODES[m / 2].mode, m % 2 ? FLUSHED : 0);
        uint32_t number = yeldmur_two_probes(one, size, sheet, size, result, sizeof result, &told);
        leave(MODES[m / 2].mode, m % 2 ? FLUSHED : 0);
        if (number != number_due()) fail("another number for two sheets");
        if (number == 0) check_both(result, told);
        done += number == 0;
    }
    printf("both %s, %u nodes, %u links: answered in %u of 8\n", kind, nodes, links, done);
}

static void draw_two(const char *kind, int32_t least, int32_t other, uint32_t spread, int barred) {
    draw_chain(BOTH_NODES, WIDEST, least, spread, 0);
    if (barred) bar_links();
    keep_one();
    draw_chain(BOTH_NODES, WIDEST, other, spread, 0);
    compare_both(kind);
}

static void compare_two(void) {
    draw_two("dear", UNITS / 2 - 1, UNITS / 2 - 1, 2, 0);
    draw_two("cheap", -UNITS / 2, -UNITS / 2, 2, 0);
    draw_two("mixed", 1, -UNITS, UNITS, 0);
    draw_two("zero", 0, 0, 1, 0);
    draw_two("barred", UNITS, -1, 1, 1);
    draw_two("off the grid", UNITS / 2, UNITS / 2, 2, 0);
    draw_two("cancelled", UNITS, -UNITS, 1, 0);
}

/* A denormal weight is off the grid, also where it would be flushed to zero. */
static void compare_denormal(void) {
    static const uint32_t BITS[] = {1, 0x7fffff, 0x80000001, 0x807fffff, 0x80000000};
    draw_chain(2, 1, 1, 1, 0);
    for (uint32_t i = 0; i < 5; i++) {
        memcpy(sheet + 8, BITS + i, 4);
        for (uint32_t m = 0; m < 8; m++) {
            enter(MODES[m / 2].mode, m % 2 ? FLUSHED : 0);
            uint32_t number = yeldmur_read_sheet(sheet, size);
            leave(MODES[m / 2].mode, m % 2 ? FLUSHED : 0);
            if (number != YELDMUR_WEIGHT) fail("a denormal weight accepted");
        }
    }
    printf("denormal weights and negative zero: refused %d\n", YELDMUR_WEIGHT);
}

static void compare_unit(void) {
    /* above half the limit sums pass 2^23 units, and take all digits of single precision */
    static const uint32_t COUNTS[] = {2, 33, NODES / 2 + 1, NODES / 2 + 2, NODES - 500, NODES};
    for (uint32_t i = 0; i < 6; i++) {
        compare_chain("dear", COUNTS[i], i % 2 ? WIDEST : 2, UNITS - 1, 2, 0);
        compare_chain("cheap", COUNTS[i], i % 2 ? WIDEST : 2, -UNITS, 2, 0);
        compare_chain("balanced", COUNTS[i], 2, UNITS - 1, 2, 1);
    }
    compare_chain("dearest", NODES, 1, UNITS, 1, 0);
    compare_chain("dearest", NODES, WIDEST, UNITS, 1, 0);
    compare_chain("cheapest", NODES, WIDEST, -UNITS, 1, 0);
    compare_chain("zero", 64, 2, 0, 1, 0);
    negative_zeros = 0;
    compare_chain("level", 65, 2, UNITS, 1, 1);
    printf("negative zeros, rounding downward: %u\n", negative_zeros);
    compare_barred(3, UNITS - 1);
    compare_barred(33, -UNITS);
    compare_barred(NODES, UNITS - 1);
    compare_denormal();
    compare_two();
}

int main(void) {
    for (unit = 64; unit <= 256; unit *= 4) {
        places = unit == 64 ? 6 : 8;
        ends = unit == 64 ? YELDMUR_TRAILER : YELDMUR_LONG_TRAILER;
        drawings = 1;
        printf("unit %u\n", unit);
        compare_unit();
    }
    return 0;
}
