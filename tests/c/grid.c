/* The test of weights from outside, on a link's and on a final one: a pattern is accepted where it is k/64 with |k| up to the limit, or that of
 * what is barred, and refused with 4 elsewhere; the same with k/256 where the trailer says that unit. Each 127th pattern of 32 bits is read, or with the
 * argument 1 every one; the step is odd, so that all low digits come up. Those without a stored digit, powers of two above all, and each half of a
 * unit up to twice the limit with its neighbours, are read and written. Weights are made here by dividing, and looked up. */
#include <stdio.h>
#include <stdlib.h>
#include <string.h>
#include "yeldmur.h"

enum { MOST = YELDMUR_WEIGHT_LIMIT, WEIGHTS = 2 * MOST + 2, STEP = 127 };

/* The patterns of the weights, rising. */
static uint32_t weights[WEIGHTS];

/* A link from the only node to itself, the node, the longer trailer; and the node alone, final. */
static uint32_t link_sheet[] = {1, 1, 0, 0, 1, 0, 0, 0, 16, 1, 1, 0, 256}, final_sheet[] = {0, 1, 0, 0, 0, 1, 0, 0, 256};

/* The unit: with 64 the sheets go without their last word. */
static uint32_t unit;

static uint64_t tested, differing;

static uint32_t bits_of(float weight) {
    uint32_t bits;
    memcpy(&bits, &weight, sizeof bits);
    return bits;
}

static int rising(const void *a, const void *b) {
    uint32_t x = *(const uint32_t *)a, y = *(const uint32_t *)b;
    return (x > y) - (x < y);
}

static uint32_t number_of(uint32_t bits) {
    return bsearch(&bits, weights, WEIGHTS, sizeof *weights, rising) ? YELDMUR_DONE : YELDMUR_WEIGHT;
}

static uint32_t read_sheet(const uint32_t *sheet, size_t bytes) { return yeldmur_read_sheet((const uint8_t *)sheet, unit == 64 ? bytes - 4 : bytes); }

static uint32_t write_sheet(const uint32_t *links, size_t links_words, const uint32_t *nodes) {
    uint8_t result[sizeof link_sheet];
    uint64_t size;
    if (unit == 64) return yeldmur_write_sheet(links, links_words, nodes, 3, 0, result, sizeof result, &size);
    return yeldmur_write_sheet_in(links, links_words, nodes, 3, 0, unit, result, sizeof result, &size);
}

static void test_read(uint32_t bits, uint32_t number) {
    link_sheet[2] = final_sheet[2] = bits;
    tested++;
    differing += read_sheet(link_sheet, sizeof link_sheet) != number;
    differing += read_sheet(final_sheet, sizeof final_sheet) != number;
}

/* The sheets' own fields, handed over apart. */
static void test_written(uint32_t bits) {
    test_read(bits, number_of(bits));
    differing += write_sheet(link_sheet, 4, link_sheet + 4) != number_of(bits);
    differing += write_sheet(link_sheet, 0, final_sheet) != number_of(bits);
}

static void test_unit(uint64_t step) {
    tested = differing = 0;
    for (int k = -MOST; k <= MOST; k++) weights[k + MOST] = bits_of((float)k / (float)unit);
    weights[WEIGHTS - 1] = YELDMUR_BARRED;
    qsort(weights, WEIGHTS, sizeof *weights, rising);
    for (uint64_t bits = 0, next = 0; bits >> 32 == 0; bits += step) {
        while (next < WEIGHTS && weights[next] < bits) next++;
        test_read((uint32_t)bits, next < WEIGHTS && weights[next] == bits ? YELDMUR_DONE : YELDMUR_WEIGHT);
    }
    for (uint32_t top = 0; top < 512; top++) test_written(top << 23);
    for (int half = -4 * MOST; half <= 4 * MOST; half++)
        for (uint32_t near = 0; near < 3; near++) test_written(bits_of((float)half / (float)(2 * unit)) + near - 1);
    printf("unit %u, %llu patterns: %llu answers differ\n", unit, (unsigned long long)tested, (unsigned long long)differing);
}

int main(int count, char **words) {
    uint64_t step = count > 1 ? strtoull(words[1], NULL, 10) : STEP, differ = 0;
    if (step == 0) return 2;
    for (unit = 64; unit <= 256; unit *= 4) {
        test_unit(step);
        differ += differing;
    }
    return differ != 0;
}
