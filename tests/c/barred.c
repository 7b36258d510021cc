/* Barred links and final nodes: which weight bits are accepted, the readings and distances that are left, and machines all of whose
 * readings are barred. */
#include <stdio.h>
#include <stdlib.h>
#include "yeldmur.h"

static uint8_t sheet[256], result[4096];
static uint32_t work[YELDMUR_SLOT * 400];
static uint64_t size;

static void fail(const char *what) {
    printf("failed: %s\n", what);
    exit(1);
}

/* A link from node 0 to node 1, which is final. */
static uint32_t written(uint32_t link_bits, uint32_t mark, uint32_t final_bits, uint32_t next) {
    uint32_t link[] = {1, 1, link_bits, next}, nodes[] = {1, 0, 0, 0, mark, final_bits};
    return yeldmur_write_sheet(link, 4, nodes, 6, 0, sheet, sizeof sheet, &size);
}

static void print_bits(void) {
    static const uint32_t BITS[] = {YELDMUR_BARRED, YELDMUR_BARRED - 1, YELDMUR_BARRED + 1, 0xff800000u, 0x7fc00000u};
    for (uint32_t i = 0; i < 5; i++)
        printf("%08x: of a link %u, final %u, final with mark 0 %u, to no node %u\n", BITS[i], written(BITS[i], 1, 0, 1), written(0, 1, BITS[i], 1),
               written(0, 0, BITS[i], 1), written(BITS[i], 1, 0, 2));
}

static void print_distances(void) {
    uint32_t values, reached;
    int32_t cost;
    if (yeldmur_shortest_distance(sheet, size, work, sizeof work / 4, result, sizeof result, &values)) fail("distances");
    printf("distances:");
    for (uint32_t v = 0; v < values; v++) {
        if (yeldmur_distance(result, sizeof result, values, v, &reached, &cost)) fail("a distance");
        if (reached) printf(" %d", cost);
        else printf(" unreached");
    }
    printf("\n");
}

static void print_list(uint32_t n) {
    uint32_t states, links, taken, readings, run[4], count, end;
    int32_t cost;
    if (yeldmur_shortest_path(sheet, size, n, work, sizeof work / 4, result, sizeof result, &states, &links, &taken)) fail("a list");
    if (yeldmur_readings(result, sizeof result, n, states, links, &readings)) fail("readings");
    printf("n = %u: %u listed, %u bytes, %u taken", n, readings, 20 * links + 12 * states + 20, taken);
    for (uint32_t k = 0; k < readings; k++) {
        if (yeldmur_reading(sheet, size, n, result, sizeof result, states, links, k, run, 4, &count, &cost, &end)) fail("a reading");
        printf("; cost %d, ends at %u, links", cost, end);
        for (uint32_t i = 0; i < count; i++) printf(" %u", run[i]);
    }
    printf("\n");
}

static void search(const char *what, const char *rows) {
    uint64_t length = 0;
    while (rows[length]) length++;
    if (yeldmur_rows_to_sheet((const uint8_t *)rows, length, sheet, sizeof sheet, &size)) fail(what);
    printf("%s\n", what);
    print_distances();
    print_list(1);
    print_list(2);
    print_list(64);
}

int main(void) {
    print_bits();
    search("one reading, beside barred links and a barred final node",
           "0 1 1 1 5\n0 1 2 2 Infinity\n1 2 3 3 Infinity\n2 3 4 4\n1 1\n2 Infinity\n3\n");
    search("the only link barred", "0 1 1 1 Infinity\n1\n");
    search("the only final node barred", "0 1 1 1 0.5\n1 Infinity\n");
    search("a start that ends at infinity alone", "0 Infinity\n");
    search("a barred link from a node that is not reached", "0 1 1 1\n2 3 1 1 Infinity\n1\n");
    return 0;
}
