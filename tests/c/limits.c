/* The limits that the header names: each passes, and one more is refused. The longest chain, of as many nodes as there may be with every
 * weight the largest, in either unit: its distances and the cost of its one reading. */
#include <stdio.h>
#include <string.h>
#include "yeldmur.h"

enum { NODES = YELDMUR_NODE_LIMIT, LINKS = YELDMUR_LINK_LIMIT, UNITS = YELDMUR_WEIGHT_LIMIT, LIST = YELDMUR_LIST_LIMIT };

/* Room for the sheet of a chain with one node more than the limit. */
static uint8_t sheet[YELDMUR_LONG_SHEET_BYTES(NODES + 1, NODES)];

/* More than the longest chain takes: 32 bytes a node, and 4 slots a node for n = 2. */
static uint8_t result[64 * NODES];
static uint32_t work[YELDMUR_SLOT * 8 * NODES];
static uint64_t size;

/* The unit in which all is written: with the shorter trailer where it is 64. */
static uint32_t unit = 64;

static uint32_t bits_of(float weight) {
    uint32_t bits;
    memcpy(&bits, &weight, sizeof bits);
    return bits;
}

/* A chain of so many nodes, each weight of so many units, the last node's final weight too. */
static uint32_t write_chain(uint32_t nodes, int32_t units) {
    static uint32_t links[4 * NODES], fields[3 * (NODES + 1)];
    uint32_t bits = bits_of((float)units / (float)unit);
    for (uint32_t v = 0; v < nodes; v++) {
        uint32_t last = v + 1 == nodes, link[] = {1, 1, bits, v + 1}, node[] = {!last, last, last ? bits : 0};
        if (!last) memcpy(links + 4 * v, link, sizeof link);
        memcpy(fields + 3 * v, node, sizeof node);
    }
    if (unit == 64) return yeldmur_write_sheet(links, 4 * (nodes - 1), fields, 3 * nodes, 0, sheet, sizeof sheet, &size);
    return yeldmur_write_sheet_in(links, 4 * (nodes - 1), fields, 3 * nodes, 0, unit, sheet, sizeof sheet, &size);
}

static void print_areas(const char *what, uint32_t nodes, uint32_t links, uint32_t n) {
    uint64_t slots, bytes;
    printf("%s: %u\n", what, yeldmur_areas_of(nodes, links, nodes, n, &slots, &bytes));
}

/* Whether the distances are 0, 1, 2 and so on times the weight. */
static void print_distances(void) {
    uint32_t values, differ = 0, number = yeldmur_shortest_distance(sheet, size, work, sizeof work / 4, result, sizeof result, &values);
    if (number || values == 0) {
        printf("distances: refused %u\n", number);
        return;
    }
    int32_t cost = 0;
    for (uint32_t v = 0; v < values; v++) {
        uint32_t reached = 0;
        differ += yeldmur_distance_in(result, sizeof result, values, v, unit, &reached, &cost) || !reached || cost != UNITS * (int32_t)v;
    }
    printf("distances: %u nodes, the last at %d, %u differ\n", values, cost / (int32_t)unit, differ);
}

/* The one reading, which has each link of the chain. */
static void print_list(uint32_t n) {
    static uint32_t run[NODES];
    uint32_t states, links, taken, count, end;
    int32_t cost;
    uint32_t number = yeldmur_shortest_path(sheet, size, n, work, sizeof work / 4, result, sizeof result, &states, &links, &taken);
    if (!number) number = yeldmur_reading(sheet, size, n, result, sizeof result, states, links, 0, run, NODES, &count, &cost, &end);
    if (number) printf("n = %u: refused %u\n", n, number);
    else printf("n = %u: %u links to node %u, %d units\n", n, count, end, cost);
}

static void print_weights(void) {
    printf("unit %u\n", unit);
    printf("the largest weight and the least: %u %u\n", write_chain(2, UNITS), write_chain(2, -UNITS));
    printf("a unit beyond: %u %u\n", write_chain(2, UNITS + 1), write_chain(2, -UNITS - 1));
    printf("the longest chain: %u\n", write_chain(NODES, UNITS));
    print_distances();
    print_list(1);
    print_list(2);
    printf("a chain of a node more: %u\n", write_chain(NODES + 1, UNITS));
    print_distances();
    print_list(1);
}

int main(void) {
    print_areas("areas at the limits", NODES, LINKS, LIST);
    print_areas("a node more", NODES + 1, LINKS, LIST);
    print_areas("a link more", NODES, LINKS + 1, LIST);
    print_areas("n one more", NODES, LINKS, LIST + 1);
    print_weights();
    unit = 256;
    print_weights();
    return 0;
}
