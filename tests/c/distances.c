/* Prints the distances of a machine in sixty-fourths, and which nodes are unreached. */
#include <stdio.h>
#include "yeldmur.h"

/* Start 1 of four nodes: a link from node 0, which lies below it, and one from itself, of -1/64, both to node 3. */
static const uint32_t LINKS[] = {1, 1, 0xc2800000, 3, 2, 2, 0xbc800000, 3};
static const uint32_t NODES[] = {1, 0, 0, 1, 0, 0, 0, 0, 0, 0, 1, 0};

int main(void) {
    uint8_t sheet[100], result[YELDMUR_DISTANCE * 4];
    uint32_t work[YELDMUR_SLOT * 4], values;
    uint64_t size;
    if (yeldmur_write_sheet(LINKS, 8, NODES, 12, 1, sheet, sizeof sheet, &size)) return 1;
    if (yeldmur_shortest_distance(sheet, size, work, YELDMUR_SLOT * 4, result, sizeof result, &values)) return 1;
    for (uint32_t v = 0; v < values; v++) {
        uint32_t reached;
        int32_t cost;
        if (yeldmur_distance(result, sizeof result, values, v, &reached, &cost)) return 1;
        if (reached) printf("%u reached %d\n", v, cost);
        else printf("%u unreached\n", v);
    }
    return 0;
}
