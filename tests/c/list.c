/* Lists the two cheapest readings of Sheet A: rank, cost in sixty-fourths, input labels. */
#include <stdio.h>
#include <stdlib.h>
#include "yeldmur.h"

static const uint32_t LINKS[] = {1, 1, 0x3f800000, 1, 2, 2, 0x3f000000, 2, 3, 3, 0x3e800000, 3, 5, 5, 0, 2, 4, 4, 0x3f400000, 3};
static const uint32_t NODES[] = {2, 0, 0, 2, 0, 0, 1, 0, 0, 0, 1, 0x3f000000};

int main(void) {
    uint8_t sheet[148];
    uint64_t size, slots, bytes;
    uint32_t states, links, taken, readings;
    if (yeldmur_write_sheet(LINKS, 20, NODES, 12, 0, sheet, sizeof sheet, &size)) return 1;
    if (yeldmur_areas(sheet, size, 2, &slots, &bytes)) return 1;
    uint32_t *work = malloc(4 * YELDMUR_SLOT * slots);
    uint8_t *result = malloc(bytes);
    if (!work || !result) return 1;
    if (yeldmur_shortest_path(sheet, size, 2, work, YELDMUR_SLOT * slots, result, bytes, &states, &links, &taken)) return 1;
    if (yeldmur_readings(result, bytes, 2, states, links, &readings)) return 1;
    printf("readings %u taken %u\n", readings, taken);
    for (uint32_t k = 0; k < readings; k++) {
        uint32_t run[4], count, end; /* a reading has fewer links than the sheet has nodes */
        int32_t cost;
        if (yeldmur_reading(sheet, size, 2, result, bytes, states, links, k, run, 4, &count, &cost, &end)) return 1;
        printf("%u %d", k + 1, cost);
        for (uint32_t i = 0; i < count; i++) {
            uint32_t ilabel, olabel, weight_bits, next;
            if (yeldmur_link(sheet, size, run[i], &ilabel, &olabel, &weight_bits, &next)) return 1;
            printf(" %u", ilabel);
        }
        printf("\n");
    }
    return 0;
}
