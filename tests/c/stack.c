/* Makes every call on sheets at the limits, with either trailer, in a thread whose stack is painted beforehand, and holds what was written of
 * it, beyond what a thread writes that calls nothing, to the bytes that the header names. */
#define _POSIX_C_SOURCE 200809L
#include <pthread.h>
#include <stdio.h>
#include <stdlib.h>
#include <string.h>
#include "yeldmur.h"

enum { NODES = YELDMUR_NODE_LIMIT, WIDTH = YELDMUR_LINK_LIMIT / NODES, LINKS = WIDTH * (NODES - 1), STACK = 1 << 20, PAINT = 0xa5 };

static uint32_t link_words[4 * LINKS], node_words[3 * NODES];
static uint8_t sheet[YELDMUR_LONG_SHEET_BYTES(NODES, LINKS)], *result;
static uint32_t n, *work, values, states, links, taken, run_area[NODES];
static uint64_t size, slots, bytes;

/* Whether sheets have the longer trailer, with unit 256. */
static int longer;

/* Two sheets of which one answer is made, and the answer. */
static struct { uint8_t bytes[sizeof sheet]; uint64_t size; } probes[2];
static uint8_t allowed[YELDMUR_TWO_PROBES_BYTES];

/* The most that rows of this sheet can take: 56 bytes a link, 23 a final node. */
static uint8_t text[56 * LINKS + 23];
static uint64_t text_bytes;

/* The same sheet with the shorter trailer, which alone has rows. */
static uint8_t rowed[sizeof sheet];
static uint64_t rowed_size;

static void nothing(void) {}

/* So many of the links and nodes that are drawn up. */
static void write_to(uint8_t *to, uint64_t *told, size_t links, size_t nodes) {
    uint32_t number = longer ? yeldmur_write_sheet_in(link_words, 4 * links, node_words, 3 * nodes, 0, 256, to, sizeof sheet, told)
                             : yeldmur_write_sheet(link_words, 4 * links, node_words, 3 * nodes, 0, to, sizeof sheet, told);
    if (number) exit(1);
}

static void write_sheet(void) { write_to(sheet, &size, LINKS, NODES); }

static void write_rowed(void) {
    if (yeldmur_write_sheet(link_words, 4 * LINKS, node_words, 3 * NODES, 0, rowed, sizeof rowed, &rowed_size)) exit(1);
}

static void read_sheet(void) { if (yeldmur_read_sheet(sheet, size)) exit(1); }

static void to_rows(void) {
    uint64_t told;
    if (yeldmur_sheet_rows_bytes(rowed, rowed_size, &told)) exit(1);
    if (yeldmur_sheet_to_rows(rowed, rowed_size, text, sizeof text, &text_bytes) || told != text_bytes) exit(1);
}

static void to_sheet(void) {
    uint64_t told;
    if (yeldmur_rows_sheet_bytes(text, text_bytes, &told)) exit(1);
    if (yeldmur_rows_to_sheet(text, text_bytes, rowed, sizeof rowed, &rowed_size) || told != rowed_size) exit(1);
}

static void areas(void) {
    if (yeldmur_areas(sheet, size, n, &slots, &bytes)) exit(1);
    if (yeldmur_areas_of(NODES, LINKS, 1, n, &slots, &bytes)) exit(1);
}

static void distances(void) {
    if (yeldmur_shortest_distance(sheet, size, work, YELDMUR_SLOT * slots, result, bytes, &values)) exit(1);
}

static void read_distance(void) {
    uint32_t reached;
    int32_t cost;
    if (yeldmur_distance(result, bytes, values, NODES - 1, &reached, &cost)) exit(1);
    if (yeldmur_distance_in(result, bytes, values, NODES - 1, longer ? 256 : 64, &reached, &cost)) exit(1);
}

static void list(void) {
    if (yeldmur_shortest_path(sheet, size, n, work, YELDMUR_SLOT * slots, result, bytes, &states, &links, &taken)) exit(1);
}

static void read_list(void) {
    uint32_t readings, count, end;
    int32_t cost;
    if (yeldmur_readings(result, bytes, n, states, links, &readings)) exit(1);
    if (yeldmur_reading(sheet, size, n, result, bytes, states, links, readings - 1, run_area, NODES, &count, &cost, &end)) exit(1);
}

static void two_probes(void) {
    uint64_t told;
    if (yeldmur_two_probes(probes[0].bytes, probes[0].size, probes[1].bytes, probes[1].size, allowed, sizeof allowed, &told)) exit(1);
}

static void split(void) {
    static uint8_t parts[YELDMUR_SPLIT_BYTES(NODES, LINKS)];
    uint32_t first, second;
    if (yeldmur_split(sheet, size, NODES / 2, parts, sizeof parts, &first, &second)) exit(1);
}

static void fields(void) {
    uint32_t a, b, c, d;
    if (yeldmur_sheet_counts(sheet, size, &a, &b, &c, &d) || yeldmur_unit(sheet, size, &a)) exit(1);
    if (yeldmur_link(sheet, size, LINKS - 1, &a, &b, &c, &d) || yeldmur_node(sheet, size, NODES - 1, &a, &b, &c)) exit(1);
}

static void *run(void *call) {
    (*(void (**)(void))call)();
    return NULL;
}

/* The bytes of its stack that a thread has written to. */
static size_t written(void (*call)(void)) {
    static _Alignas(4096) uint8_t stack[STACK];
    pthread_attr_t attributes;
    pthread_t thread;
    size_t untouched = 0;
    memset(stack, PAINT, STACK);
    if (pthread_attr_init(&attributes) || pthread_attr_setstack(&attributes, stack, STACK)) exit(1);
    if (pthread_create(&thread, &attributes, run, &call) || pthread_join(thread, NULL)) exit(1);
    while (untouched < STACK && stack[untouched] == PAINT) untouched++;
    return STACK - untouched;
}

/* So many links from each node to the next, of weight 0, or with each seventh of weight 1. */
static void make_links(uint32_t dear) {
    for (uint32_t l = 0; l < LINKS; l++) {
        uint32_t fields[] = {l, l, l % 7 < dear ? 0x3f800000 : 0, l / WIDTH + 1};
        memcpy(link_words + 4 * l, fields, sizeof fields);
    }
    for (uint32_t v = 0; v < NODES; v++) {
        uint32_t last = v + 1 == NODES, fields[] = {last ? 0 : WIDTH, last, 0};
        memcpy(node_words + 3 * v, fields, sizeof fields);
    }
}

/* A sheet for what two allow: so many links from each node but the last to that one, of labels from 1 to the most, in turn or drawn. */
static void make_probe(uint32_t which, uint32_t nodes, uint32_t width, uint32_t labels, int in_turn) {
    static uint32_t state = 1;
    for (uint32_t l = 0; l < width * (nodes - 1); l++) {
        state = state * 1664525u + 1013904223u;
        uint32_t label = 1 + (in_turn ? l : state >> 12) % labels, fields[] = {label, label, 0, nodes - 1};
        memcpy(link_words + 4 * l, fields, sizeof fields);
    }
    for (uint32_t v = 0; v < nodes; v++) {
        uint32_t fields[] = {v + 1 == nodes ? 0 : width, 0, 0};
        memcpy(node_words + 3 * v, fields, sizeof fields);
    }
    write_to(probes[which].bytes, &probes[which].size, width * (nodes - 1), nodes);
}

/* As many pairs of links as may be, or nearly: of one label, or of many in disorder, one link of each label in the first. */
static void make_probes(uint32_t round) {
    static const uint32_t LABELS[] = {1, 16, 256, 4096};
    uint32_t labels = LABELS[round];
    make_probe(0, 2, labels == 1 ? 128 : labels, labels, 1);
    if (labels == 1) make_probe(1, 2, 128, labels, 1);
    else make_probe(1, NODES / 2, 2 * WIDTH, labels, 0);
}

static const struct { void (*call)(void); const char *name; } CALLS[] = {
    {write_sheet, "writing"}, {read_sheet, "reading"}, {to_rows, "sheet to rows"}, {to_sheet, "rows to sheet"},
    {areas, "areas"}, {distances, "distances"}, {read_distance, "distances read back"}, {list, "lists"}, {read_list, "lists read back"},
    {fields, "fields of a sheet"}, {split, "two parts"}, {two_probes, "what two sheets allow"}};

enum { COUNT = sizeof CALLS / sizeof *CALLS };

int main(void) {
    size_t most[COUNT] = {0}, plain = written(nothing);
    for (uint32_t round = 0; round < 8; round++) {
        n = round % 2 ? 64 : 1;
        longer = round / 4;
        make_probes(round % 4);
        make_links(round / 2 % 2);
        write_rowed();
        write_sheet();
        areas();
        work = malloc(4 * YELDMUR_SLOT * slots), result = malloc(bytes);
        if (!work || !result) return 1;
        for (uint32_t i = 0; i < COUNT; i++) {
            size_t used = written(CALLS[i].call) - plain;
            if (used > most[i]) most[i] = used;
        }
        free(work), free(result);
    }
    for (uint32_t i = 0; i < COUNT; i++) {
        int two = CALLS[i].call == two_probes;
        const char *within = most[i] <= (two ? YELDMUR_TWO_PROBES_STACK : YELDMUR_STACK) ? "within" : "beyond";
        fprintf(stderr, "%s: %zu bytes of stack\n", CALLS[i].name, most[i]);
        printf("%s: %s %s\n", CALLS[i].name, within, two ? "YELDMUR_TWO_PROBES_STACK" : "YELDMUR_STACK");
    }
    return 0;
}
