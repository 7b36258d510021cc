/* The sheet of what two sheets both allow, in areas of every length, with its readings; then each refusal beside what just passes, of
 * which none may change an area or a number. */
#include <stdio.h>
#include <stdlib.h>
#include <string.h>
#include "yeldmur.h"

enum { NODES = YELDMUR_NODE_LIMIT, LINKS = YELDMUR_LINK_LIMIT, KEPT = 0xa5 };

/* A sheet as it is drawn up here, room for a node and a link more than the limits allow. */
struct drawn { uint32_t links[4 * (LINKS + 1)], nodes[3 * (NODES + 1)], start; };
struct sheet { uint8_t bytes[YELDMUR_LONG_SHEET_BYTES(NODES + 1, LINKS + 1)]; uint64_t size; };

static const char A[] = "0 1 1 1 1\n0 2 2 2 0.5\n1 3 3 3 0.25\n1 2 5 5\n2 3 4 4 0.75\n3 0.5\n";

static struct drawn drawn;
static struct sheet first, second;
static uint8_t area[YELDMUR_TWO_PROBES_BYTES];

static void fail(const char *what) {
    printf("failed: %s\n", what);
    exit(1);
}

static void write_drawn(struct sheet *sheet, uint32_t nodes, uint32_t links) {
    if (yeldmur_write_sheet(drawn.links, 4 * links, drawn.nodes, 3 * nodes, drawn.start, sheet->bytes, sizeof sheet->bytes, &sheet->size)) fail("not written");
}

static void of_rows(struct sheet *sheet, const char *rows) {
    if (yeldmur_rows_to_sheet((const uint8_t *)rows, strlen(rows), sheet->bytes, sizeof sheet->bytes, &sheet->size)) fail(rows);
}

/* So many nodes with so many links of one label from the first to the last; without nodes there is no start. */
static void parallel(struct sheet *sheet, uint32_t nodes, uint32_t links) {
    memset(&drawn, 0, sizeof drawn);
    for (uint32_t l = 0; l < links; l++) {
        uint32_t fields[] = {7, 7, 0, nodes - 1};
        memcpy(drawn.links + 4 * l, fields, sizeof fields);
    }
    drawn.nodes[0] = links;
    drawn.start = nodes ? 0 : YELDMUR_NONE;
    write_drawn(sheet, nodes, links);
}

static int kept(size_t from, size_t room) {
    while (from < room && area[from] == KEPT) from++;
    return from == room;
}

static uint32_t both(size_t room, uint64_t *size) {
    memset(area, KEPT, sizeof area);
    return yeldmur_two_probes(first.bytes, first.size, second.bytes, second.size, area, room, size);
}

/* Every room up to a few bytes more than the answer's: 21 and nothing changed, or the answer and the bytes beyond it kept. */
static void each_room(size_t length) {
    static uint8_t whole[sizeof area];
    uint64_t told = 7;
    if (both(sizeof area, &told) || told != length) fail("another length");
    memcpy(whole, area, length);
    for (size_t room = 0; room < length + 4; room++) {
        uint64_t size = 7;
        uint32_t number = both(room, &size);
        if (room < length ? number != YELDMUR_RESULT || size != 7 || !kept(0, sizeof area) : number || size != length) fail("another answer");
        if (room >= length && (memcmp(area, whole, length) || !kept(length, sizeof area))) fail("another sheet");
    }
}

static void print_list(uint64_t size) {
    static uint32_t work[YELDMUR_SLOT * 2000], run[NODES];
    static uint8_t result[1 << 16];
    uint32_t states, links, taken, readings, count, end;
    int32_t cost;
    if (yeldmur_shortest_path(area, size, 10, work, sizeof work / 4, result, sizeof result, &states, &links, &taken)) fail("a list");
    if (yeldmur_readings(result, sizeof result, 10, states, links, &readings)) fail("readings");
    for (uint32_t k = 0; k < readings; k++) {
        if (yeldmur_reading(area, size, 10, result, sizeof result, states, links, k, run, NODES, &count, &cost, &end)) fail("a reading");
        printf("cost %d, ends at %u, links", cost, end);
        for (uint32_t i = 0; i < count; i++) printf(" %u", run[i]);
        printf("\n");
    }
}

/* The words of a record, and where it ends. */
static uint64_t print_record(uint64_t at, uint32_t words) {
    for (uint32_t i = 0; i < words; i++, at += 4)
        printf("%02x%02x%02x%02x%s", area[at + 3], area[at + 2], area[at + 1], area[at], i + 1 < words ? " " : "\n");
    return at;
}

/* The answer, record by record, and its readings. */
static void print_both(const char *what, const char *one, const char *other) {
    uint64_t size = 7, at = 0;
    uint32_t nodes, links, finals, start;
    of_rows(&first, one), of_rows(&second, other);
    if (both(sizeof area, &size)) fail(what);
    printf("%s: %llu bytes\n", what, (unsigned long long)size);
    if (yeldmur_sheet_counts(area, size, &nodes, &links, &finals, &start)) fail("counts");
    for (uint32_t l = 0; l < links; l++) at = print_record(at, 4);
    for (uint32_t v = 0; v < nodes; v++) at = print_record(at, 3);
    if (print_record(at, 5) != size) fail("another end");
    print_list(size);
    each_room(size);
}

/* One word of a sheet changed. */
static void put_word(struct sheet *sheet, size_t at, uint32_t word) { for (size_t i = 0; i < 4; i++) sheet->bytes[at + i] = (uint8_t)(word >> 8 * i); }

/* The start of what Sheet A allows with itself, with two starts. */
static void print_start(uint32_t one, uint32_t other) {
    uint64_t size = 7;
    uint32_t nodes, links, finals, start;
    of_rows(&first, A), of_rows(&second, A);
    put_word(&first, 144, one), put_word(&second, 144, other);
    if (both(sizeof area, &size) || yeldmur_sheet_counts(area, size, &nodes, &links, &finals, &start)) fail("starts");
    printf("starts %x and %x: %x\n", one, other, start);
}

/* The number, with which nothing changes. */
static void print_number(const char *what) {
    uint64_t size = 7;
    uint32_t number = both(sizeof area, &size);
    if (number && (size != 7 || !kept(0, sizeof area))) fail(what);
    printf("%s: %u\n", what, number);
}

static void number_of(const char *what, const char *one, const char *other) {
    of_rows(&first, one), of_rows(&second, other);
    print_number(what);
}

/* Sheet A with a fault of each number from 1 to 6. */
static void damage(struct sheet *sheet, uint32_t number) {
    of_rows(sheet, A);
    if (number == YELDMUR_LAYOUT) sheet->size--;
    if (number == YELDMUR_START) put_word(sheet, 144, 4);
    if (number == YELDMUR_NEXT) put_word(sheet, 12, 4);
    if (number == YELDMUR_WEIGHT) put_word(sheet, 8, 0x80000000u);
    if (number == YELDMUR_LIMITS) parallel(sheet, NODES + 1, 0);
    if (number == YELDMUR_CLIMB) put_word(sheet, 12, 0);
}

/* Of every two faults, 0 being none: the first sheet's, else the second's. A label of 0 beside them changes nothing. */
static void faults_in_order(void) {
    for (uint32_t one = 0; one <= YELDMUR_CLIMB; one++)
        for (uint32_t other = 0; other <= YELDMUR_CLIMB; other++)
            for (uint32_t zero = 0; zero < 3; zero++) {
                uint64_t size = 7;
                damage(&first, one), damage(&second, other);
                if (zero == 1 && one != YELDMUR_LIMITS) put_word(&first, 16, 0);
                if (zero == 2 && other != YELDMUR_LIMITS) put_word(&second, 16, 0);
                uint32_t due = one ? one : other ? other : zero ? YELDMUR_LABELS : YELDMUR_DONE;
                if (both(sizeof area, &size) != due) fail("another number");
                if (due && (size != 7 || !kept(0, sizeof area))) fail("something changed");
            }
    printf("faults of two sheets: the first's come first\n");
}

/* The shorter trailer and the unit, 64, are the longer one. */
static void lengthen(struct sheet *sheet) {
    put_word(sheet, sheet->size, 64);
    sheet->size += 4;
}

static void print_limits(const char *what, const uint32_t sizes[4]) {
    parallel(&first, sizes[0], sizes[1]), parallel(&second, sizes[2], sizes[3]);
    print_number(what);
}

static void refuse_products(void) {
    print_limits("46 x 46 nodes", (uint32_t[]){46, 0, 46, 0});
    print_limits("as many nodes as may be", (uint32_t[]){2, 1, NODES / 2, 1});
    print_limits("two more", (uint32_t[]){2, 1, NODES / 2 + 1, 1});
    print_limits("the largest sheet and one without nodes", (uint32_t[]){NODES, LINKS, 0, 0});
    print_limits("128 x 128 links", (uint32_t[]){2, 128, 2, 128});
    print_limits("129 x 128 links", (uint32_t[]){2, 129, 2, 128});
    print_limits("two of the largest sheets", (uint32_t[]){NODES, LINKS, NODES, LINKS});
    print_limits("as many links and nodes as may be", (uint32_t[]){2, 128, NODES / 2, 128});
    uint64_t size = 7;
    if (both(sizeof area, &size) || size != YELDMUR_SHEET_BYTES(NODES, LINKS)) fail("another length");
    if (both(size - 1, &size) != YELDMUR_RESULT) fail("not 21");
    lengthen(&first);
    if (both(sizeof area, &size) || size != sizeof area) fail("not as many bytes as named");
    if (both(sizeof area - 1, &size) != YELDMUR_RESULT) fail("not 21");
}

static void refuse_sums(void) {
    number_of("128 and a unit", "0 1 7 7 128\n", "0 1 7 7 0.015625\n");
    number_of("-128 and a unit less", "0 1 7 7 -128\n", "0 1 7 7 -0.015625\n");
    number_of("64 and 64", "0 1 7 7 64\n", "0 1 7 7 64\n");
    number_of("-64 and -64", "0 1 7 7 -64\n", "0 1 7 7 -64\n");
    number_of("128 and -128", "0 1 7 7 128\n", "0 1 7 7 -128\n");
    number_of("-128 and what is barred", "0 1 7 7 -128\n", "0 1 7 7 Infinity\n");
    number_of("of links with other labels", "0 1 7 7 128\n", "0 1 8 8 128\n");
    number_of("of final nodes that are not reached", "0\n2 100\n", "0\n1 100\n");
    number_of("of nodes of which one is final", "0\n2 100\n", "0 1 1 1\n");
}

static void refuse_labels(void) {
    number_of("label 0 in the second alone", A, "0 1 0 0\n");
    number_of("two labels in the first alone", "0 1 7 8\n", A);
    number_of("labels of a link that is not reached", "1\n0 1 7 8\n", A);
    number_of("labels, nodes and sums", "0 45 7 8 128\n45 100\n", "0 45 7 8 128\n45 100\n");
    number_of("nodes and sums", "0 45 7 7 128\n45 100\n", "0 45 7 7 128\n45 100\n");
    of_rows(&first, "0 1 7 7 128\n"), of_rows(&second, "0 1 7 7 128\n");
    uint64_t size = 7;
    printf("sums in no room: %u\n", both(0, &size));
}

int main(void) {
    print_both("two by three", "0 1 7 7 0.015625\n0 1 7 7 0.03125\n0 1 8 8 0.078125\n1 0.046875\n",
               "0 2 8 8 0.15625\n0 1 7 7 0.3125\n1 2 7 7 0.46875\n1 1.5625\n2 3.125\n");
    print_both("Sheet A with itself", A, A);
    print_both("barred links and a barred final node", "0 1 7 7 Infinity\n0 1 8 8 1\n1 -1\n", "0 1 7 7 -128\n0 1 8 8 Infinity\n1 Infinity\n");
    print_start(1, 2);
    print_start(2, YELDMUR_NONE);
    print_start(YELDMUR_NONE, 2);
    faults_in_order();
    refuse_labels();
    refuse_products();
    refuse_sums();
    return 0;
}
