/* The two parts of a sheet, in areas of every length, with their readings beside the whole's; then each refusal beside what just passes, of
 * which none may change an area or a number. */
#include <stdio.h>
#include <stdlib.h>
#include <string.h>
#include "yeldmur.h"

enum { NODES = YELDMUR_NODE_LIMIT, LINKS = YELDMUR_LINK_LIMIT, LISTED = YELDMUR_LIST_LIMIT, KEPT = 0xa5 };

/* Room for a node and a link more than the limits allow. All sheets here have the shorter trailer, but the largest. */
struct sheet { uint8_t bytes[YELDMUR_LONG_SHEET_BYTES(NODES + 1, LINKS + 1)]; uint64_t size; };

static const char A[] = "0 1 1 1 1\n0 2 2 2 0.5\n1 3 3 3 0.25\n1 2 5 5\n2 3 4 4 0.75\n3 0.5\n";

static struct sheet sheet;
static size_t ends = YELDMUR_TRAILER;
static uint8_t area[YELDMUR_SPLIT_BYTES(NODES, LINKS) + 8];
static uint32_t first, second;

static void fail(const char *what) {
    printf("failed: %s\n", what);
    exit(1);
}

static void of_rows(const char *rows) {
    if (yeldmur_rows_to_sheet((const uint8_t *)rows, strlen(rows), sheet.bytes, sizeof sheet.bytes, &sheet.size)) fail(rows);
}

static uint32_t word(const uint8_t *bytes) { return bytes[0] | bytes[1] << 8 | bytes[2] << 16 | (uint32_t)bytes[3] << 24; }

static void put_word(size_t at, uint32_t word) { for (size_t i = 0; i < 4; i++) sheet.bytes[at + i] = (uint8_t)(word >> 8 * i); }

/* A field of the trailer: the number of nodes, that of links, the start. */
static uint32_t trailer(uint32_t field) { return word(sheet.bytes + sheet.size - ends + 4 * field); }

static int kept(size_t from, size_t room) {
    while (from < room && area[from] == KEPT) from++;
    return from == room;
}

static uint32_t split(uint32_t c, size_t room) {
    memset(area, KEPT, sizeof area);
    first = second = 7;
    return yeldmur_split(sheet.bytes, sheet.size, c, area, room, &first, &second);
}

static int unchanged(void) { return first == 7 && second == 7 && kept(0, sizeof area); }

/* The costs of the list for n; how many there are. */
static uint32_t list_costs(const uint8_t *bytes, size_t size, uint32_t n, int32_t *costs) {
    static uint32_t run[NODES];
    uint64_t slots, room;
    uint32_t states, links, taken, readings, count, end;
    if (yeldmur_areas(bytes, size, n, &slots, &room)) fail("areas");
    uint32_t *work = calloc(YELDMUR_SLOT * slots + 1, 4);
    uint8_t *result = malloc(room);
    if (!work || !result) fail("no memory");
    if (yeldmur_shortest_path(bytes, size, n, work, YELDMUR_SLOT * slots, result, room, &states, &links, &taken)) fail("a list");
    if (yeldmur_readings(result, room, n, states, links, &readings)) fail("readings");
    for (uint32_t k = 0; k < readings; k++)
        if (yeldmur_reading(bytes, size, n, result, room, states, links, k, run, NODES, &count, costs + k, &end)) fail("a reading");
    free(work), free(result);
    return readings;
}

static int by_cost(const void *one, const void *other) {
    int32_t a = *(const int32_t *)one, b = *(const int32_t *)other;
    return (a > b) - (a < b);
}

/* For every n the whole's list has the n least sums of one cost from each part's list. */
static uint32_t check_sums(uint32_t c) {
    static int32_t whole[LISTED], low[LISTED], high[LISTED], sums[LISTED * LISTED];
    const uint8_t *later = area + YELDMUR_SPLIT_SECOND(ends, c, first);
    uint32_t count = 0;
    for (uint32_t n = 1; n <= LISTED; n++) {
        uint32_t firsts = list_costs(area, YELDMUR_SPLIT_NUMBERS(ends, c, first), n, low), made = 0;
        uint32_t seconds = list_costs(later, YELDMUR_SHEET_WITH(ends, trailer(2) - c, second), n, high);
        for (uint32_t i = 0; i < firsts; i++) for (uint32_t j = 0; j < seconds; j++) sums[made++] = low[i] + high[j];
        qsort(sums, made, sizeof *sums, by_cost);
        count = list_costs(sheet.bytes, sheet.size, n, whole);
        if (count != (made < n ? made : n) || memcmp(whole, sums, 4 * count)) fail("other sums");
    }
    return count;
}

/* Both parts, link by link, against the sheet: equal fields, but that the second's nodes count from c. */
static void check_links(uint32_t c) {
    const uint8_t *later = area + YELDMUR_SPLIT_SECOND(ends, c, first), *numbers = later + YELDMUR_SHEET_WITH(ends, trailer(2) - c, second);
    if (first + second != trailer(3)) fail("another number of links");
    for (uint32_t l = 0; l < first; l++) {
        if (word(area + YELDMUR_SPLIT_NUMBERS(ends, c, first) + 4 * l) != l || memcmp(area + 16 * l, sheet.bytes + 16 * l, 16)) fail("another link before");
    }
    for (uint32_t l = 0; l < second; l++) {
        const uint8_t *whole = sheet.bytes + 16 * (first + l), *part = later + 16 * l;
        if (word(numbers + 4 * l) != first + l || memcmp(part, whole, 12) || word(part + 12) + c != word(whole + 12)) fail("another link after");
    }
}

/* Every room up to a few bytes more than the answer's: 21 and nothing changed, or the answer and the bytes beyond it kept. */
static void each_room(uint32_t c, size_t length) {
    static uint8_t whole[sizeof area];
    memcpy(whole, area, length);
    for (size_t room = 0; room < length + 4; room++) {
        uint32_t number = split(c, room);
        if (room < length ? number != YELDMUR_RESULT || !unchanged() : number) fail("another answer");
        if (room >= length && (memcmp(area, whole, length) || !kept(length, sizeof area))) fail("other parts");
    }
}

/* The words of a record, and where it ends. */
static size_t print_record(size_t at, uint32_t words) {
    for (uint32_t i = 0; i < words; i++, at += 4) printf("%08x%s", word(area + at), i + 1 < words ? " " : "\n");
    return at;
}

static size_t print_part(size_t at, uint32_t nodes, uint32_t links) {
    for (uint32_t l = 0; l < links; l++) at = print_record(at, 4);
    for (uint32_t v = 0; v < nodes; v++) at = print_record(at, 3);
    at = print_record(at, 5);
    return print_record(at, links);
}

/* Both parts at c, record by record. */
static void print_split(const char *what, uint32_t c) {
    uint32_t nodes = trailer(2);
    size_t length = YELDMUR_SPLIT_WITH(ends, nodes, trailer(3));
    if (split(c, sizeof area)) fail(what);
    printf("%s: %zu bytes\n", what, length);
    if (print_part(0, c + 1, first) != YELDMUR_SPLIT_SECOND(ends, c, first)) fail("another place");
    if (print_part(YELDMUR_SPLIT_SECOND(ends, c, first), nodes - c, second) != length || !kept(length, sizeof area)) fail("another end");
    check_links(c);
    printf("readings: %u\n", check_sums(c));
    each_room(c, length);
}

/* The number, with which nothing changes. */
static void print_number(const char *what, uint32_t c) {
    uint32_t number = split(c, sizeof area);
    if (number ? !unchanged() : first + second != trailer(3)) fail(what);
    printf("%s: %u\n", what, number);
}

static void number_of(const char *what, const char *rows, uint32_t c) {
    of_rows(rows);
    print_number(what, c);
}

/* So many nodes, none of them final, with so many links from the first to the second. */
static void bare(uint32_t nodes, uint32_t links) {
    static uint32_t link_words[4 * (LINKS + 1)], node_words[3 * (NODES + 1)];
    memset(node_words, 0, sizeof node_words);
    for (uint32_t l = 0; l < links; l++) {
        uint32_t fields[] = {l, l, 0, 1};
        memcpy(link_words + 4 * l, fields, sizeof fields);
    }
    node_words[0] = links;
    uint32_t start = nodes ? 0 : YELDMUR_NONE;
    uint32_t number = ends == YELDMUR_TRAILER
        ? yeldmur_write_sheet(link_words, 4 * links, node_words, 3 * nodes, start, sheet.bytes, sizeof sheet.bytes, &sheet.size)
        : yeldmur_write_sheet_in(link_words, 4 * links, node_words, 3 * nodes, start, 256, sheet.bytes, sizeof sheet.bytes, &sheet.size);
    if (number) fail("not written");
}

/* Sheet A with a fault of each number from 1 to 6. */
static void damage(uint32_t number) {
    of_rows(A);
    if (number == YELDMUR_LAYOUT) sheet.size--;
    if (number == YELDMUR_START) put_word(144, 4);
    if (number == YELDMUR_NEXT) put_word(12, 4);
    if (number == YELDMUR_WEIGHT) put_word(8, 0x80000000u);
    if (number == YELDMUR_LIMITS) bare(NODES + 1, 0);
    if (number == YELDMUR_CLIMB) put_word(12, 0);
}

/* 1 to 6 come before 13, which Sheet A gives at node 1, and 13 before 21. */
static void faults_in_order(void) {
    for (uint32_t number = 1; number <= YELDMUR_CLIMB; number++) {
        damage(number);
        for (uint32_t c = 0; c < 5; c++) if (split(c, sizeof area) != number || !unchanged()) fail("another number");
    }
    of_rows(A);
    if (split(1, 0) != YELDMUR_NARROW || split(4, 0) != YELDMUR_NARROW || split(3, 0) != YELDMUR_RESULT || !unchanged()) fail("another order");
    printf("faults of a sheet: they come before 13, and 13 before 21\n");
}

static void refuse_nodes(void) {
    number_of("the last node", A, 3);
    number_of("one past it", A, 4);
    number_of("the highest number", A, YELDMUR_NONE);
    number_of("a number that is 3 in its low half", A, 0x10003);
    bare(0, 0);
    print_number("a sheet without nodes", 0);
}

static void refuse_starts(void) {
    number_of("start at c", "1 2 7 7\n2\n", 1);
    number_of("start above c", "2 3 7 7\n3\n", 1);
    of_rows(A);
    put_word(144, YELDMUR_NONE);
    print_number("no start", 3);
}

static void refuse_marks(void) {
    number_of("a mark at c", "0 1 7 7\n1 2 8 8\n1\n2\n", 1);
    number_of("a mark below c", "0 1 7 7\n0\n1 2 8 8\n2\n", 1);
    number_of("a mark below c that is not reached", "0 2 7 7\n1\n2\n", 2);
    number_of("a barred mark below c", "0 1 7 7\n0 Infinity\n1\n", 1);
    number_of("a mark past c", "0 1 7 7\n1 2 8 8\n2\n3\n", 1);
}

static void refuse_links(void) {
    number_of("links to c and from c on", "0 1 7 7\n0 1 7 7\n1 2 7 7\n1 3 7 7\n3\n", 1);
    number_of("a link past c", A, 1);
    number_of("a barred link past c", "0 1 7 7\n0 2 7 7 Infinity\n2\n", 1);
    number_of("a link past c from a node that is not reached", "0 2 7 7\n1 3 7 7\n3\n", 2);
    number_of("a link past c as the last before it", "0 1 7 7\n1 3 8 8\n2 3 9 9\n3\n", 2);
}

/* As large as may be, and each part in its turn has all links. */
static void print_largest(uint32_t c) {
    bare(NODES, LINKS);
    size_t length = YELDMUR_SPLIT_WITH(ends, NODES, LINKS);
    if (split(c, length - 1) != YELDMUR_RESULT || !unchanged()) fail("not 21");
    if (split(c, length) || !kept(length, sizeof area)) fail("not as many bytes as named");
    check_links(c);
    printf("the largest sheet at %u, trailer of %zu: %u links and %u\n", c, ends, first, second);
}

int main(void) {
    of_rows("0 1 7 7 1\n0 1 8 8 0.5\n0 1 9 9 0.75\n1 2 7 7 0.25\n1 2 8 8 2\n2 0.5\n");
    print_split("three links to node 1, two on to node 2", 1);
    of_rows(A);
    print_split("Sheet A at its last node", 3);
    print_split("Sheet A at its start", 0);
    of_rows("1 2 7 8 -1\n0 2 5 5 3\n2 4 7 7 Infinity\n2 3 8 9\n2 128\n3 4 1 1 0.5\n4 -0.25\n");
    print_split("start 1, a mark at node 2, a barred link", 2);
    of_rows("0 1 7 7\n2 3 8 8\n3\n");
    print_split("node 2, to which no link leads", 2);
    faults_in_order();
    refuse_nodes();
    refuse_starts();
    refuse_marks();
    refuse_links();
    print_largest(0);
    print_largest(1);
    print_largest(NODES - 1);
    ends = YELDMUR_LONG_TRAILER;
    print_largest(0);
    print_largest(1);
    print_largest(NODES - 1);
    return 0;
}
