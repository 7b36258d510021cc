/* Sheets with the longer trailer, in either unit: which are accepted, what the calls make of them beside what they make of the same sheet with
 * the shorter trailer, and what they refuse, with which nothing may change. */
#include <stdio.h>
#include <stdlib.h>
#include <string.h>
#include "yeldmur.h"

enum { ROOM = 1 << 14, KEPT = 0xa5 };

/* Sheet A. */
static const uint32_t LINKS[] = {1, 1, 0x3f800000, 1, 2, 2, 0x3f000000, 2, 3, 3, 0x3e800000, 3, 5, 5, 0, 2, 4, 4, 0x3f400000, 3};
static const uint32_t NODES[] = {2, 0, 0, 2, 0, 0, 1, 0, 0, 0, 1, 0x3f000000};

/* A link of 1/256 to a final node of -32. */
static const uint32_t FINE_LINK[] = {7, 7, 0x3b800000, 1}, FINE_NODES[] = {1, 0, 0, 0, 1, 0xc2000000};

/* With the shorter trailer where `unit` is 0. */
struct sheet { uint8_t bytes[ROOM]; uint64_t size; uint32_t unit; };
static struct sheet plain, coarse, fine;
static uint8_t area[ROOM], other[ROOM];
static uint32_t work[YELDMUR_SLOT * 1000];

static void fail(const char *what) {
    printf("failed: %s\n", what);
    exit(1);
}

static uint32_t word(const uint8_t *at) { return at[0] | at[1] << 8 | at[2] << 16 | (uint32_t)at[3] << 24; }

static void put_word(uint8_t *at, uint32_t word) { for (size_t i = 0; i < 4; i++) at[i] = (uint8_t)(word >> 8 * i); }

static int kept(size_t from) {
    while (from < ROOM && area[from] == KEPT) from++;
    return from == ROOM;
}

static uint8_t *fresh(void) { return memset(area, KEPT, ROOM); }

static void write_a(struct sheet *sheet, uint32_t unit) {
    uint32_t number = unit ? yeldmur_write_sheet_in(LINKS, 20, NODES, 12, 0, unit, sheet->bytes, ROOM, &sheet->size)
                           : yeldmur_write_sheet(LINKS, 20, NODES, 12, 0, sheet->bytes, ROOM, &sheet->size);
    if (number) fail("Sheet A not written");
    sheet->unit = unit;
}

/* The fine link in any unit, from any start, of so many words of links. */
static uint32_t written(uint32_t unit, uint32_t start, size_t words) {
    uint64_t size = 7;
    uint32_t number = yeldmur_write_sheet_in(FINE_LINK, words, FINE_NODES, 6, start, unit, fresh(), ROOM, &size);
    if (number ? size != 7 || !kept(0) : size != YELDMUR_LONG_SHEET_BYTES(2, 1) || !kept(size)) fail("another answer of the writer");
    return number;
}

static void print_written(void) {
    uint64_t size = 7;
    printf("a link of 1/256 and a final weight of -32, with unit 256: %u\n", written(256, 0, 4));
    uint32_t unit = 7, number = yeldmur_unit(area, 64, &unit);
    printf("read again: %u, unit %u\n", number, unit);
    printf("with unit 64: %u, with the shorter trailer: %u\n", written(64, 0, 4),
           yeldmur_write_sheet(FINE_LINK, 4, FINE_NODES, 6, 0, fresh(), ROOM, &size));
    printf("with unit 128 and a start of 7: %u, with 0: %u, with 65: %u\n", written(128, 7, 4), written(0, 0, 4), written(65, 0, 4));
    printf("with unit 256 and a start of 7: %u\n", written(256, 7, 4));
    printf("with unit 128, and no whole link: %u\n", written(128, 7, 3));
}

/* The trailer, field by field. */
static void print_trailer(const struct sheet *sheet) {
    uint32_t nodes, links, finals, start, unit;
    if (yeldmur_sheet_counts(sheet->bytes, sheet->size, &nodes, &links, &finals, &start)) fail("counts");
    if (yeldmur_unit(sheet->bytes, sheet->size, &unit)) fail("a unit");
    size_t trailer = YELDMUR_TRAILER_OF(sheet->size, nodes, links);
    if (sheet->size != YELDMUR_SHEET_WITH(trailer, nodes, links)) fail("another length");
    printf("unit %u, %u bytes, trailer of %u:", unit, (unsigned)sheet->size, (unsigned)trailer);
    for (size_t at = sheet->size - trailer; at < sheet->size; at += 4) printf(" %u", word(sheet->bytes + at));
    printf("\n");
}

/* Those of the result in 64ths, too: of Sheet A each is a whole number of them. */
static void print_distances(const struct sheet *sheet) {
    uint32_t values, reached, unit;
    int32_t cost, in_64ths;
    if (yeldmur_unit(sheet->bytes, sheet->size, &unit)) fail("a unit");
    if (yeldmur_shortest_distance(sheet->bytes, sheet->size, work, sizeof work / 4, area, ROOM, &values)) fail("distances");
    printf("distances");
    for (uint32_t v = 0; v < values; v++) {
        if (yeldmur_distance_in(area, ROOM, values, v, unit, &reached, &cost) || !reached) fail("a distance");
        if (yeldmur_distance(area, ROOM, values, v, &reached, &in_64ths) || in_64ths != cost / (int32_t)(unit / 64)) fail("a distance in 64ths");
        printf(" %d", cost);
    }
    printf("\n");
}

static void print_list(const struct sheet *sheet, uint32_t n) {
    uint32_t states, links, taken, readings, run[4], count, end;
    int32_t cost;
    if (yeldmur_shortest_path(sheet->bytes, sheet->size, n, work, sizeof work / 4, area, ROOM, &states, &links, &taken)) fail("a list");
    if (yeldmur_readings(area, ROOM, n, states, links, &readings)) fail("readings");
    printf("n = %u, %u taken:", n, taken);
    for (uint32_t k = 0; k < readings; k++) {
        if (yeldmur_reading(sheet->bytes, sheet->size, n, area, ROOM, states, links, k, run, 4, &count, &cost, &end)) fail("a reading");
        printf("%s %d by", k ? ";" : "", cost);
        for (uint32_t i = 0; i < count; i++) printf(" %u", run[i]);
    }
    printf("\n");
}

/* An answer of the sheet with the longer trailer is that of the one with the shorter, with the unit between the machine and its words. */
static void compare_list(const struct sheet *sheet, uint32_t n) {
    uint32_t counts[2][3];
    uint64_t slots, bytes, plain_bytes, any_bytes;
    if (yeldmur_areas(plain.bytes, plain.size, n, &slots, &plain_bytes) || yeldmur_areas(sheet->bytes, sheet->size, n, &slots, &bytes)) fail("areas");
    if (yeldmur_areas_of(4, 5, 1, n, &slots, &any_bytes)) fail("areas of counts");
    if (bytes != plain_bytes + 4 || any_bytes != bytes) fail("other areas");
    if (yeldmur_shortest_path(plain.bytes, plain.size, n, work, YELDMUR_SLOT * slots, other, plain_bytes, counts[0], counts[0] + 1, counts[0] + 2)) fail("a list");
    size_t machine = YELDMUR_SHEET_BYTES(counts[0][0], counts[0][1]), words = 4 * counts[0][1];
    memmove(other + machine + 4, other + machine, words);
    put_word(other + machine, sheet->unit);
    size_t length = machine + 4 + words, rooms[] = {0, 20, 23, length - 1, length, bytes};
    for (uint32_t i = 0; i < sizeof rooms / sizeof *rooms; i++) {
        uint32_t number = yeldmur_shortest_path(sheet->bytes, sheet->size, n, work, YELDMUR_SLOT * slots, fresh(), rooms[i], counts[1], counts[1] + 1, counts[1] + 2);
        if (rooms[i] < length ? number != YELDMUR_RESULT || !kept(0) : number || !kept(length)) fail("another room");
        if (!number && (memcmp(area, other, length) || memcmp(counts[0], counts[1], sizeof *counts))) fail("another answer");
    }
}

/* Without the sheet as many bytes are asked for as with the shorter trailer, with it all. */
static void read_cut(const struct sheet *sheet, uint32_t n) {
    uint32_t states, links, taken, readings, run[4], count, end;
    int32_t cost;
    if (yeldmur_shortest_path(sheet->bytes, sheet->size, n, work, sizeof work / 4, area, ROOM, &states, &links, &taken)) fail("a list");
    size_t whole = YELDMUR_LONG_SHEET_BYTES(states, links) + 4 * links;
    for (size_t room = 0; room <= whole; room++) {
        uint32_t told = yeldmur_readings(area, room, n, states, links, &readings);
        if (told != (room + 4 < whole ? YELDMUR_NO_ANSWER : YELDMUR_DONE)) fail("another count of a cut answer");
        told = yeldmur_reading(sheet->bytes, sheet->size, n, area, room, states, links, 0, run, 4, &count, &cost, &end);
        if (told != (room < whole ? YELDMUR_NO_ANSWER : YELDMUR_DONE)) fail("a reading of a cut answer");
    }
}

static void print_a(const struct sheet *sheet) {
    print_trailer(sheet);
    print_distances(sheet);
    print_list(sheet, 1);
    print_list(sheet, 3);
    if (sheet->unit == 0) return;
    for (uint32_t n = 0; n <= YELDMUR_LIST_LIMIT; n++) compare_list(sheet, n);
    for (uint32_t n = 1; n < 5; n++) read_cut(sheet, n);
}

/* The sheet without nodes: its answer for each n is itself. */
static void print_empty(uint32_t unit) {
    static const uint32_t NONE[1];
    uint8_t sheet[YELDMUR_LONG_TRAILER];
    uint64_t size;
    uint32_t states, links, taken, readings, refused = 0;
    if (yeldmur_write_sheet_in(NONE, 0, NONE, 0, YELDMUR_NONE, unit, sheet, sizeof sheet, &size) || size != sizeof sheet) fail("no sheet without nodes");
    for (uint32_t n = 0; n <= YELDMUR_LIST_LIMIT; n++) {
        if (yeldmur_shortest_path(sheet, size, n, work, sizeof work / 4, fresh(), size, &states, &links, &taken)) fail("an empty list");
        if (memcmp(area, sheet, size) || states || links || taken) fail("not empty");
        if (yeldmur_readings(area, size, n, states, links, &readings) || readings) fail("readings of an empty list");
        refused += yeldmur_shortest_path(sheet, size, n, work, sizeof work / 4, fresh(), size - 1, &states, &links, &taken) == YELDMUR_RESULT && kept(0);
    }
    printf("no nodes, unit %u: in 23 bytes refused %u times; as 23 bytes %u, as 20 %u\n", unit, refused, yeldmur_read_sheet(sheet, 23),
           yeldmur_read_sheet(sheet, 20));
}

/* A copy of a sheet with a word changed. */
static const struct sheet *changed(const struct sheet *sheet, size_t at, uint32_t word) {
    static struct sheet copy;
    copy = *sheet;
    put_word(copy.bytes + at, word);
    return &copy;
}

/* What every call that takes a sheet says of one; with a refusal nothing changes. */
static uint32_t number_of(const struct sheet *sheet) {
    const uint8_t *bytes = sheet->bytes;
    uint32_t a = 7, b = 7, c = 7, d = 7, run[4] = {7, 7, 7, 7}, number = yeldmur_read_sheet(bytes, sheet->size);
    uint64_t slots = 7, size = 7;
    int32_t cost = 7;
    if (number == 0) return 0;
    fresh();
    int same = yeldmur_unit(bytes, sheet->size, &a) == number && yeldmur_sheet_counts(bytes, sheet->size, &a, &b, &c, &d) == number
        && yeldmur_areas(bytes, sheet->size, 65, &slots, &size) == number && yeldmur_sheet_rows_bytes(bytes, sheet->size, &size) == number
        && yeldmur_sheet_to_rows(bytes, sheet->size, area, ROOM, &size) == number
        && yeldmur_shortest_distance(bytes, sheet->size, work, 0, area, ROOM, &a) == number
        && yeldmur_shortest_path(bytes, sheet->size, 65, work, 0, area, ROOM, &a, &b, &c) == number
        && yeldmur_reading(bytes, sheet->size, 65, other, ROOM, 3, 2, 0, run, 4, &a, &cost, &b) == number
        && yeldmur_split(bytes, sheet->size, 9, area, ROOM, &a, &b) == number
        && yeldmur_two_probes(bytes, sheet->size, bytes, sheet->size, area, ROOM, &size) == number;
    if (!same) fail("two numbers");
    if (a != 7 || b != 7 || c != 7 || d != 7 || run[0] != 7 || slots != 7 || size != 7 || cost != 7 || !kept(0)) fail("something changed");
    return number;
}

static void print_number(const char *what, const struct sheet *sheet) { printf("%s: %u\n", what, number_of(sheet)); }

/* Where in Sheet A its trailer begins, and the unit stands. */
enum { TRAILER = 128, UNIT = 148, BAD = 128 };

static void print_units(void) {
    print_number("unit 0", changed(&fine, UNIT, 0));
    print_number("unit 63", changed(&fine, UNIT, 63));
    print_number("unit 128", changed(&fine, UNIT, BAD));
    print_number("64 in the second byte", changed(&fine, UNIT, 64 << 8));
    print_number("the highest", changed(&fine, UNIT, YELDMUR_NONE));
    print_number("unit 128 and a start that is no node", changed(changed(&fine, UNIT, BAD), TRAILER + 16, 7));
    print_number("unit 128 and a next node that is none", changed(changed(&fine, UNIT, BAD), 12, 7));
    print_number("unit 128 and a weight off the grid", changed(changed(&fine, UNIT, BAD), 8, 1));
    print_number("unit 128 and a mark of 2", changed(changed(&fine, UNIT, BAD), 84, 2));
}

static void print_fields(void) {
    print_number("an offset of links", changed(&fine, TRAILER, 4));
    print_number("an offset of nodes", changed(&fine, TRAILER + 4, 84));
    print_number("a node more", changed(&fine, TRAILER + 8, 5));
    print_number("a link less", changed(&fine, TRAILER + 12, 4));
    print_number("a start that is no node", changed(&fine, TRAILER + 16, 4));
}

/* A weight on the first link. */
static void print_weight(const char *what, uint32_t bits) {
    uint32_t numbers[3];
    const struct sheet *sheets[] = {&plain, &coarse, &fine};
    for (uint32_t i = 0; i < 3; i++) numbers[i] = number_of(changed(sheets[i], 8, bits));
    printf("a weight of %s: %u with the shorter trailer, %u with unit 64, %u with unit 256\n", what, numbers[0], numbers[1], numbers[2]);
}

static void print_weights(void) {
    print_weight("1/64", 0x3c800000);
    print_weight("1/256", 0x3b800000);
    print_weight("1/512", 0x3b000000);
    print_weight("32", 0x42000000);
    print_weight("32 and 1/256", 0x42000400);
    print_weight("32 and 1/64", 0x42001000);
    print_weight("-128", 0xc3000000);
    print_weight("-128 and 1/64 less", 0xc3000400);
    print_weight("infinity", YELDMUR_BARRED);
}

static void print_rows(const struct sheet *sheet) {
    uint64_t size = 7;
    uint32_t number = yeldmur_sheet_to_rows(sheet->bytes, sheet->size, fresh(), ROOM, &size);
    if (yeldmur_sheet_rows_bytes(sheet->bytes, sheet->size, &size) != number || size != 7 || !kept(0)) fail("rows of a longer trailer");
    printf("rows with unit %u: %u\n", sheet->unit, number);
}

/* A sheet with the longer trailer is one with the shorter and a word more. */
static void compare_bytes(void) {
    if (coarse.size != plain.size + 4 || fine.size != plain.size + 4) fail("another length");
    if (memcmp(plain.bytes, coarse.bytes, plain.size) || memcmp(plain.bytes, fine.bytes, plain.size)) fail("other bytes");
    if (yeldmur_read_sheet(fine.bytes, fine.size - 4) || yeldmur_read_sheet(fine.bytes, fine.size - 1) != 1) fail("a sheet cut off");
}

/* The distance of a fine link is none in 64ths; no other unit is taken. */
static void print_distance_units(void) {
    uint64_t size;
    uint32_t values, reached = 7;
    int32_t cost = 7;
    if (yeldmur_write_sheet_in(FINE_LINK, 4, FINE_NODES, 6, 0, 256, other, ROOM, &size)) fail("the fine link");
    if (yeldmur_shortest_distance(other, size, work, sizeof work / 4, area, ROOM, &values)) fail("distances");
    uint32_t by_64 = yeldmur_distance(area, ROOM, values, 1, &reached, &cost);
    if (yeldmur_distance_in(area, ROOM, values, 1, 64, &reached, &cost) != by_64) fail("two numbers of a distance in 64ths");
    uint32_t by_128 = yeldmur_distance_in(area, 0, values, 9, 128, &reached, &cost), past = yeldmur_distance_in(area, ROOM, values, 9, 256, &reached, &cost);
    if (reached != 7 || cost != 7) fail("a distance told with a refusal");
    uint32_t by_256 = yeldmur_distance_in(area, ROOM, values, 1, 256, &reached, &cost);
    printf("a distance of 1/256: in 64ths %u, in 128ths %u, past the last %u, in 256ths %u, which is %d\n", by_64, by_128, past, by_256, cost);
}

static uint32_t both(const struct sheet *one, const struct sheet *two, uint64_t *size) {
    *size = 7;
    uint32_t number = yeldmur_two_probes(one->bytes, one->size, two->bytes, two->size, fresh(), ROOM, size);
    if (number && (*size != 7 || !kept(0))) fail("something changed");
    return number;
}

static void print_both(void) {
    static const struct sheet *const SHEETS[] = {&plain, &coarse, &fine};
    static const char *const NAMES[] = {"the shorter trailer", "unit 64", "unit 256"};
    struct sheet made = {{0}, 0, 0};
    for (uint32_t i = 0; i < 3; i++) {
        for (uint32_t j = 0; j < 3; j++) {
            uint32_t number = both(SHEETS[i], SHEETS[j], &made.size);
            printf("%s and %s: %u", NAMES[i], NAMES[j], number);
            if (number) {
                printf("\n");
                continue;
            }
            memcpy(made.bytes, area, ROOM);
            printf(", ");
            print_trailer(&made);
        }
    }
    print_list(&made, 3);
}

static void print_pair(const char *what, const struct sheet *one, const struct sheet *two) {
    uint64_t size;
    printf("%s: %u\n", what, both(one, two, &size));
}

/* Of the first sheet all tests come before, and of the second 1 alone. */
static void refuse_pairs(void) {
    struct sheet dear;
    print_pair("a first sheet with a mark of 2 beside another unit", changed(&plain, 84, 2), &fine);
    print_pair("a first sheet with a start that is no node", changed(&plain, TRAILER + 16, 4), &fine);
    print_pair("a first sheet that does not climb", changed(&plain, 12, 0), &fine);
    print_pair("a first sheet with a label of 0", changed(&plain, 0, 0), &fine);
    print_pair("a second sheet with a mark of 2 beside another unit", &fine, changed(&plain, 84, 2));
    print_pair("a second sheet with a start that is no node", &fine, changed(&plain, TRAILER + 16, 4));
    print_pair("a second sheet that does not climb", &fine, changed(&plain, 12, 0));
    print_pair("a second sheet with a start that is no node beside its own unit", &fine, changed(&fine, TRAILER + 16, 4));
    print_pair("a first sheet with unit 128", changed(&fine, UNIT, BAD), &plain);
    print_pair("a second sheet with unit 128", &plain, changed(&fine, UNIT, BAD));
    dear = *changed(&coarse, 8, 0x42000000);
    print_pair("32 and 32 with unit 64", &dear, &dear);
    dear = *changed(&fine, 8, 0x42000000);
    print_pair("32 and 32 with unit 256", &dear, &dear);
}

/* Both parts at c, by the places that the header names. */
static void print_parts(const struct sheet *sheet, uint32_t c) {
    uint32_t first, second;
    size_t trailer = sheet->unit ? YELDMUR_LONG_TRAILER : YELDMUR_TRAILER, length = YELDMUR_SPLIT_WITH(trailer, 4, 5);
    if (yeldmur_split(sheet->bytes, sheet->size, c, fresh(), length - 1, &first, &second) != YELDMUR_RESULT || !kept(0)) fail("not 21");
    if (length > YELDMUR_SPLIT_BYTES(4, 5) || yeldmur_split(sheet->bytes, sheet->size, c, area, length, &first, &second) || !kept(length)) fail("parts");
    size_t numbers = YELDMUR_SPLIT_NUMBERS(trailer, c, first), later = YELDMUR_SPLIT_SECOND(trailer, c, first);
    struct sheet part = {{0}, numbers, sheet->unit};
    printf("at %u: %u bytes, %u links and %u\n", c, (unsigned)length, first, second);
    memcpy(part.bytes, area, numbers);
    print_trailer(&part);
    part.size = YELDMUR_SHEET_WITH(trailer, 4 - c, second);
    memcpy(part.bytes, area + later, part.size);
    for (uint32_t l = 0; l < first + second; l++)
        if (word(area + (l < first ? numbers + 4 * l : later + part.size + 4 * (l - first))) != l) fail("another number of a link");
    if (later + part.size + 4 * second != length) fail("another end");
    print_trailer(&part);
}

int main(void) {
    print_written();
    write_a(&plain, 0), write_a(&coarse, 64), write_a(&fine, 256);
    compare_bytes();
    print_a(&plain), print_a(&coarse), print_a(&fine);
    print_empty(64), print_empty(256);
    print_units();
    print_fields();
    print_weights();
    print_rows(&coarse), print_rows(&fine);
    print_distance_units();
    print_both();
    refuse_pairs();
    print_parts(&plain, 3), print_parts(&fine, 3), print_parts(&coarse, 0);
    return 0;
}
