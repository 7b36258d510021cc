/* Turns the text rows of Sheet A into a sheet and back, in areas of every length; then refusals, of which none may change an area
 * or a number. */
#include <stdio.h>
#include <stdlib.h>
#include <string.h>
#include "yeldmur.h"

enum { SIZE = 148, ROOM = 256, KEPT = 0xa5 };

static const uint32_t LINKS[] = {1, 1, 0x3f800000, 1, 2, 2, 0x3f000000, 2, 3, 3, 0x3e800000, 3, 5, 5, 0, 2, 4, 4, 0x3f400000, 3};
static const uint32_t NODES[] = {2, 0, 0, 2, 0, 0, 1, 0, 0, 0, 1, 0x3f000000};
static const char ROWS[] = "0\t1\t1\t1\t1\n0\t2\t2\t2\t0.5\n1\t3\t3\t3\t0.25\n1\t2\t5\t5\n2\t3\t4\t4\t0.75\n3\t0.5\n";
static const char BARRED[] = "0\t1\t7\t8\tInfinity\n0\t-0.5\n1\tInfinity\n";
static const char OTHER[] = " 0 1 1 1 1.000000\t\n3 00.5\n2\t\t3 4 04 0.75 \n1 3 3 3 0.250\n\t0 2 2 2 0.50\n1 2 5 5 -0\n";

static uint8_t sheet[SIZE], area[ROOM];

static void fail(const char *what) {
    printf("%s\n", what);
    exit(1);
}

static int kept(size_t from) {
    while (from < ROOM && area[from] == KEPT) from++;
    return from == ROOM;
}

static void put_word(size_t at, uint32_t word) { for (size_t i = 0; i < 4; i++) sheet[at + i] = (uint8_t)(word >> 8 * i); }

static void write_sheet(void) {
    uint64_t size;
    if (yeldmur_write_sheet(LINKS, 20, NODES, 12, 0, sheet, SIZE, &size) || size != SIZE) fail("Sheet A not written");
}

static uint32_t to_sheet(const char *text, size_t bytes, size_t room, uint64_t *size) {
    memset(area, KEPT, ROOM);
    return yeldmur_rows_to_sheet((const uint8_t *)text, bytes, area, room, size);
}

static uint32_t to_rows(size_t bytes, size_t room, uint64_t *size) {
    memset(area, KEPT, ROOM);
    return yeldmur_sheet_to_rows(sheet, bytes, area, room, size);
}

/* Every room up to that of the whole area: 21 and nothing changed, or the sheet and the bytes beyond it kept. */
static void convert(const char *text, size_t bytes) {
    uint64_t told = 7;
    if (yeldmur_rows_sheet_bytes((const uint8_t *)text, bytes, &told) || told != SIZE) fail("another length of the sheet");
    for (size_t room = 0; room <= ROOM; room++) {
        uint64_t size = 7;
        uint32_t number = to_sheet(text, bytes, room, &size);
        if (room < SIZE ? number != YELDMUR_RESULT || size != 7 || !kept(0) : number || size != SIZE || !kept(SIZE)) fail("another answer");
        if (room >= SIZE && memcmp(area, sheet, SIZE)) fail("another sheet");
    }
}

static void convert_back(void) {
    const size_t length = sizeof ROWS - 1;
    uint64_t told = 7;
    if (yeldmur_sheet_rows_bytes(sheet, SIZE, &told) || told != length) fail("another length of the rows");
    for (size_t room = 0; room <= ROOM; room++) {
        uint64_t size = 7;
        uint32_t number = to_rows(SIZE, room, &size);
        if (room < length ? number != YELDMUR_RESULT || size != 7 || !kept(0) : number || size != length || !kept(length)) fail("another answer");
        if (room >= length && memcmp(area, ROWS, length)) fail("other rows");
    }
}

/* Rows with what is barred to a sheet and back. */
static void convert_barred(void) {
    uint8_t made[60];
    uint64_t size = 7, back = 7;
    if (yeldmur_rows_to_sheet((const uint8_t *)BARRED, sizeof BARRED - 1, made, sizeof made, &size) || size != sizeof made) fail("barred rows refused");
    if (yeldmur_sheet_to_rows(made, sizeof made, area, ROOM, &back)) fail("a barred sheet without rows");
    if (back != sizeof BARRED - 1 || memcmp(area, BARRED, back)) fail("other barred rows");
    for (size_t at = 0; at < sizeof made; at += 4) printf("%02x%02x%02x%02x%s", made[at + 3], made[at + 2], made[at + 1], made[at], at + 4 < sizeof made ? " " : "\n");
}

static void refuse(const char *name, const char *text, size_t bytes) {
    uint64_t size = 7, told = 7;
    uint32_t number = to_sheet(text, bytes, ROOM, &size);
    if (yeldmur_rows_sheet_bytes((const uint8_t *)text, bytes, &told) != number) fail("two numbers");
    if (number == 0 || size != 7 || told != 7 || !kept(0)) fail(name);
    printf("%s: refused %u\n", name, number);
}

/* Sheet A with one word changed. */
static void refuse_sheet(const char *name, size_t bytes, size_t at, uint32_t word) {
    uint64_t size = 7, told = 7;
    write_sheet();
    put_word(at, word);
    uint32_t number = to_rows(bytes, ROOM, &size);
    if (yeldmur_sheet_rows_bytes(sheet, bytes, &told) != number) fail("two numbers");
    if (number == 0 || size != 7 || told != 7 || !kept(0)) fail(name);
    printf("%s: refused %u\n", name, number);
}

#define REFUSE(name, text) refuse(name, text, sizeof text - 1)

static void refuse_texts(void) {
    REFUSE("an empty text", "");
    REFUSE("no newline at the end", "0 1 1 1 1\n1");
    REFUSE("a blank row", "0\n\n1\n");
    REFUSE("three fields", "0 1 1\n");
    REFUSE("six fields", "0 1 1 1 1 1\n");
    REFUSE("+1", "0 +1\n");
    REFUSE("1.", "0 1.\n");
    REFUSE(".5", "0 .5\n");
    REFUSE("1e3", "0 1e3\n");
    REFUSE("seven decimals", "0 1.0000000\n");
    REFUSE("infinity", "0 infinity\n");
    REFUSE("inf", "0 inf\n");
    REFUSE("-Infinity", "0 -Infinity\n");
    REFUSE("a letter short of Infinity", "0 Infinit\n");
    REFUSE("a letter more than Infinity", "0 Infinitys\n");
    REFUSE("a carriage return", "0 1\r\n");
    REFUSE("a byte of 0", "0\0\n");
    REFUSE("a byte above 127", "0 \xb2\n");
    REFUSE("a node past 32 bits", "4294967296\n");
    REFUSE("a label past 32 bits", "0 1 1 9999999999\n");
    REFUSE("a second final row", "0 1\n1\n0 1\n");
    REFUSE("an unreadable row behind a weight off the grid", "0 129\n1 x\n");
    REFUSE("one node too many", "4294967295 9\n");
    REFUSE("128.000001", "0 128.000001\n");
    REFUSE("forty digits", "0 9999999999999999999999999999999999999999\n");
}

static void refuse_sheets(void) {
    refuse_sheet("a sheet without its last byte", SIZE - 1, 0, 1);
    refuse_sheet("a start that is no node", SIZE, SIZE - 4, 4);
    refuse_sheet("a next node that is none", SIZE, 12, 4);
    refuse_sheet("negative zero", SIZE, 8, 0x80000000u);
    refuse_sheet("no start", SIZE, SIZE - 4, YELDMUR_NONE);
    put_word(8, 0x80000000u);
    uint64_t size = 7;
    if (to_rows(SIZE, 0, &size) != YELDMUR_WEIGHT) fail("not 4 before 9");
}

/* A long sheet is known by arithmetic, and refused for want of room. */
static void measure_long(void) {
    static const char text[] = "4294967294\n";
    uint64_t size = 7, told = 7;
    if (yeldmur_rows_sheet_bytes((const uint8_t *)text, sizeof text - 1, &told)) fail("a long sheet refused");
    uint32_t number = to_sheet(text, sizeof text - 1, ROOM, &size);
    if (size != 7 || !kept(0)) fail("a long sheet begun");
    printf("4294967295 nodes: %llu bytes, refused %u in %d\n", (unsigned long long)told, number, ROOM);
}

int main(void) {
    write_sheet();
    convert(ROWS, sizeof ROWS - 1);
    convert(OTHER, sizeof OTHER - 1);
    convert_back();
    fwrite(area, 1, sizeof ROWS - 1, stdout);
    convert_barred();
    refuse_texts();
    refuse_sheets();
    measure_long();
    return 0;
}
