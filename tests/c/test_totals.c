/* Sheets added to totals: what a sheet is, and where its pieces go. */
#include <string.h>

#include "report.h"
#include "sheets.h"
#include "tests.h"

/* No two totals are the same, so that one in another's place is seen. */
static void make_distinct(uint32_t *totals)
{
    uint32_t i;

    for (i = 0; i < TABLE; i++)
        totals[i] = 1000003 * i + 7;
}

/* Expects the sheet accepted, with so many pieces added to one worker's
 * total and nothing to the others. */
static void expect_added(struct text sheet, unsigned worker, uint32_t pieces)
{
    uint32_t totals[TABLE], expected[TABLE];

    make_distinct(totals);
    make_distinct(expected);
    expected[worker - 1] += pieces;
    EXPECT_NUMBER(0, try_add_sheet(totals, TABLE, sheet));
    expect_totals("totals of one worker's sheet", expected, totals);
}

static void expect_refused_12(const char *why, struct text sheet)
{
    uint32_t totals[TABLE], expected[TABLE];

    make_distinct(totals);
    make_distinct(expected);
    expect_number(__FILE__, __LINE__, why, 12,
                  try_add_sheet(totals, TABLE, sheet));
    expect_totals(why, expected, totals);
}

static void macros(void)
{
    EXPECT_NUMBER(500, TANDOS_WORKERS);
    EXPECT_NUMBER(1000000000, TANDOS_TOTAL_MAX);
    EXPECT_NUMBER(5, TANDOS_SHEET_RECORD_SIZE);
    EXPECT_NUMBER(0, TANDOS_SHEET_END);
    EXPECT_NUMBER(1, TANDOS_SHEET_PIECES);
    EXPECT_NUMBER(2, TANDOS_SHEET_DATE);
}

static void sheets_of_few_bytes(void)
{
    static const uint8_t some[] = { 0 };

    expect_added(SHEET(END), 1, 0);
    expect_added(SHEET(ONE END), 1, 1);
    expect_added(SHEET(DATE END), 1, 0);
    expect_added(SHEET(DATE ONE DATE ONE END), 1, 2);
    expect_refused_12("NULL", bytes(NULL, 0));
    expect_refused_12("no bytes", bytes(some, 0));
    EXPECT_NUMBER(12, tandos_add_sheet(NULL, 0, NULL, 0));
    EXPECT_NUMBER(12, tandos_add_sheet(NULL, 0, some, 1));
}

static void wrong_in_one_way(void)
{
    size_t i;

    for (i = 0; i < wrong_sheet_count; i++)
        expect_refused_12(wrong_sheets[i].why, wrong_sheets[i].sheet);
}

/* Every other kind, with a body behind it, without one, and in the place of the
 * end. The literals' own zeros are the ends. */
static void kinds(void)
{
    uint8_t first[] = ONE ONE, later[] = ONE ONE, ends[] = ONE;
    unsigned kind;

    for (kind = 3; kind <= 255; kind++) {
        uint8_t alone[] = { 0, 0 };

        first[0] = later[5] = ends[5] = alone[0] = (uint8_t)kind;
        expect_refused_12("first kind", bytes(first, sizeof first));
        expect_refused_12("later kind", bytes(later, sizeof later));
        expect_refused_12("kind of the end", bytes(ends, sizeof ends));
        expect_refused_12("kind alone", bytes(alone, 1));
        expect_refused_12("kind and end", bytes(alone, 2));
    }
}

/* Records of every kind, each with zeros in its body. */
static const uint8_t whole[] = ONE DATE "\x01\0\x01\0\0" "\x02\0\0\0\0" ONE
                               "\x01\xF4\x01\0\x01" DATE ONE;

/* Each shorter sheet ends in a record, or behind one without an end. */
static void every_cut(void)
{
    uint32_t totals[TABLE], expected[TABLE];
    size_t length;

    for (length = 0; length < sizeof whole; length++)
        expect_refused_12("cut sheet", bytes(whole, length));
    make_totals(expected, 500, 256);
    expected[0] = 3;
    fill_totals(totals, TABLE, 0);
    EXPECT_NUMBER(0, try_add_sheet(totals, TABLE, bytes(whole, sizeof whole)));
    expect_totals("totals of the whole sheet", expected, totals);
}

/* A record of kind 1 or 2 that lacks its last 1 to 4 bytes, first, last and
 * alone; then with an end, which may be taken for its next byte. */
static void cut_records(unsigned kind)
{
    uint8_t sheet[16];
    size_t held;

    for (held = 1; held < 5; held++) {
        memcpy(sheet, ONE ONE ONE, sizeof sheet);
        sheet[0] = (uint8_t)kind;
        memcpy(sheet + held, ONE, 6);
        expect_refused_12("first record cut", bytes(sheet, held + 6));
        expect_refused_12("only record cut", bytes(sheet, held));
        sheet[held] = 0;
        expect_refused_12("only record cut, end", bytes(sheet, held + 1));
        memcpy(sheet, ONE ONE ONE, sizeof sheet);
        sheet[5] = (uint8_t)kind;
        expect_refused_12("last record cut", bytes(sheet, 5 + held));
        sheet[5 + held] = 0;
        expect_refused_12("last record cut, end", bytes(sheet, 6 + held));
    }
}

/* Any byte, any number of zeros and any number of good bytes after the end. */
static void after_the_end(void)
{
    uint8_t sheet[64] = ONE;
    unsigned byte;
    size_t count;

    for (byte = 0; byte <= 255; byte++) {
        sheet[6] = (uint8_t)byte;
        expect_refused_12("a byte after the end", bytes(sheet, 7));
    }
    memset(sheet + 6, 0, sizeof sheet - 6);
    for (count = 1; count <= 26; count++)
        expect_refused_12("zeros after the end", bytes(sheet, 6 + count));
    memcpy(sheet + 6, whole, sizeof whole);
    for (count = 1; count <= sizeof whole; count++)
        expect_refused_12("a sheet after the end", bytes(sheet, 6 + count));
    for (count = 1; count <= sizeof whole; count++)
        expect_refused_12("a sheet after an end alone",
                          bytes(sheet + 5, 1 + count));
}

static void zeros_in_bodies(void)
{
    expect_added(SHEET("\x01\x01\0\0\0" END), 1, 0);
    expect_added(SHEET("\x01\0\x01\0\0" END), 256, 0);
    expect_added(SHEET("\x01\0\x01\0\x01" END), 256, 256);
    expect_added(SHEET("\x02\0\0\0\0" END), 1, 0);
    expect_added(SHEET("\x02\0\0\0\0" ONE END), 1, 1);
    expect_added(SHEET("\x01\x02\0\0\0" "\x02\0\0\0\0" "\x01\x02\0\x03\0" END),
                 2, 3);
}

/* Low byte first: a worker's and a piece's bytes by hand. */
static void low_byte_first(void)
{
    expect_added(SHEET("\x01\x01\0\x05\0" END), 1, 5);
    expect_added(SHEET("\x01\0\x01\x05\0" END), 256, 5);
    expect_added(SHEET("\x01\x01\x01\x05\0" END), 257, 5);
    expect_added(SHEET("\x01\xFF\0\x05\0" END), 255, 5);
    expect_added(SHEET("\x01\xF3\x01\x05\0" END), 499, 5);
    expect_added(SHEET("\x01\xF4\x01\x05\0" END), 500, 5);
    expect_refused_12("500, high byte first",
                      SHEET("\x01\x01\xF4\x05\0" END));
    expect_refused_12("244 * 256", SHEET("\x01\0\xF4\x05\0" END));
    expect_added(SHEET("\x01\x07\0\0\0" END), 7, 0);
    expect_added(SHEET("\x01\x07\0\x01\0" END), 7, 1);
    expect_added(SHEET("\x01\x07\0\x7F\0" END), 7, 127);
    expect_added(SHEET("\x01\x07\0\x80\0" END), 7, 128);
    expect_added(SHEET("\x01\x07\0\xFF\0" END), 7, 255);
    expect_added(SHEET("\x01\x07\0\0\x01" END), 7, 256);
    expect_added(SHEET("\x01\x07\0\x02\x01" END), 7, 258);
    expect_added(SHEET("\x01\x07\0\xFF\x7F" END), 7, 32767);
    expect_added(SHEET("\x01\x07\0\0\x80" END), 7, 32768);
    expect_added(SHEET("\x01\x07\0\xFF\xFF" END), 7, 65535);
}

/* All numbers up to 1,100, then those that are 1 or 500 when cut to fewer
 * bits, and the last. */
static void workers(void)
{
    uint8_t sheet[] = ONE;
    unsigned worker, bit;

    for (worker = 0; worker <= 1100; worker++) {
        sheet[1] = (uint8_t)(worker % 256);
        sheet[2] = (uint8_t)(worker / 256);
        if (worker >= 1 && worker <= 500)
            expect_added(bytes(sheet, sizeof sheet), worker, 1);
        else
            expect_refused_12("worker", bytes(sheet, sizeof sheet));
    }
    for (bit = 2; bit < 256; bit *= 2) {
        memcpy(sheet, ONE, sizeof sheet);
        sheet[2] = (uint8_t)bit;
        expect_refused_12("1 and a high bit", bytes(sheet, sizeof sheet));
        sheet[1] = 0xF4;
        sheet[2] = (uint8_t)(bit + 1);
        expect_refused_12("500 and a high bit", bytes(sheet, sizeof sheet));
    }
    expect_refused_12("65,535", SHEET("\x01\xFF\xFF\x01\0" END));
    expect_refused_12("65,280", SHEET("\x01\0\xFF\x01\0" END));
}

/* Any byte in any place of a date, also where a record of pieces would be
 * refused or counted. */
static void dates(void)
{
    uint8_t sheet[] = "\x02\x01\0\x01\0" ONE;
    size_t place;
    unsigned byte;

    for (place = 1; place <= 4; place++) {
        for (byte = 0; byte <= 255; byte++) {
            sheet[place] = (uint8_t)byte;
            expect_added(bytes(sheet, sizeof sheet), 1, 1);
        }
    }
    expect_added(SHEET("\x02\0\0\xFF\xFF" END), 1, 0);
    expect_added(SHEET("\x02\xFF\xFF\xFF\xFF" END), 1, 0);
    expect_added(SHEET(ONE "\x02\x01\x01\x01\x01" ONE END), 1, 2);
}

/* A table of another length is refused whole, be the sheet good or not, and
 * be all its workers in the table. */
static void tables(void)
{
    static const size_t counts[] = { 0, 1, 2, 499, 501, 756, 999, 1000 };
    uint32_t totals[1000], expected[1000];
    size_t i;

    fill_totals(totals, 1000, 41);
    fill_totals(expected, 1000, 41);
    for (i = 0; i < sizeof counts / sizeof counts[0]; i++) {
        EXPECT_NUMBER(12, try_add_sheet(totals, counts[i], SHEET(END)));
        EXPECT_NUMBER(12, try_add_sheet(totals, counts[i], SHEET(ONE END)));
        EXPECT_NUMBER(12, try_add_sheet(totals, counts[i],
                                        SHEET("\x01\xF5\x01\x01\0" END)));
        EXPECT_NUMBER(12, try_add_sheet(totals, counts[i], SHEET(ONE)));
        expect_bytes("table of another length", (uint8_t *)expected,
                     (uint8_t *)totals, sizeof totals);
    }
    EXPECT_NUMBER(12, try_add_sheet(NULL, 0, SHEET(END)));
    EXPECT_NUMBER(12, try_add_sheet(NULL, 0, SHEET(ONE END)));
    EXPECT_NUMBER(12, try_add_sheet(NULL, 0, bytes(NULL, 0)));
}

/* Worker w gets w + 3 pieces in one record and 65,535 in another, each with a
 * date before it: 1,000 records of pieces. */
static void all_workers(void)
{
    static struct records records;
    uint32_t totals[TABLE], expected[TABLE];
    unsigned worker;

    make_distinct(totals);
    begin_records(&records);
    for (worker = 1; worker <= 500; worker++) {
        put_record(&records, 2, 0xFFFF, worker);
        put_pieces(&records, worker, worker + 3);
    }
    for (worker = 500; worker >= 1; worker--) {
        put_record(&records, 2, worker, 0xFFFF);
        put_pieces(&records, worker, 65535);
    }
    for (worker = 1; worker <= 500; worker++)
        expected[worker - 1] = 1000003 * (worker - 1) + 7 + worker + 65538;
    EXPECT_NUMBER(0, try_add_sheet(totals, TABLE, end_records(&records)));
    expect_totals("totals of all workers", expected, totals);
}

void test_totals(void)
{
    macros();
    sheets_of_few_bytes();
    wrong_in_one_way();
    kinds();
    every_cut();
    cut_records(1);
    cut_records(2);
    after_the_end();
    zeros_in_bodies();
    low_byte_first();
    workers();
    dates();
    tables();
    all_workers();
}
