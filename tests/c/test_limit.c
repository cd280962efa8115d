/* Totals at the limit of 1,000,000,000, and 12 before 13. */
#include <string.h>

#include "report.h"
#include "sheets.h"
#include "tests.h"

#define LIMIT 1000000000u

/* Workers whose totals stand first, next to it, in the middle and last. */
static const unsigned places[] = { 1, 2, 251, 500 };

#define PLACES (sizeof places / sizeof places[0])

static struct records records;

static struct text pieces_of(unsigned worker, unsigned pieces)
{
    begin_records(&records);
    put_pieces(&records, worker, pieces);
    return end_records(&records);
}

/* Expects 0 and this worker's total; the others are 0 before and after. */
static void expect_reached(unsigned worker, uint32_t lent, struct text sheet,
                           uint32_t reached)
{
    uint32_t totals[TABLE], expected[TABLE];

    make_totals(totals, worker, lent);
    make_totals(expected, worker, reached);
    EXPECT_NUMBER(0, try_add_sheet(totals, TABLE, sheet));
    expect_totals("totals below the limit", expected, totals);
}

static void expect_refused_13(unsigned worker, uint32_t lent,
                              struct text sheet)
{
    uint32_t totals[TABLE], expected[TABLE];

    make_totals(totals, worker, lent);
    make_totals(expected, worker, lent);
    EXPECT_NUMBER(13, try_add_sheet(totals, TABLE, sheet));
    expect_totals("totals after 13", expected, totals);
}

/* Exactly the limit, and one more, of each of the four. */
static void around_the_limit(unsigned worker)
{
    expect_reached(worker, LIMIT, SHEET(END), LIMIT);
    expect_reached(worker, LIMIT, pieces_of(worker, 0), LIMIT);
    expect_reached(worker, LIMIT - 1, pieces_of(worker, 1), LIMIT);
    expect_reached(worker, LIMIT - 2, pieces_of(worker, 1), LIMIT - 1);
    expect_reached(worker, 999934465, pieces_of(worker, 65535), LIMIT);
    expect_refused_13(worker, LIMIT, pieces_of(worker, 1));
    expect_refused_13(worker, LIMIT - 1, pieces_of(worker, 2));
    expect_refused_13(worker, 999934466, pieces_of(worker, 65535));
    expect_refused_13(worker, LIMIT, pieces_of(worker, 65535));
}

/* A total that is too high as it is lent: without a record of its worker, and
 * with one of no pieces, of one, and of so many that 32 bits wrap. */
static void lent_above(unsigned worker)
{
    static const uint32_t above[] = {
        LIMIT + 1, LIMIT + 65535, 0x7FFFFFFF, 0x80000000, 0xFFFF0001,
        0xFFFFFFFE, 0xFFFFFFFF
    };
    unsigned other = worker == 300 ? 301 : 300;
    size_t i;

    for (i = 0; i < sizeof above / sizeof above[0]; i++) {
        expect_refused_13(worker, above[i], SHEET(END));
        expect_refused_13(worker, above[i], SHEET(DATE END));
        expect_refused_13(worker, above[i], pieces_of(other, 1));
        expect_refused_13(worker, above[i], pieces_of(worker, 0));
        expect_refused_13(worker, above[i], pieces_of(worker, 1));
        expect_refused_13(worker, above[i], pieces_of(worker, 65535));
    }
}

/* Every place, in the sheet and not in it. */
static void every_place(void)
{
    unsigned worker;

    for (worker = 1; worker <= 500; worker++) {
        expect_refused_13(worker, LIMIT + 1, SHEET(END));
        expect_refused_13(worker, LIMIT, pieces_of(worker, 1));
        expect_reached(worker, LIMIT, pieces_of(worker, 0), LIMIT);
    }
}

/* All 500 at the limit: together far above 32 bits, and still accepted. */
static void all_at_the_limit(void)
{
    uint32_t totals[TABLE], expected[TABLE];
    unsigned worker;

    fill_totals(expected, TABLE, LIMIT);
    fill_totals(totals, TABLE, LIMIT);
    EXPECT_NUMBER(0, try_add_sheet(totals, TABLE, SHEET(END)));
    expect_totals("all at the limit", expected, totals);
    EXPECT_NUMBER(13, try_add_sheet(totals, TABLE, SHEET(ONE END)));
    fill_totals(totals, TABLE, LIMIT - 65535);
    begin_records(&records);
    for (worker = 1; worker <= 500; worker++)
        put_pieces(&records, worker, 65535);
    EXPECT_NUMBER(0, try_add_sheet(totals, TABLE, end_records(&records)));
    expect_totals("all reach the limit", expected, totals);
}

/* Workers 5 and 6 get pieces before and after the record with which worker 9
 * passes the limit, first, in the middle or last: all totals stay. */
static void midway(void)
{
    uint32_t totals[TABLE];
    unsigned at, i;

    for (at = 0; at < 5; at++) {
        make_totals(totals, 9, LIMIT);
        begin_records(&records);
        for (i = 0; i < 5; i++) {
            if (i == at)
                put_pieces(&records, 9, 1);
            put_pieces(&records, 5 + i % 2, 10);
            put_pieces(&records, 9, 0);
        }
        EXPECT_NUMBER(13, try_add_sheet(totals, TABLE, end_records(&records)));
        EXPECT_NUMBER(0, totals[4]);
        EXPECT_NUMBER(0, totals[5]);
        EXPECT_NUMBER(LIMIT, totals[8]);
    }
}

/* 15,259 records of 65,535 pieces are 999,998,565, and 1,435 more the limit. */
static void in_one_sheet(void)
{
    begin_records(&records);
    put_many(&records, 15259, 77, 65535);
    put_pieces(&records, 77, 1435);
    expect_reached(77, 0, end_records(&records), LIMIT);
    expect_refused_13(77, 1, bytes(records.bytes, records.length));
    begin_records(&records);
    put_many(&records, 15259, 77, 65535);
    put_pieces(&records, 77, 1436);
    expect_refused_13(77, 0, end_records(&records));
    begin_records(&records);
    put_many(&records, 15260, 77, 65535);
    expect_refused_13(77, 0, end_records(&records));
}

/* 65,537 times 65,535 is 2^32 - 1. Cut to 32 bits, the sums would be 0, then
 * 65,534, then 34,464 with a sheet that goes on. */
static void beyond_32_bits(unsigned worker)
{
    begin_records(&records);
    put_many(&records, 65537, worker, 65535);
    expect_refused_13(worker, 0, end_records(&records));
    expect_refused_13(worker, 1, bytes(records.bytes, records.length));
    begin_records(&records);
    put_many(&records, 65538, worker, 65535);
    expect_refused_13(worker, 0, end_records(&records));
    begin_records(&records);
    put_many(&records, 65537, worker, 65535);
    put_pieces(&records, worker, 34465);
    put_many(&records, 2000, worker == 1 ? 2 : 1, 3);
    expect_refused_13(worker, 0, end_records(&records));
    begin_records(&records);
    put_many(&records, 32769, worker, 65535);
    expect_refused_13(worker, 0, end_records(&records));
}

/* 65,536 bytes, as many as a file can have: 13,107 records. Then 65,541, and
 * 65,537 records, of which only the last is of worker 4. */
static void long_sheets(void)
{
    uint32_t totals[TABLE], expected[TABLE];
    struct text sheet;

    begin_records(&records);
    put_many(&records, 13107, 3, 2);
    sheet = end_records(&records);
    EXPECT_NUMBER(65536, sheet.length);
    expect_reached(3, 0, sheet, 26214);
    begin_records(&records);
    put_many(&records, 13108, 3, 2);
    sheet = end_records(&records);
    EXPECT_NUMBER(65541, sheet.length);
    expect_reached(3, 0, sheet, 26216);
    begin_records(&records);
    put_many(&records, 65536, 3, 1);
    put_pieces(&records, 4, 9);
    sheet = end_records(&records);
    fill_totals(totals, TABLE, 0);
    make_totals(expected, 3, 65536);
    expected[3] = 9;
    EXPECT_NUMBER(0, try_add_sheet(totals, TABLE, sheet));
    expect_totals("totals of a long sheet", expected, totals);
}

/* What is wrong stands behind 65,536 bytes: a kind, a worker, the end. */
static void wrong_at_the_end_of_long_sheets(void)
{
    uint32_t totals[TABLE];

    fill_totals(totals, TABLE, 0);
    begin_records(&records);
    put_many(&records, 13200, 3, 2);
    put_record(&records, 3, 1, 1);
    EXPECT_NUMBER(12, try_add_sheet(totals, TABLE, end_records(&records)));
    begin_records(&records);
    put_many(&records, 13200, 3, 2);
    put_pieces(&records, 501, 1);
    EXPECT_NUMBER(12, try_add_sheet(totals, TABLE, end_records(&records)));
    EXPECT_NUMBER(12, try_add_sheet(totals, TABLE,
                                    bytes(records.bytes, 5 * 13200)));
    begin_records(&records);
    put_many(&records, 13107, 3, 2);
    end_records(&records);
    put_many(&records, 100, 3, 2);
    EXPECT_NUMBER(12, try_add_sheet(totals, TABLE, end_records(&records)));
}

/* Each reason for 12 that lies in the sheet, while a total is too high, or
 * would be by the sheet's record of worker 1. */
static void wrong_sheets_first(void)
{
    uint32_t totals[TABLE];
    size_t i, j;

    for (i = 0; i < wrong_sheet_count; i++) {
        const char *why = wrong_sheets[i].why;
        struct text sheet = wrong_sheets[i].sheet;

        for (j = 0; j < PLACES; j++) {
            make_totals(totals, places[j], LIMIT + 1);
            expect_number(__FILE__, __LINE__, why, 12,
                          try_add_sheet(totals, TABLE, sheet));
            make_totals(totals, places[j], 0xFFFFFFFF);
            expect_number(__FILE__, __LINE__, why, 12,
                          try_add_sheet(totals, TABLE, sheet));
        }
        make_totals(totals, 1, LIMIT);
        expect_number(__FILE__, __LINE__, why, 12,
                      try_add_sheet(totals, TABLE, sheet));
    }
}

/* Records that pass the limit, and 32 bits, before or after what is wrong. */
static void wrong_behind_the_limit(void)
{
    static const unsigned counts[] = { 15260, 65538 };
    uint32_t totals[TABLE];
    size_t i;

    for (i = 0; i < 2; i++) {
        fill_totals(totals, TABLE, 0);
        begin_records(&records);
        put_many(&records, counts[i], 1, 65535);
        EXPECT_NUMBER(12, try_add_sheet(totals, TABLE,
                                        bytes(records.bytes, records.length)));
        put_pieces(&records, 0, 1);
        EXPECT_NUMBER(12, try_add_sheet(totals, TABLE, end_records(&records)));
        begin_records(&records);
        put_pieces(&records, 501, 1);
        put_many(&records, counts[i], 1, 65535);
        EXPECT_NUMBER(12, try_add_sheet(totals, TABLE, end_records(&records)));
        begin_records(&records);
        put_many(&records, counts[i], 1, 65535);
        put_record(&records, 3, 1, 1);
        EXPECT_NUMBER(12, try_add_sheet(totals, TABLE, end_records(&records)));
    }
}

/* A table of another length, with totals that are too high or would be. */
static void wrong_tables_first(void)
{
    static const size_t counts[] = { 1, 499, 501, 1000 };
    uint32_t totals[1000];
    size_t i;

    for (i = 0; i < sizeof counts / sizeof counts[0]; i++) {
        fill_totals(totals, 1000, LIMIT + 1);
        EXPECT_NUMBER(12, try_add_sheet(totals, counts[i], SHEET(END)));
        EXPECT_NUMBER(12, try_add_sheet(totals, counts[i], SHEET(ONE END)));
        EXPECT_NUMBER(12, try_add_sheet(totals, counts[i], SHEET(ONE)));
        fill_totals(totals, 1000, LIMIT);
        EXPECT_NUMBER(12, try_add_sheet(totals, counts[i], SHEET(ONE END)));
        fill_totals(totals, 1000, 0);
        totals[counts[i] - 1] = 0xFFFFFFFF;
        EXPECT_NUMBER(12, try_add_sheet(totals, counts[i], SHEET(END)));
    }
}

void test_limit(void)
{
    size_t i;

    for (i = 0; i < PLACES; i++) {
        around_the_limit(places[i]);
        lent_above(places[i]);
    }
    every_place();
    all_at_the_limit();
    midway();
    in_one_sheet();
    beyond_32_bits(1);
    beyond_32_bits(500);
    long_sheets();
    wrong_at_the_end_of_long_sheets();
    wrong_sheets_first();
    wrong_behind_the_limit();
    wrong_tables_first();
}
