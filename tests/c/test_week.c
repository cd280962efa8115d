/* A week of sheets: one after the other on the same totals, in any order, with
 * refused ones among them, and from a disc. */
#include <string.h>

#include "report.h"
#include "sheets.h"
#include "tests.h"

/* Monday: 1 gets 10 + 5, 2 gets 300. Tuesday: 500 gets 65,535. Wednesday: 2
 * gets 1, 500 gets 256. Thursday: nobody. */
static const char monday[] = DATE "\x01\x01\0\x0A\0" "\x01\x02\0\x2C\x01"
                             "\x01\x01\0\x05\0";
static const char tuesday[] = DATE "\x01\xF4\x01\xFF\xFF";
static const char wednesday[] = "\x01\x02\0\x01\0" DATE "\x01\xF4\x01\0\x01";
static const char thursday[] = DATE;

/* The literals' own zeros are the ends. */
#define WHOLE(day) bytes((const uint8_t *)(day), sizeof(day))

static void make_week(struct text *week)
{
    week[0] = WHOLE(monday);
    week[1] = WHOLE(tuesday);
    week[2] = WHOLE(wednesday);
    week[3] = WHOLE(thursday);
}

/* What the week adds to totals of so many pieces each. */
static void make_week_totals(uint32_t *totals, uint32_t lent)
{
    fill_totals(totals, TABLE, lent);
    totals[0] += 15;
    totals[1] += 301;
    totals[499] += 65791;
}

/* The i-th of a list of four days, 0 to 3 each; there are 256 such lists. */
static unsigned day_of(unsigned list, unsigned i)
{
    return list >> 2 * i & 3;
}

static int has_each_day(unsigned list)
{
    unsigned days = 0;
    unsigned i;

    for (i = 0; i < 4; i++)
        days |= 1u << day_of(list, i);
    return days == 15;
}

/* All 24 orders. From 999,934,209 on the last total becomes exactly the
 * limit. */
static void any_order(uint32_t lent)
{
    struct text week[4];
    uint32_t totals[TABLE], expected[TABLE];
    unsigned list, i;

    make_week(week);
    make_week_totals(expected, lent);
    for (list = 0; list < 256; list++) {
        if (!has_each_day(list))
            continue;
        fill_totals(totals, TABLE, lent);
        for (i = 0; i < 4; i++)
            EXPECT_NUMBER(0, try_add_sheet(totals, TABLE,
                                           week[day_of(list, i)]));
        expect_totals("totals in any order", expected, totals);
    }
}

static uint64_t sum_of(const uint32_t *totals)
{
    uint64_t sum = 0;
    size_t i;

    for (i = 0; i < TABLE; i++)
        sum += totals[i];
    return sum;
}

/* After each accepted sheet all totals together have grown by its pieces (315,
 * 65,535, 257 and 0), and after each refused one by none. */
static void growth(uint32_t lent)
{
    static const uint64_t pieces[] = { 315, 65535, 257, 0 };
    struct text week[4];
    uint32_t totals[TABLE], expected[TABLE];
    uint64_t sum = 500 * (uint64_t)lent;
    size_t i;

    make_week(week);
    make_week_totals(expected, lent);
    fill_totals(totals, TABLE, lent);
    for (i = 0; i < wrong_sheet_count; i++) {
        struct text wrong = wrong_sheets[i].sheet;

        EXPECT_NUMBER(12, try_add_sheet(totals, TABLE, wrong));
        EXPECT_NUMBER(1, sum_of(totals) == sum);
        if (i < 4) {
            EXPECT_NUMBER(0, try_add_sheet(totals, TABLE, week[i]));
            sum += pieces[i];
            EXPECT_NUMBER(1, sum_of(totals) == sum);
        }
        EXPECT_NUMBER(12, try_add_sheet(totals, 499, week[i % 4]));
    }
    expect_totals("totals of a week with refusals", expected, totals);
}

/* With 13 among them: Tuesday fits once, and no second time. */
static void refused_by_the_limit(void)
{
    uint32_t totals[TABLE], expected[TABLE];

    make_totals(totals, 500, 999934208);
    EXPECT_NUMBER(0, try_add_sheet(totals, TABLE, WHOLE(monday)));
    EXPECT_NUMBER(0, try_add_sheet(totals, TABLE, WHOLE(tuesday)));
    EXPECT_NUMBER(13, try_add_sheet(totals, TABLE, WHOLE(tuesday)));
    EXPECT_NUMBER(0, try_add_sheet(totals, TABLE, WHOLE(wednesday)));
    EXPECT_NUMBER(13, try_add_sheet(totals, TABLE, WHOLE(wednesday)));
    EXPECT_NUMBER(0, try_add_sheet(totals, TABLE, WHOLE(thursday)));
    make_totals(expected, 500, 999999999);
    expected[0] = 15;
    expected[1] = 301;
    expect_totals("totals of a week at the limit", expected, totals);
}

/* The same sheet a thousand times: nothing is kept between calls. */
static void again_and_again(void)
{
    uint32_t totals[TABLE], expected[TABLE];
    unsigned i;

    fill_totals(totals, TABLE, 0);
    for (i = 0; i < 1000; i++)
        EXPECT_NUMBER(0, try_add_sheet(totals, TABLE, WHOLE(monday)));
    make_totals(expected, 1, 15000);
    expected[1] = 300000;
    expect_totals("totals of a thousand sheets", expected, totals);
}

/* Saved, read back and added up; what is read of another file is no sheet, nor
 * is a sheet with a byte more or less of the buffer. */
static void from_a_disc(uint32_t sectors, uint32_t arrangement)
{
    uint32_t totals[TABLE], expected[TABLE];
    struct disc disc;
    tandos_reading reading;

    use_kind(sectors, arrangement);
    make_blank(&disc, 2, "WEEK     ");
    fill_totals(totals, TABLE, 0);
    make_totals(expected, 1, 15);
    expected[1] = 300;
    EXPECT_NUMBER(0, save_at_2000(&disc, "MON.PCS", WHOLE(monday)));
    EXPECT_NUMBER(0, save_at_2000(&disc, "RAW", bytes(sheet, 300)));
    reading = try_read(&disc, text("MON.PCS"), 65536);
    EXPECT_NUMBER(0, reading.number);
    EXPECT_NUMBER(12, try_add_sheet(totals, TABLE,
                                    bytes(answer, reading.length + 1)));
    EXPECT_NUMBER(12, try_add_sheet(totals, TABLE,
                                    bytes(answer, reading.length - 1)));
    EXPECT_NUMBER(0, try_add_sheet(totals, TABLE,
                                   bytes(answer, reading.length)));
    reading = try_read(&disc, text("RAW"), 65536);
    EXPECT_NUMBER(12, try_add_sheet(totals, TABLE,
                                    bytes(answer, reading.length)));
    expect_totals("totals of a sheet from a disc", expected, totals);
}

/* A sheet over many sectors: 1,001 bytes in four, whose records go over their
 * edges. Workers 1 to 200 get their number and 1,000. */
static void from_many_sectors(uint32_t sectors, uint32_t arrangement)
{
    static struct records records;
    uint32_t totals[TABLE], expected[TABLE];
    struct disc disc;
    unsigned worker;

    use_kind(sectors, arrangement);
    make_blank(&disc, 2, "WEEK     ");
    fill_totals(totals, TABLE, 0);
    fill_totals(expected, TABLE, 0);
    begin_records(&records);
    for (worker = 1; worker <= 200; worker++) {
        put_pieces(&records, worker, worker + 1000);
        expected[worker - 1] = worker + 1000;
    }
    EXPECT_NUMBER(0, save_at_2000(&disc, "TUE.PCS", end_records(&records)));
    EXPECT_NUMBER(1001, try_read(&disc, text("TUE.PCS"), 1001).length);
    EXPECT_NUMBER(0, try_add_sheet(totals, TABLE, bytes(answer, 1001)));
    expect_totals("totals of four sectors", expected, totals);
}

static void by_kind(uint32_t sectors, uint32_t arrangement)
{
    from_a_disc(sectors, arrangement);
    from_many_sectors(sectors, arrangement);
}

void test_week(void)
{
    any_order(0);
    any_order(999934209);
    growth(0);
    growth(999934209);
    refused_by_the_limit();
    again_and_again();
    by_kind(TANDOS_TEN, TANDOS_PLAIN);
    by_kind(TANDOS_TEN, TANDOS_MOVED);
    by_kind(TANDOS_NINE, TANDOS_PLAIN);
}
