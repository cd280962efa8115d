#include "seeds_sheets.h"

#include <stdio.h>

#include "seed.h"

/* Bytes of a sheet: worker 1 gets one piece; a date; the end. */
#define ONE "\x01\x01\0\x01\0"
#define DATE "\x02\x11\x0C\xC1\x07"
#define END "\0"

struct raw {
    const char *bytes;
    size_t length;
};

#define RAW(literal) { literal, sizeof(literal) - 1 }

/* Sheets that are accepted, with nothing, little and much in them. */
static const struct raw right_sheets[] = {
    RAW(END), RAW(ONE END), RAW(DATE END), RAW(DATE ONE DATE ONE END),
    RAW("\x01\x01\0\0\0" END), RAW("\x02\0\0\0\0" END),
    RAW("\x02\x01\0\x05\0" END), RAW("\x02\x05\x01\x01\0" END),
    RAW("\x01\0\x01\0\0" END), RAW("\x01\x01\x01\x02\x01" END),
    RAW("\x01\xFF\0\xFF\0" END), RAW("\x01\xF4\x01\0\x01" END),
    RAW("\x01\xF3\x01\xFF\x7F" END), RAW("\x01\x02\0\0\x80" END),
    RAW("\x01\x02\0\xFF\xFF" END), RAW("\x02\xFF\xFF\xFF\xFF" ONE END),
    RAW(ONE ONE "\x01\x01\0\xFF\xFF" "\x01\x02\0\x07\0" END)
};

/* Sheets that are refused with 12, each for one reason. */
static const struct raw wrong_sheets[] = {
    RAW(""), RAW(ONE), RAW(ONE DATE), RAW(ONE END END), RAW(ONE END "\x01"),
    RAW(ONE END ONE), RAW(ONE END ONE END), RAW(END ONE END), RAW(END END),
    RAW(ONE "\x01\x02\0\x01"), RAW(ONE "\x01\x02\0"), RAW(ONE "\x01\x02"),
    RAW(ONE "\x01"), RAW(ONE "\x02\x11\x0C\xC1"), RAW(ONE "\x02\x11\x0C"),
    RAW(ONE "\x02\x11"), RAW(ONE "\x02"), RAW("\x01"), RAW("\x02"),
    RAW("\x02\x11\x0C\xC1" END), RAW("\x01\x01\0\x01" END),
    RAW("\x01\x01\0" END), RAW("\x01\x01\0\x01" ONE END),
    RAW("\x02\x11\x0C\xC1" ONE END), RAW("\x01\0\0\x01\0" END),
    RAW("\x01\0\0\0\0" END), RAW(ONE "\x01\0\0\x01\0" END),
    RAW("\x01\xF5\x01\x01\0" END), RAW("\x01\xF5\x01\0\0" END),
    RAW(ONE "\x01\xF5\x01\x01\0" END), RAW("\x01\0\x02\x01\0" END),
    RAW("\x01\x01\x02\x01\0" END), RAW("\x01\x01\xF4\x01\0" END),
    RAW("\x01\x01\x80\x01\0" END), RAW("\x01\xFF\xFF\x01\0" END)
};

#define COUNT(array) (sizeof(array) / sizeof(array)[0])

static void put_raw(struct raw sheet)
{
    size_t i;

    put(RECORDS_BYTES, (int)sheet.length, -1);
    for (i = 0; i < sheet.length; i++)
        put(sheet.bytes[i] & 0xFF, -1);
}

static void put_word(int word)
{
    put(word & 0xFF, word >> 8, -1);
}

/* Changes one total, 0 to 499, to the limit and so many more. */
static void put_limit(int place, int more)
{
    put(COMMAND_ADD, TOTALS_LIMIT, -1);
    put_word(place);
    put(LIMIT_ITSELF + more, -1);
}

/* All totals are zeros from here on. */
static void put_zeros(void)
{
    put(COMMAND_ADD, TOTALS_ZERO, -1);
}

static void put_kept(void)
{
    put(COMMAND_ADD, TOTALS_KEPT, -1);
}

/* A sheet of one record. Workers count from 0 here. */
static void put_one(int worker, int pieces)
{
    put(RECORDS_BUILT, 1, RECORD_PIECES, -1);
    put_word(worker);
    put_word(pieces);
    put(DAMAGE_NONE, -1);
}

/* Each of the 500 workers once, 50 in a sheet and two sheets in a seed, with
 * the totals handed on. */
static void seed_workers(void)
{
    char name[32];
    int worker;

    for (worker = 0; worker < 500; worker++) {
        if (worker % 100 == 0)
            begin(0);
        if (worker % 50 == 0) {
            put_kept();
            put(RECORDS_BUILT, 50, -1);
        }
        put(RECORD_PIECES, -1);
        put_word(worker);
        put_word(worker + 7);
        if (worker % 50 == 49)
            put(DAMAGE_NONE, -1);
        snprintf(name, sizeof name, "sheet-workers-%d", worker / 100);
        if (worker % 100 == 99)
            end(name);
    }
}

/* The same record many times: RECORD_MANY is a record of pieces. */
static void put_group(int count, int worker, int pieces)
{
    put(RECORD_MANY, count & 0xFF, count >> 8 & 0xFF, count >> 16, -1);
    put_word(worker);
    put_word(pieces);
}

static void put_many(int count, int worker, int pieces)
{
    put(RECORDS_BUILT, 1, -1);
    put_group(count, worker, pieces);
    put(DAMAGE_NONE, -1);
}

/* Each once from zeros, then all once more with the totals handed on. */
static void seed_right(void)
{
    size_t i;

    begin(0);
    for (i = 0; i < COUNT(right_sheets); i++) {
        put_zeros();
        put_raw(right_sheets[i]);
    }
    for (i = 0; i < COUNT(right_sheets); i++) {
        put_kept();
        put_raw(right_sheets[i]);
    }
    end("sheets-right");
}

/* Each on zeros, then where worker 1's total is at the limit, then where the
 * last one is above it. */
static void seed_wrong(void)
{
    size_t i;

    begin(0);
    for (i = 0; i < COUNT(wrong_sheets); i++) {
        put_kept();
        put_raw(wrong_sheets[i]);
    }
    put_kept();
    put(RECORDS_BYTES, RECORDS_NULL, -1);
    end("sheets-wrong");
    begin(0);
    for (i = 0; i < COUNT(wrong_sheets); i++) {
        put_limit(0, 0);
        put_raw(wrong_sheets[i]);
    }
    end("sheets-wrong-at-limit");
    begin(0);
    for (i = 0; i < COUNT(wrong_sheets); i++) {
        put_limit(499, 1);
        put_raw(wrong_sheets[i]);
    }
    end("sheets-wrong-above");
}

/* Every other kind, first, later and in the place of the end. */
static void seed_kinds(void)
{
    int kind;
    char name[32];

    for (kind = 3; kind <= 255; kind++) {
        if (kind % 24 == 0 || kind == 3)
            begin(0);
        put_kept();
        put(RECORDS_BYTES, 6, kind, 1, 0, 1, 0, 0, -1);
        put_kept();
        put(RECORDS_BYTES, 11, 1, 1, 0, 1, 0, kind, 1, 0, 1, 0, 0, -1);
        put_kept();
        put(RECORDS_BYTES, 6, 1, 1, 0, 1, 0, kind, -1);
        snprintf(name, sizeof name, "sheet-kinds-%d", kind / 24);
        if (kind % 24 == 23 || kind == 255)
            end(name);
    }
}

/* Tables of another length, with a good sheet and with one that is none, on
 * zeros and at the limit. */
static void seed_tables(void)
{
    static const int counts[] = { 0, 1, 2, 256, 499, 501, 502, 756, 1000 };
    size_t i;

    begin(0);
    for (i = 0; i < COUNT(counts); i++) {
        int low = counts[i] & 0xFF, high = counts[i] >> 8;

        put(COMMAND_ADD, TOTALS_LENGTH, low, high, TOTALS_ZERO, -1);
        put_raw(right_sheets[0]);
        put(COMMAND_ADD, TOTALS_LENGTH, low, high, TOTALS_KEPT, -1);
        put_one(0, 1);
        put(COMMAND_ADD, TOTALS_LENGTH, low, high, TOTALS_KEPT, -1);
        put_raw(wrong_sheets[1]);
        put(COMMAND_ADD, TOTALS_LENGTH, low, high, TOTALS_NEAR, 0, -1);
        put_one(0, 1);
        put(COMMAND_ADD, TOTALS_LENGTH, low, high, TOTALS_LIMIT, 0, 0, -1);
        put(LIMIT_ITSELF + 1, -1);
        put_raw(right_sheets[0]);
    }
    end("sheet-tables");
}

/* Around the limit of one total: lent and reached, exactly and by one more. */
static void seed_limit(int place)
{
    char name[32];
    int other = (place + 300) % 500;

    begin(0);
    put_limit(place, 0);
    put_raw(right_sheets[0]);
    put_kept();
    put_one(place, 0);
    put_kept();
    put_one(place, 1);
    put_limit(place, -1);
    put_one(place, 1);
    put_limit(place, -1);
    put_one(place, 2);
    put_limit(place, 1);
    put_raw(right_sheets[0]);
    put_kept();
    put_one(other, 1);
    put_kept();
    put_one(place, 0);
    put_kept();
    put_one(place, 65535);
    put(COMMAND_ADD, TOTALS_PLACE, -1);
    put_word(place);
    put(0xFF, 0xFF, 0xFF, 0xFF, -1);
    put_one(place, 1);
    put_kept();
    put_one(other, 1);
    snprintf(name, sizeof name, "sheet-limit-%d", place);
    end(name);
}

/* All totals at the limit, just below it, and in steps from it. */
static void seed_all_totals(void)
{
    begin(0);
    put(COMMAND_ADD, TOTALS_NEAR, 0, -1);
    put_raw(right_sheets[0]);
    put_kept();
    put_one(499, 1);
    put(COMMAND_ADD, TOTALS_NEAR, 1, -1);
    put_one(250, 1);
    put(COMMAND_ADD, TOTALS_STEPS, 1, 0, 0, 0, -1);
    put_raw(right_sheets[3]);
    put(COMMAND_ADD, TOTALS_STEPS, 0x40, 0x42, 0x0F, 0, -1);
    put_many(3, 7, 65535);
    put(COMMAND_ADD, TOTALS_STEPS, 0, 0, 0, 0x10, -1);
    put_one(1, 1);
    end("sheet-totals");
}

/* Two workers, of whom the first or the last passes the limit: both totals
 * have to stay. */
static void seed_midway(void)
{
    int first;

    begin(0);
    put_limit(8, 0);
    put_raw(right_sheets[0]);
    for (first = 0; first < 2; first++) {
        put_kept();
        put(RECORDS_BUILT, 2, -1);
        put_group(1, first ? 8 : 4, 1);
        put_group(1, first ? 4 : 8, 1);
        put(DAMAGE_NONE, -1);
    }
    end("sheet-midway");
}

/* 15,259 records of 65,535 pieces and one of 1,435 reach the limit; 65,537 of
 * 65,535 are 2^32 - 1. */
static void seed_many(void)
{
    begin(0);
    put_zeros();
    put(RECORDS_BUILT, 2, -1);
    put_group(15259, 76, 65535);
    put_group(1, 76, 1435);
    put(DAMAGE_NONE, -1);
    put_kept();
    put_one(76, 1);
    put_zeros();
    put_many(15260, 76, 65535);
    end("sheet-one-limit");
    begin(0);
    put_zeros();
    put_many(65537, 499, 65535);
    put_kept();
    put_many(65538, 499, 65535);
    put_kept();
    put(RECORDS_BUILT, 2, -1);
    put_group(65538, 0, 65535);
    put_group(9, 1, 7);
    put(DAMAGE_NONE, -1);
    end("sheet-33-bits");
}

/* 13,107 records are as long as a file can be, 65,536 more than 16 bits
 * count. */
static void seed_long(void)
{
    begin(0);
    put_zeros();
    put_many(13107, 2, 2);
    put_kept();
    put_many(13108, 2, 2);
    put_kept();
    put(RECORDS_BUILT, 2, -1);
    put_group(65536, 2, 1);
    put_group(1, 3, 9);
    put(DAMAGE_NONE, -1);
    end("sheet-long");
}

/* Of a long sheet one byte less, one more, and another kind or worker in its
 * last record. */
static void seed_long_wrong(void)
{
    static const int damages[][5] = {
        { DAMAGE_CUT, 0, -1 }, { DAMAGE_CUT, 1, -1 }, { DAMAGE_MORE, 0, 0, -1 },
        { DAMAGE_BYTE, 5, 0, 0, 3 }, { DAMAGE_BYTE, 3, 0, 0, 2 },
        { DAMAGE_BYTE, 0, 0, 0, 1 }
    };
    size_t i;

    begin(0);
    for (i = 0; i < COUNT(damages); i++) {
        const int *damage = damages[i];

        put_kept();
        put(RECORDS_BUILT, 1, -1);
        put_group(13200, 2, 2);
        put(damage[0], damage[1], damage[2], damage[3], damage[4], -1);
    }
    end("sheet-long-wrong");
}

void write_sheet_seeds(void)
{
    seed_right();
    seed_wrong();
    seed_workers();
    seed_kinds();
    seed_tables();
    seed_limit(0);
    seed_limit(1);
    seed_limit(250);
    seed_limit(499);
    seed_all_totals();
    seed_midway();
    seed_many();
    seed_long();
    seed_long_wrong();
}
