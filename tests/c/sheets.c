#include "sheets.h"

#include "report.h"

void fill_totals(uint32_t *totals, size_t count, uint32_t total)
{
    size_t i;

    for (i = 0; i < count; i++)
        totals[i] = total;
}

void make_totals(uint32_t *totals, unsigned worker, uint32_t total)
{
    fill_totals(totals, TABLE, 0);
    totals[worker - 1] = total;
}

void expect_totals(const char *what, const uint32_t *expected,
                   const uint32_t *found)
{
    expect_bytes(what, (const uint8_t *)expected, (const uint8_t *)found,
                 TABLE * sizeof expected[0]);
}

void begin_records(struct records *records)
{
    records->length = 0;
}

static void put_byte(struct records *records, unsigned byte)
{
    records->bytes[records->length++] = (uint8_t)byte;
}

void put_record(struct records *records, unsigned kind, unsigned first_word,
                unsigned second_word)
{
    put_byte(records, kind);
    put_byte(records, first_word % 256);
    put_byte(records, first_word / 256);
    put_byte(records, second_word % 256);
    put_byte(records, second_word / 256);
}

void put_pieces(struct records *records, unsigned worker, unsigned pieces)
{
    put_record(records, 1, worker, pieces);
}

void put_many(struct records *records, size_t count, unsigned worker,
              unsigned pieces)
{
    for (; count > 0; count--)
        put_pieces(records, worker, pieces);
}

struct text end_records(struct records *records)
{
    put_byte(records, 0);
    return bytes(records->bytes, records->length);
}

#define WRONG(why, literal) \
    { why, { (const uint8_t *)(literal), sizeof(literal) - 1 } }

const struct wrong_sheet wrong_sheets[] = {
    WRONG("no bytes", ""),
    WRONG("no end", ONE),
    WRONG("no end after two records", ONE ONE),
    WRONG("no end after a date", ONE DATE),
    WRONG("two ends", ONE END END),
    WRONG("a byte after the end", ONE END "\x01"),
    WRONG("a record after the end", ONE END ONE),
    WRONG("a sheet after the end", ONE END ONE END),
    WRONG("a sheet after an end alone", END ONE END),
    WRONG("four bytes after the end", ONE END "\x01\x01\0\x01"),
    WRONG("kind 3", ONE "\x03\x01\0\x01\0" END),
    WRONG("kind 3 first", "\x03\x01\0\x01\0" ONE END),
    WRONG("kind 3 instead of an end", ONE "\x03"),
    WRONG("kind 255", ONE "\xFF\x01\0\x01\0" END),
    WRONG("pieces cut by 1", ONE "\x01\x02\0\x01"),
    WRONG("pieces cut by 2", ONE "\x01\x02\0"),
    WRONG("pieces cut by 3", ONE "\x01\x02"),
    WRONG("pieces cut by 4", ONE "\x01"),
    WRONG("a date cut by 1", ONE "\x02\x11\x0C\xC1"),
    WRONG("a date cut by 2", ONE "\x02\x11\x0C"),
    WRONG("a date cut by 3", ONE "\x02\x11"),
    WRONG("a date cut by 4", ONE "\x02"),
    /* With what looks like an end. Of the first it is the fifth byte. */
    WRONG("pieces cut by 1, end", ONE "\x01\x02\0\x01" END),
    WRONG("pieces cut by 2, end", ONE "\x01\x02\0" END),
    WRONG("a date cut by 1, end", ONE "\x02\x11\x0C\xC1" END),
    WRONG("a date cut by 2, end", ONE "\x02\x11\x0C" END),
    WRONG("worker 0", ONE "\x01\0\0\x01\0" END),
    WRONG("worker 0 first", "\x01\0\0\x01\0" ONE END),
    WRONG("worker 0 without pieces", ONE "\x01\0\0\0\0" END),
    WRONG("worker 501", ONE "\x01\xF5\x01\x01\0" END),
    WRONG("worker 501 first", "\x01\xF5\x01\x01\0" ONE END),
    WRONG("worker 501 without pieces", ONE "\x01\xF5\x01\0\0" END),
    WRONG("worker 512", ONE "\x01\0\x02\x01\0" END),
    WRONG("worker 65,535", ONE "\x01\xFF\xFF\x01\0" END)
};

const size_t wrong_sheet_count = sizeof wrong_sheets / sizeof wrong_sheets[0];
