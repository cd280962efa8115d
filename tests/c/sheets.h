/*
 * Sheets of records and tables of totals, worked out by hand. Nothing here
 * calls the library.
 */
#ifndef SHEETS_H
#define SHEETS_H

#include "calls.h"

/* Bytes of a sheet as a literal, to be joined with others. */
#define ONE "\x01\x01\0\x01\0" /* worker 1, one piece */
#define DATE "\x02\x11\x0C\xC1\x07"
#define END "\0"

/* A sheet of such bytes, zeros among them. */
#define SHEET(literal) bytes((const uint8_t *)(literal), sizeof(literal) - 1)

/* The totals of workers 1 to 500. */
#define TABLE 500

void fill_totals(uint32_t *totals, size_t count, uint32_t total);

/* A table of zeros, but for one worker's total. */
void make_totals(uint32_t *totals, unsigned worker, uint32_t total);

void expect_totals(const char *what, const uint32_t *expected,
                   const uint32_t *found);

/* A sheet in the making, too large for the stack: so many records of 65,535
 * pieces that 32 bits can't hold their sum, and more. */
#define RECORDS_MOST 70000

struct records {
    size_t length;
    uint8_t bytes[5 * RECORDS_MOST + 1];
};

void begin_records(struct records *records);
void put_record(struct records *records, unsigned kind, unsigned first_word,
                unsigned second_word);
void put_pieces(struct records *records, unsigned worker, unsigned pieces);

/* `count` times the same. */
void put_many(struct records *records, size_t count, unsigned worker,
              unsigned pieces);

/* The sheet of the records and an end. */
struct text end_records(struct records *records);

/* Sheets that are refused with 12, for one reason each. All in which a record
 * stands before what is wrong begin with ONE. */
struct wrong_sheet {
    const char *why;
    struct text sheet;
};

extern const struct wrong_sheet wrong_sheets[];
extern const size_t wrong_sheet_count;

#endif
