#include "totals.h"

#include <string.h>

#include "counters.h"
#include "tandos.h"

#define WORKERS 500
#define LIMIT 1000000000u
#define RECORD_LENGTH 5

/* What the sheet adds to each worker's total. */
static uint64_t added[WORKERS];
static int is_in_sheet[WORKERS];

/* Bit n: the occasion n was met in this call. */
static unsigned met;

static void meet(enum sheet_occasion occasion)
{
    met |= 1u << occasion;
}

static void count_met(void)
{
    unsigned i;

    for (i = 0; i < SHEET_OCCASIONS; i++)
        if (met >> i & 1)
            count_sheet_occasion((enum sheet_occasion)i);
}

static size_t word(const uint8_t *bytes)
{
    return bytes[0] + 256u * bytes[1];
}

/* Adds a record of pieces; 0 if there is no such worker. */
static int add_record(const uint8_t *record)
{
    size_t worker = word(record + 1);

    if (worker < 1 || worker > WORKERS)
        return 0;
    added[worker - 1] += word(record + 3);
    is_in_sheet[worker - 1] = 1;
    return 1;
}

/* The first reason for 12 in the sheet, or SHEET_OCCASIONS if there is none. */
static enum sheet_occasion add_records(struct text sheet)
{
    size_t at;

    memset(added, 0, sizeof added);
    memset(is_in_sheet, 0, sizeof is_in_sheet);
    for (at = 0; at < sheet.length; at += RECORD_LENGTH) {
        const uint8_t *record = sheet.bytes + at;
        size_t left = sheet.length - at;

        if (record[0] == 0)
            return left == 1 ? SHEET_OCCASIONS : SHEET_AFTER_END;
        if (record[0] > 2)
            return SHEET_KIND;
        if (left < RECORD_LENGTH)
            return SHEET_CUT;
        if (record[0] == 1 && !add_record(record))
            return SHEET_WORKER;
    }
    return SHEET_NO_END;
}

/* 0 if one of the totals is too high, or becomes it. */
static int is_within(const struct totals *totals)
{
    int is_within = 1;
    size_t i;

    for (i = 0; i < WORKERS; i++) {
        uint32_t lent = totals->each[i];
        uint64_t sum = lent + added[i];

        if (sum <= LIMIT)
            continue;
        is_within = 0;
        if (sum > UINT32_MAX)
            meet(TOTAL_WIDE);
        if (lent <= LIMIT)
            meet(TOTAL_REACHED);
        else
            meet(is_in_sheet[i] ? TOTAL_LENT : TOTAL_OTHER);
    }
    return is_within;
}

static void meet_refused(enum sheet_occasion reason,
                         const struct totals *totals)
{
    size_t i;

    meet(reason);
    for (i = 0; i < totals->count; i++)
        if (totals->each[i] > LIMIT)
            meet(SHEET_BOTH);
}

static void add_all(struct totals *totals, size_t sheet_length)
{
    size_t i;

    for (i = 0; i < WORKERS; i++) {
        totals->each[i] += (uint32_t)added[i];
        if (totals->each[i] == LIMIT)
            meet(TOTAL_EXACT);
    }
    if (sheet_length > TANDOS_SHEET_MAX)
        meet(SHEET_LONG);
}

static uint32_t answer_to(struct totals *totals, struct text sheet)
{
    enum sheet_occasion reason = add_records(sheet);

    if (totals->count != WORKERS)
        reason = SHEET_TABLE;
    if (reason != SHEET_OCCASIONS) {
        meet_refused(reason, totals);
        return TANDOS_BAD_SHEET;
    }
    if (!is_within(totals))
        return TANDOS_TOTAL;
    add_all(totals, sheet.length);
    return TANDOS_DONE;
}

uint32_t expected_add_sheet(struct totals *totals, struct text sheet)
{
    uint32_t number;

    met = 0;
    number = answer_to(totals, sheet);
    count_met();
    return number;
}
