#include "sheet_fault.h"

#include <stdbool.h>
#include <stdio.h>

#include "tandos.h"
#include "text.h"

static unsigned worker_of(const uint8_t *record)
{
    return word_at(record + 1);
}

static bool is_worker(unsigned number)
{
    return number >= 1 && number <= TANDOS_WORKERS;
}

/* A whole record that another one may follow. */
static bool is_good(const uint8_t *record)
{
    return record[0] == TANDOS_SHEET_DATE ||
           (record[0] == TANDOS_SHEET_PIECES && is_worker(worker_of(record)));
}

/* The first record that is not good, or that is not whole. */
static size_t first_fault(const uint8_t *sheet, size_t length)
{
    size_t at = 0;

    while (length - at >= TANDOS_SHEET_RECORD_SIZE && is_good(sheet + at))
        at += TANDOS_SHEET_RECORD_SIZE;
    return at;
}

const char *sheet_fault(const uint8_t *sheet, size_t length,
                        char text[FAULT_TEXT_SIZE])
{
    size_t at = first_fault(sheet, length);
    unsigned after = (unsigned)(length - at) - 1;

    if (at == length)
        return "no end";
    if (sheet[at] == TANDOS_SHEET_END)
        snprintf(text, FAULT_TEXT_SIZE, "%u byte%s after the end", after,
                 plural(after));
    else if (sheet[at] > TANDOS_SHEET_DATE)
        snprintf(text, FAULT_TEXT_SIZE, "byte %lu: a record of kind %u",
                 (unsigned long)at, (unsigned)sheet[at]);
    else if (length - at < TANDOS_SHEET_RECORD_SIZE)
        return "the last record is cut short";
    else
        snprintf(text, FAULT_TEXT_SIZE, "byte %lu: worker %u",
                 (unsigned long)at, worker_of(sheet + at));
    return text;
}

/* What a sheet without faults has for one worker. */
static uint64_t pieces_of(unsigned worker, const uint8_t *sheet, size_t length)
{
    uint64_t sum = 0;
    size_t at;

    for (at = 0; length - at >= TANDOS_SHEET_RECORD_SIZE;
         at += TANDOS_SHEET_RECORD_SIZE)
        if (sheet[at] == TANDOS_SHEET_PIECES &&
            worker_of(sheet + at) == worker)
            sum += word_at(sheet + at + 3);
    return sum;
}

const char *total_fault(const uint32_t *pieces, const uint8_t *sheet,
                        size_t length, char text[FAULT_TEXT_SIZE])
{
    uint64_t total = 0;
    unsigned worker = 0;

    while (worker < TANDOS_WORKERS && total <= TANDOS_TOTAL_MAX) {
        worker++;
        total = pieces[worker - 1] + pieces_of(worker, sheet, length);
    }
    snprintf(text, FAULT_TEXT_SIZE, " Worker %u would have %llu.", worker,
             (unsigned long long)total);
    return text;
}
