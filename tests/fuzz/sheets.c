#include "sheets.h"

#include <string.h>

#include "calls.h"
#include "finding.h"
#include "totals.h"

#define RECORD_LENGTH TANDOS_SHEET_RECORD_SIZE

/* The most bytes that a damage adds. */
#define MORE_MOST 256

static struct totals now;

static uint8_t built[RECORD_LENGTH * RECORDS_MOST + 1 + MORE_MOST];
static size_t built_length;

void begin_totals(void)
{
    memset(&now, 0, sizeof now);
}

static void change_one(struct input *input, int is_near)
{
    size_t place = take(input, 2) % TANDOS_WORKERS;

    now.each[place] =
        is_near ? TANDOS_TOTAL_MAX + take(input, 1) - LIMIT_ITSELF
                : take(input, 4);
}

/* Each total lower than the one before, from the first on. */
static void change_all(uint32_t first, uint32_t lower)
{
    size_t i;

    for (i = 0; i < TOTALS_MOST; i++)
        now.each[i] = first - (uint32_t)i * lower;
}

static void take_totals(struct input *input)
{
    uint32_t first = take(input, 1);

    now.count = TANDOS_WORKERS;
    if (first >= TOTALS_LENGTH) {
        now.count = take(input, 2) % (TOTALS_MOST + 1);
        first = take(input, 1);
    }
    switch (first % TOTALS_KINDS) {
    case TOTALS_KEPT:
        break;
    case TOTALS_ZERO:
        change_all(0, 0);
        break;
    case TOTALS_NEAR:
        change_all(TANDOS_TOTAL_MAX - take(input, 1), 0);
        break;
    case TOTALS_STEPS:
        change_all(TANDOS_TOTAL_MAX, take(input, 4));
        break;
    default:
        change_one(input, first % TOTALS_KINDS == TOTALS_LIMIT);
    }
}

static void put_word(uint8_t *to, uint32_t word)
{
    to[0] = (uint8_t)word;
    to[1] = (uint8_t)(word >> 8);
}

static void take_record(struct input *input, uint32_t kind, uint8_t *record)
{
    switch (kind % RECORD_KINDS) {
    case RECORD_PIECES:
        record[0] = TANDOS_SHEET_PIECES;
        put_word(record + 1, 1 + take(input, 2) % TANDOS_WORKERS);
        put_word(record + 3, take(input, 2));
        break;
    case RECORD_DATE:
        record[0] = TANDOS_SHEET_DATE;
        take_bytes(input, record + 1, RECORD_LENGTH - 1);
        break;
    default:
        take_bytes(input, record, RECORD_LENGTH);
    }
}

/* One record, or the same one many times. */
static void take_group(struct input *input)
{
    uint32_t kind = take(input, 1);
    size_t count = kind < RECORD_MANY ? 1
                                      : take(input, 3) % (RECORDS_MOST + 1);
    uint8_t record[RECORD_LENGTH];

    take_record(input, kind, record);
    for (; count > 0 && built_length < RECORD_LENGTH * RECORDS_MOST; count--) {
        memcpy(built + built_length, record, RECORD_LENGTH);
        built_length += RECORD_LENGTH;
    }
}

/* The sheet has its end, and so a byte at least. */
static void take_damage(struct input *input)
{
    uint32_t damage = take(input, 1);
    size_t count;

    if (damage == DAMAGE_NONE || damage >= DAMAGES)
        return;
    if (damage == DAMAGE_BYTE) {
        count = 1 + take(input, 3) % built_length;
        built[built_length - count] = (uint8_t)take(input, 1);
        return;
    }
    count = 1 + take(input, 1);
    if (damage == DAMAGE_CUT) {
        built_length -= count < built_length ? count : built_length;
    } else {
        memset(built + built_length, (int)take(input, 1), count);
        built_length += count;
    }
}

static void build(struct input *input)
{
    uint32_t groups = take(input, 1) % GROUPS_MOST;

    for (built_length = 0; groups > 0; groups--)
        take_group(input);
    built[built_length++] = TANDOS_SHEET_END;
    take_damage(input);
}

/* The sheet stands until the next one is taken. */
static struct text take_records(struct input *input)
{
    struct text sheet = { built, 0 };
    uint32_t length;

    if (take(input, 1) % RECORDS_KINDS == RECORDS_BUILT) {
        build(input);
        sheet.length = built_length;
        return sheet;
    }
    length = take(input, 1);
    if (length == RECORDS_NULL) {
        sheet.bytes = NULL;
        return sheet;
    }
    take_bytes(input, built, length);
    sheet.length = length;
    return sheet;
}

void run_add_sheet(struct input *input)
{
    static struct totals expected;
    struct text sheet;
    uint32_t number;

    take_totals(input);
    sheet = take_records(input);
    expected = now;
    number = expected_add_sheet(&expected, sheet);
    REQUIRE_EQUAL(number, call_add_sheet(&now, sheet), "add_sheet");
    REQUIRE(memcmp(expected.each, now.each, sizeof now.each) == 0,
            "totals after a sheet");
}
