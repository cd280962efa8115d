#include "input.h"

#include <stdio.h>

#include "tandos.h"

static const uint32_t sheet_lengths[SHEETS] = {
    [SHEET_1] = 1,         [SHEET_0] = 0,         [SHEET_244] = 244,
    [SHEET_245] = 245,     [SHEET_246] = 246,     [SHEET_498] = 498,
    [SHEET_499] = 499,     [SHEET_751] = 751,     [SHEET_752] = 752,
    [SHEET_1763] = 1763,   [SHEET_1764] = 1764,   [SHEET_2016] = 2016,
    [SHEET_2017] = 2017,   [SHEET_4293] = 4293,   [SHEET_65535] = 65535,
    [SHEET_65536] = 65536, [SHEET_65537] = 65537, [SHEET_20000] = 20000
};

static const struct stated right_pairs[STATED_KINDS] = {
    [STATED_NINE] = { TANDOS_NINE, TANDOS_PLAIN },
    [STATED_PLAIN] = { TANDOS_TEN, TANDOS_PLAIN },
    [STATED_MOVED] = { TANDOS_TEN, TANDOS_MOVED }
};

/* Sectors: the next ones, those that are right when cut to 8, 16 or 31 bits,
 * the last. Arrangements likewise. Both exchanged. */
static const struct stated wrong_pairs[WRONG_PAIRS] = {
    { 8, 0 },          { 11, 0 },         { 0, 0 },          { 265, 0 },
    { 266, 0 },        { 266, 1 },        { 65545, 0 },      { 65546, 0 },
    { 65546, 1 },      { 0x80000009, 0 }, { 0x8000000A, 0 }, { 0x8000000A, 1 },
    { UINT32_MAX, 0 }, { UINT32_MAX, 1 }, { 9, 1 },          { 9, 2 },
    { 9, 256 },        { 9, 257 },        { 9, 65536 },      { 9, 0x80000000 },
    { 9, UINT32_MAX }, { 10, 2 },         { 10, 256 },       { 10, 257 },
    { 10, 65536 },     { 10, 65537 },     { 10, 0x80000000 },
    { 10, 0x80000001 }, { 10, UINT32_MAX }, { 0, 9 }, { 0, 10 }, { 1, 10 }
};

uint32_t take(struct input *input, unsigned byte_count)
{
    uint32_t number = 0;
    unsigned i;

    for (i = 0; i < byte_count && input->at < input->end; i++)
        number |= (uint32_t)*input->at++ << (8 * i);
    return number;
}

void take_bytes(struct input *input, uint8_t *to, size_t count)
{
    size_t i;

    for (i = 0; i < count; i++)
        to[i] = (uint8_t)take(input, 1);
}

uint32_t take_number(struct input *input)
{
    uint32_t first = take(input, 1);

    return first == NUMBER_WIDE ? take(input, 4) : first;
}

/* A pair with a small number in it, which may be right. */
static struct stated take_small(struct input *input, int is_sectors)
{
    uint32_t byte = take(input, 1);
    uint32_t small = byte % SMALL_NUMBERS;
    uint32_t which = byte / SMALL_NUMBERS % 2;
    struct stated stated;

    stated.sectors = is_sectors ? small : TANDOS_NINE + which;
    stated.arrangement = is_sectors ? which : small;
    return stated;
}

struct stated take_stated(struct input *input)
{
    uint32_t first = take(input, 1);
    struct stated stated;

    if (first < STATED_WRONG)
        return right_pairs[first % STATED_KINDS];
    if (first < STATED_SMALL_SECTORS)
        return wrong_pairs[first - STATED_WRONG];
    if (first < STATED_NUMBERS)
        return take_small(input, first < STATED_SMALL_ARRANGEMENT);
    stated.sectors = take_number(input);
    stated.arrangement = take_number(input);
    return stated;
}

void put_legal_name(struct name *name, unsigned which)
{
    static const char *const extensions[] = { "", ".A", ".BC" };
    int length = snprintf((char *)name->bytes, sizeof name->bytes, "N%u%s",
                          which % 64, extensions[which / 64]);

    name->text.bytes = name->bytes;
    name->text.length = (size_t)length;
}

void take_name(struct input *input, struct name *name)
{
    uint32_t first = take(input, 1);
    size_t i;

    if (first < NAME_TYPED) {
        put_legal_name(name, first);
        return;
    }
    name->text.bytes = first == NAME_NULL ? NULL : name->bytes;
    name->text.length = first == NAME_NULL ? 0 : first % (NAME_MOST + 1);
    for (i = 0; i < name->text.length; i++)
        name->bytes[i] = (uint8_t)take(input, 1);
}

struct text take_sheet(struct input *input)
{
    static uint8_t bytes[SHEET_MOST];
    uint32_t first = take(input, 1);
    struct text sheet;
    uint32_t state;
    size_t i;

    sheet.length = first < SHEET_LENGTH ? sheet_lengths[first % SHEETS]
                                        : take(input, 2);
    state = take(input, 1);
    for (i = 0; i < sheet.length; i++) {
        bytes[i] = (uint8_t)(state >> 16 ^ state);
        state = state * 1664525u + 1013904223u;
    }
    sheet.bytes = sheet.length == 0 && state % 2 == 1 ? NULL : bytes;
    return sheet;
}

size_t take_buffer_length(struct input *input, size_t needed)
{
    switch (take(input, 1)) {
    case BUFFER_EXACT:
        return needed;
    case BUFFER_ONE_LESS:
        return needed > 0 ? needed - 1 : 0;
    case BUFFER_LONGER:
        return needed + 1 + take(input, 1) % 15;
    case BUFFER_EMPTY:
        return 0;
    case BUFFER_LARGEST:
        return BUFFER_MOST;
    default:
        return take(input, 2);
    }
}
