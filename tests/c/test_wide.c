/*
 * Lengths of more than 32 bits: none may be cut. The memory is really lent, but
 * hardly touched, so that it takes few pages of the machine. The sanitizer
 * would fill its own record of it, so this is left to the plain run.
 */
#include <stdio.h>
#include <stdlib.h>
#include <string.h>

#include "calls.h"
#include "report.h"
#include "sheets.h"
#include "tests.h"

#if SIZE_MAX > 0xFFFFFFFF && !defined(__SANITIZE_ADDRESS__)

#define CUT_TO_ZERO ((size_t)1 << 32)

/* Cut to 32 bits, each length below would be right: one track, 1 and 1. */
static void too_long(uint8_t *wide, uint8_t *image)
{
    size_t track = track_size(), length = CUT_TO_ZERO + track;
    uint8_t expected[2560], writes[778], name[1] = { 'C' }, end[1] = { 0 };

    memcpy(expected, image, track);
    EXPECT_NUMBER(1, tandos_check(wide, length, STATED).number);
    EXPECT_NUMBER(1, tandos_view_number(wide, length, STATED, 0, 1));
    EXPECT_NUMBER(0, tandos_view_start(wide, length, STATED, 0, 1));
    EXPECT_NUMBER(1, tandos_replay(wide, length, STATED, end, sizeof end));
    EXPECT_NUMBER(1, tandos_repair(wide, length, STATED));
    EXPECT_NUMBER(2, tandos_delete(image, track, STATED, wide, CUT_TO_ZERO + 1,
                                   writes, sizeof writes).number);
    EXPECT_NUMBER(7, tandos_save(image, track, STATED, name, 1, 0, 0, 0, wide,
                                 CUT_TO_ZERO + 1, writes,
                                 sizeof writes).number);
    expect_bytes("image after refusals", expected, image, track);
}

/* Cut to 32 bits, the list would be an end alone, or one write of 0/1. */
static void too_long_a_list(uint8_t *wide, uint8_t *image)
{
    static const uint8_t head[] = { 3, 0, 1 };
    size_t track = track_size();
    uint8_t expected[2560];

    memcpy(expected, image, track);
    memset(wide, 0, sizeof head);
    EXPECT_NUMBER(14, tandos_replay(image, track, STATED, wide,
                                    CUT_TO_ZERO + 1));
    memcpy(wide, head, sizeof head);
    EXPECT_NUMBER(14, tandos_replay(image, track, STATED, wide,
                                    CUT_TO_ZERO + 260));
    expect_bytes("image after refused lists", expected, image, track);
}

/* Cut to 32 bits, the buffer of writes would be of length 0. */
static void long_enough_for_writes(uint8_t *wide, uint8_t *image)
{
    static const uint8_t head[] = { 3, 0, 4 };
    uint8_t name[1] = { 'A' };
    tandos_filled filled = tandos_protect(image, track_size(), STATED, name, 1,
                                          1, wide, CUT_TO_ZERO);

    EXPECT_NUMBER(0, filled.number);
    EXPECT_NUMBER(260, filled.length);
    expect_bytes("write of 0/4", head, wide, sizeof head);
    EXPECT_NUMBER(0x80, wide[3 + 18]);
    EXPECT_NUMBER(0, wide[259]);
}

/* Cut to 32 bits, the buffer would be of length 0. */
static void long_enough(uint8_t *wide, const uint8_t *image)
{
    uint8_t name[1] = { 'A' };
    tandos_filled listed =
        tandos_list(image, track_size(), STATED, wide, CUT_TO_ZERO);
    tandos_reading reading = tandos_read(image, track_size(), STATED, name, 1,
                                         wide, CUT_TO_ZERO);

    EXPECT_NUMBER(0, listed.number);
    EXPECT_NUMBER(41, listed.length);
    EXPECT_NUMBER(0, reading.number);
    EXPECT_NUMBER(245, reading.length);
    expect_bytes("bytes read", sheet, wide, 245);
}

/* Cut to 32 bits, the sheet would be an end alone, and the table, or its length
 * in bytes, that of 500 totals. */
static void too_long_for_totals(uint8_t *wide)
{
    uint32_t totals[TABLE], expected[TABLE];
    uint8_t end[1] = { 0 };
    uint32_t *many = calloc(CUT_TO_ZERO + TABLE, sizeof many[0]);

    make_totals(totals, 1, 7);
    make_totals(expected, 1, 7);
    wide[0] = 0;
    EXPECT_NUMBER(12, tandos_add_sheet(totals, TABLE, wide, CUT_TO_ZERO + 1));
    expect_totals("totals after a refusal", expected, totals);
    EXPECT_NUMBER(12, tandos_add_sheet((uint32_t *)(void *)wide,
                                       CUT_TO_ZERO / 4 + TABLE, end, 1));
    if (many == NULL)
        puts("wide: a table left out, the machine does not lend 16 GiB");
    else
        EXPECT_NUMBER(12, tandos_add_sheet(many, CUT_TO_ZERO + TABLE, end, 1));
    free(many);
}

void test_wide(void)
{
    uint8_t *wide = calloc(CUT_TO_ZERO + track_size(), 1);
    uint8_t image[2560];
    struct disc disc;

    if (wide == NULL) {
        puts("wide: left out, the machine does not lend 4 GiB of addresses");
        return;
    }
    make_small(&disc);
    arrange(image, disc.bytes, disc.length, stated.arrangement);
    /* A dot here spares a search for one through all of the memory. */
    wide[0] = 'A';
    wide[1] = '.';
    too_long(wide, image);
    long_enough(wide, image);
    long_enough_for_writes(wide, image);
    too_long_a_list(wide, image);
    too_long_for_totals(wide);
    free(wide);
}

#else

void test_wide(void)
{
}

#endif
