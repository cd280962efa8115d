/* Image lengths that fit no disc, and memory that is not lent at all. */
#include <string.h>

#include "calls.h"
#include "report.h"
#include "tests.h"

static void nothing_to_write(void)
{
    tandos_filled saved =
        tandos_save(NULL, 0, STATED, NULL, 0, 0, 0, 0, NULL, 0, NULL, 0);
    tandos_filled renamed =
        tandos_rename(NULL, 0, STATED, NULL, 0, NULL, 0, NULL, 0);

    EXPECT_NUMBER(1, saved.number);
    EXPECT_NUMBER(0, saved.length);
    EXPECT_NUMBER(1, tandos_delete(NULL, 0, STATED, NULL, 0, NULL, 0).number);
    EXPECT_NUMBER(1, renamed.number);
    EXPECT_NUMBER(0, renamed.length);
    EXPECT_NUMBER(1, tandos_protect(NULL, 0, STATED, NULL, 0, 0, NULL,
                                    0).number);
    EXPECT_NUMBER(1, tandos_replay(NULL, 0, STATED, NULL, 0));
    EXPECT_NUMBER(1, tandos_repair(NULL, 0, STATED));
}

/* Nothing lent at all: no call may look behind a NULL. */
static void nothing_lent(void)
{
    tandos_reading reading = tandos_read(NULL, 0, STATED, NULL, 0, NULL, 0);

    EXPECT_NUMBER(1, tandos_check(NULL, 0, STATED).number);
    EXPECT_NUMBER(0, tandos_check(NULL, 0, STATED).rule);
    EXPECT_NUMBER(1, tandos_list(NULL, 0, STATED, NULL, 0).number);
    EXPECT_NUMBER(1, reading.number);
    EXPECT_NUMBER(0, reading.length);
    nothing_to_write();
    EXPECT_NUMBER(1, tandos_blank(NULL, 0, STATED, NULL, 0));
    EXPECT_NUMBER(1, tandos_view_number(NULL, 0, STATED, 0, 1));
    EXPECT_NUMBER(0, tandos_view_start(NULL, 0, STATED, 0, 1));
    EXPECT_NUMBER(1, tandos_view(NULL, 0, STATED, 0, 1) == NULL);
}

/* An image lent, and beside it NULL with length 0. */
static void no_name_and_no_buffer(void)
{
    struct text nothing = bytes(NULL, 0);
    struct disc disc, expected;
    static uint8_t image[2560];
    size_t length = track_size();
    uint8_t name[1] = { 'A' };

    make_small(&disc);
    expected = disc;
    EXPECT_NUMBER(2, try_save(&disc, nothing, 0, 0, 0, nothing));
    EXPECT_NUMBER(7, try_save(&disc, text("C"), 0, 0, 0, nothing));
    EXPECT_NUMBER(2, try_delete(&disc, nothing));
    EXPECT_NUMBER(2, try_rename(&disc, text("A"), nothing));
    EXPECT_NUMBER(2, try_rename(&disc, nothing, text("C")));
    EXPECT_NUMBER(2, try_protect(&disc, nothing, 1));
    EXPECT_NUMBER(14, try_replay(&disc, nothing));
    EXPECT_NUMBER(2, try_blank(&disc, nothing));
    arrange(image, disc.bytes, length, stated.arrangement);
    EXPECT_NUMBER(10, tandos_list(image, length, STATED, NULL, 0).number);
    EXPECT_NUMBER(2,
                  tandos_read(image, length, STATED, NULL, 0, NULL, 0).number);
    EXPECT_NUMBER(10,
                  tandos_read(image, length, STATED, name, 1, NULL, 0).number);
    expect_disc("disc after refusals", &expected, &disc);
}

static void macros(void)
{
    EXPECT_NUMBER(256, TANDOS_SECTOR_SIZE);
    EXPECT_NUMBER(9, TANDOS_NINE);
    EXPECT_NUMBER(10, TANDOS_TEN);
    EXPECT_NUMBER(2304, TANDOS_IMAGE_SIZE(1, TANDOS_NINE));
    EXPECT_NUMBER(2560, TANDOS_IMAGE_SIZE(1, TANDOS_TEN));
    EXPECT_NUMBER(92160, TANDOS_IMAGE_SIZE(40, TANDOS_NINE));
    EXPECT_NUMBER(92160, TANDOS_IMAGE_SIZE(30 + 6, 5 + 5));
    EXPECT_NUMBER(184320, TANDOS_IMAGE_SIZE(TANDOS_MAX_TRACKS, TANDOS_NINE));
    EXPECT_NUMBER(204800, TANDOS_IMAGE_MAX);
    EXPECT_NUMBER(256, TANDOS_LINK_SIZE + TANDOS_VIEW_SIZE);
    EXPECT_NUMBER(28, TANDOS_LIST_SIZE(1));
    EXPECT_NUMBER(259, TANDOS_WRITE_RECORD_SIZE);
    EXPECT_NUMBER(1, TANDOS_WRITES_SIZE(0));
    EXPECT_NUMBER(1037, TANDOS_WRITES_SIZE(2 + 2));
    EXPECT_NUMBER(68118, TANDOS_SAVE_WRITES_MAX);
    EXPECT_NUMBER(778, TANDOS_DELETE_WRITES_SIZE);
    EXPECT_NUMBER(260, TANDOS_ENTRY_WRITES_SIZE);
    EXPECT_NUMBER(3, TANDOS_WRITE);
    EXPECT_NUMBER(0, TANDOS_WRITES_END);
    EXPECT_NUMBER(65536, TANDOS_SHEET_MAX);
}

void test_sizes(void)
{
    size_t track = track_size();
    size_t lengths[] = {
        0, 1, 255, 256, track / 2, track - 1, track + 1, track + 256,
        2 * track - 1, 2 * track + 1, 80 * track - 1, 80 * track + 1,
        80 * track + 256, 81 * track
    };
    struct disc disc;
    size_t i;

    for (i = 0; i < sizeof lengths / sizeof lengths[0]; i++) {
        make_small(&disc);
        disc.length = lengths[i];
        expect_refused_1(&disc);
    }
    nothing_lent();
    no_name_and_no_buffer();
    macros();
}
