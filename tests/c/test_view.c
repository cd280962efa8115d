/* The sector view: where it lies, and sectors that are not on the disc. */
#include <string.h>

#include "calls.h"
#include "report.h"
#include "tests.h"

/* The image position of the first byte shown; 0, where none is, if refused.
 * What the image holds does not matter to it. */
static size_t shown_at(const struct disc *disc, uint32_t track, uint32_t sector)
{
    const uint8_t *view =
        tandos_view(disc->bytes, disc->length, STATED, track, sector);
    uint32_t start =
        tandos_view_start(disc->bytes, disc->length, STATED, track, sector);
    size_t shown = view == NULL ? 0 : (size_t)(view - disc->bytes);

    EXPECT_NUMBER(start, shown);
    return shown;
}

static void plain_places(const struct disc *disc)
{
    EXPECT_NUMBER(0 + 2, shown_at(disc, 0, 1));
    EXPECT_NUMBER(256 + 2, shown_at(disc, 0, 2));
    EXPECT_NUMBER(1536 + 2, shown_at(disc, 0, 7));
    EXPECT_NUMBER(2304 + 2, shown_at(disc, 0, 10));
    EXPECT_NUMBER(2560 + 2, shown_at(disc, 1, 1));
    EXPECT_NUMBER(102144 + 2, shown_at(disc, 39, 10));
}

static void places_of_nine(const struct disc *disc)
{
    EXPECT_NUMBER(0 + 2, shown_at(disc, 0, 1));
    EXPECT_NUMBER(256 + 2, shown_at(disc, 0, 2));
    EXPECT_NUMBER(1536 + 2, shown_at(disc, 0, 7));
    EXPECT_NUMBER(2048 + 2, shown_at(disc, 0, 9));
    EXPECT_NUMBER(2304 + 2, shown_at(disc, 1, 1));
    EXPECT_NUMBER(91904 + 2, shown_at(disc, 39, 9));
}

static void moved_places(const struct disc *disc)
{
    EXPECT_NUMBER(0 + 2, shown_at(disc, 0, 1));
    EXPECT_NUMBER(256 + 2, shown_at(disc, 0, 4));
    EXPECT_NUMBER(512 + 2, shown_at(disc, 0, 7));
    EXPECT_NUMBER(768 + 2, shown_at(disc, 0, 10));
    EXPECT_NUMBER(2304 + 2, shown_at(disc, 0, 8));
    EXPECT_NUMBER(2560 + 2, shown_at(disc, 1, 1));
    EXPECT_NUMBER(99840 + 768 + 2, shown_at(disc, 39, 10));
}

static void places(const struct disc *disc)
{
    if (disc_sectors == 9)
        places_of_nine(disc);
    else if (stated.arrangement == TANDOS_MOVED)
        moved_places(disc);
    else
        plain_places(disc);
}

static void not_on_the_disc(const struct disc *disc, uint32_t tracks)
{
    EXPECT_NUMBER(0, try_view_number(disc, tracks - 1, disc_sectors));
    EXPECT_NUMBER(11, try_view_number(disc, tracks, 1));
    EXPECT_NUMBER(11, try_view_number(disc, 0, 0));
    EXPECT_NUMBER(11, try_view_number(disc, 0, disc_sectors + 1));
    EXPECT_NUMBER(11, try_view_number(disc, 0, 11));
    EXPECT_NUMBER(11, try_view_number(disc, tracks - 1, disc_sectors + 1));
    EXPECT_NUMBER(11, try_view_number(disc, 255, 1));
    EXPECT_NUMBER(11, try_view_number(disc, 256, 1));
    EXPECT_NUMBER(11, try_view_number(disc, 0, 256));
    EXPECT_NUMBER(11, try_view_number(disc, 0, 257));
    EXPECT_NUMBER(11, try_view_number(disc, 0x10000, 1));
    EXPECT_NUMBER(11, try_view_number(disc, 0, 0x10001));
    /* 10 * track is 4 modulo 2 to the 32nd, 9 * track is 5 */
    EXPECT_NUMBER(11, try_view_number(disc, 0x1999999A, 1));
    EXPECT_NUMBER(11, try_view_number(disc, 0x1C71C71D, 1));
    EXPECT_NUMBER(11, try_view_number(disc, 0x80000000, 1));
    EXPECT_NUMBER(11, try_view_number(disc, 0xFFFFFFFF, 1));
    EXPECT_NUMBER(11, try_view_number(disc, 0, 0xFFFFFFFF));
    EXPECT_NUMBER(11, try_view_number(disc, 0xFFFFFFFF, 0xFFFFFFFF));
}

/* The sectors of each track, in the order in which they stand in the image. */
static void every_sector(const struct disc *disc)
{
    static const uint32_t orders[][10] = {
        { 1, 2, 3, 4, 5, 6, 7, 8, 9, 10 },
        { 1, 4, 7, 10, 3, 6, 9, 2, 5, 8 }
    };
    const uint32_t *order = orders[stated.arrangement];
    unsigned place;

    for (place = 0; place < 80 * disc_sectors; place++)
        EXPECT_NUMBER(256 * place + 2,
                      shown_at(disc, place / disc_sectors,
                               order[place % disc_sectors]));
}

static void shown_are(const uint8_t *expected, const uint8_t *view)
{
    EXPECT_NUMBER(1, view != NULL);
    if (view != NULL)
        expect_bytes("view", expected, view, 254);
}

/* The bytes shown are the sector's own, in any arrangement. */
static void bytes_shown(void)
{
    static uint8_t image[DISC_MAX];
    struct disc disc;
    uint32_t track, sector;

    make_fifteen(&disc);
    arrange(image, disc.bytes, disc.length, stated.arrangement);
    for (track = 0; track < of_kind(2, 3); track++)
        for (sector = 1; sector <= disc_sectors; sector++)
            shown_are(at(&disc, place(track, sector), 2),
                      tandos_view(image, disc.length, STATED, track, sector));
}

void test_view(void)
{
    struct disc disc;

    make_pieces(&disc);
    places(&disc);
    not_on_the_disc(&disc, 40);
    /* Unsound images are shown too. */
    memset(disc.bytes, 0xEE, sizeof disc.bytes);
    places(&disc);
    disc.length = track_size();
    not_on_the_disc(&disc, 1);
    disc.length = 80 * track_size();
    not_on_the_disc(&disc, 80);
    every_sector(&disc);
    bytes_shown();
}
