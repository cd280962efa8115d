/* Blank discs, byte for byte. */
#include <string.h>

#include "calls.h"
#include "report.h"
#include "tests.h"

/* An image that is no disc: blank must not rely on what stands there. */
static void make_scrap(struct disc *disc, unsigned tracks)
{
    disc->length = track_size() * tracks;
    memset(disc->bytes, 0xEE, sizeof disc->bytes);
}

static void blank_of(unsigned tracks)
{
    struct disc disc, expected;

    make_scrap(&disc, tracks);
    EXPECT_NUMBER(0, try_blank(&disc, text("PIECES")));
    make_blank(&expected, tracks, "PIECES   ");
    expect_disc("blank disc", &expected, &disc);
    EXPECT_NUMBER(0, try_check(&disc).number);
    EXPECT_NUMBER(0, try_check(&disc).rule);
}

#define LINKS 11

struct link {
    unsigned position;
    uint8_t bytes[2];
};

/* The example's chain, by positions: 0/7, 0/10, 0/3, .. 1/1, 1/4. */
static const struct link chain_of_ten[LINKS] = {
    { 1536, { 0, 10 } }, { 2304, { 0, 3 } }, { 512, { 0, 6 } },
    { 1280, { 0, 9 } }, { 2048, { 0, 2 } }, { 256, { 0, 5 } },
    { 1024, { 0, 8 } }, { 1792, { 1, 1 } }, { 2560, { 1, 4 } },
    { 3328, { 1, 7 } }, { 99840 + 1792, { 0, 0 } }
};

/* The same of nine: 0/7, 0/2, 0/5, .. 1/1, 1/4, 1/7. */
static const struct link chain_of_nine[LINKS] = {
    { 1536, { 0, 2 } }, { 256, { 0, 5 } }, { 1024, { 0, 8 } },
    { 1792, { 0, 3 } }, { 512, { 0, 6 } }, { 1280, { 0, 9 } },
    { 2048, { 1, 1 } }, { 2304, { 1, 4 } }, { 3072, { 1, 7 } },
    { 3840, { 1, 2 } }, { 89856 + 2048, { 0, 0 } }
};

static void chain_of_forty_tracks(void)
{
    const struct link *links = disc_sectors == 9 ? chain_of_nine : chain_of_ten;
    struct disc disc;
    size_t i;

    make_scrap(&disc, 40);
    EXPECT_NUMBER(0, try_blank(&disc, text("PIECES")));
    for (i = 0; i < LINKS; i++)
        expect_bytes("link of the blank chain", links[i].bytes,
                     disc.bytes + links[i].position, 2);
}

static void system_sector(unsigned tracks, const char *bytes_at_10)
{
    static const uint8_t zeros[256];
    struct disc disc;

    make_scrap(&disc, tracks);
    EXPECT_NUMBER(0, try_blank(&disc, text("PIECES")));
    expect_bytes("$0-$F", zeros, disc.bytes, 16);
    expect_bytes("$10-$20", (const uint8_t *)bytes_at_10, disc.bytes + 0x10,
                 17);
    expect_bytes("$21-$3F", zeros, disc.bytes + 0x21, 31);
    expect_bytes("version", (const uint8_t *)"TANDOS 65 IMAGE 1",
                 disc.bytes + 0x40, 17);
    expect_bytes("rest of 0/1", zeros, disc.bytes + 0x51, 256 - 0x51);
    expect_bytes("directory", zeros, disc.bytes + 768, 256);
}

static void disc_name(const char *typed, const char *stored)
{
    struct disc disc, expected;

    make_scrap(&disc, 1);
    EXPECT_NUMBER(0, try_blank(&disc, text(typed)));
    make_blank(&expected, 1, stored);
    expect_disc("disc name", &expected, &disc);
}

static void bad_disc_names(void)
{
    static const char *const names[] = {
        "", "TENLETTERS", "A.B", "a", "PIECEs", "A B", " A", "A ", "A-B", "."
    };
    struct disc disc;
    size_t i;

    make_scrap(&disc, 1);
    for (i = 0; i < sizeof names / sizeof names[0]; i++)
        EXPECT_NUMBER(2, try_blank(&disc, text(names[i])));
    EXPECT_NUMBER(2, try_blank(&disc, bytes(NULL, 0)));
    EXPECT_NUMBER(2, try_blank(&disc, bytes((const uint8_t *)"A\0B", 3)));
    EXPECT_NUMBER(2, try_blank(&disc, bytes(sheet, SHEET_BYTES)));
}

/* The free count low byte first: 398 = $018E and 8, of nine 358 = $0166 and
 * 7. */
static void system_sectors(void)
{
    if (disc_sectors == 9) {
        system_sector(40, "\x07\0\x04\0\x66\x01\0\0PIECES   ");
        system_sector(1, "\x07\0\x04\0\x07\0\0\0PIECES   ");
    } else {
        system_sector(40, "\x07\0\x04\0\x8E\x01\0\0PIECES   ");
        system_sector(1, "\x07\0\x04\0\x08\0\0\0PIECES   ");
    }
}

void test_blank(void)
{
    blank_of(1);
    blank_of(2);
    blank_of(40);
    blank_of(80);
    /* Lengths that discs of the other kind have as well. */
    blank_of(of_kind(9, 10));
    blank_of(of_kind(36, 40));
    chain_of_forty_tracks();
    system_sectors();
    disc_name("A", "A        ");
    disc_name("NINECHARS", "NINECHARS");
    disc_name("0123456", "0123456  ");
    bad_disc_names();
}
