/* Discs of nine sectors a track, byte for byte. */
#include <string.h>

#include "calls.h"
#include "report.h"
#include "tests.h"

/* A blank disc of nine by positions; `at_10` are its bytes $10 to $20. */
static void put_blank(uint8_t *image, unsigned tracks, const char *at_10)
{
    /* Sectors 1, 4, 7, 2, 5, 8, 3, 6 of a track, and the next of each. */
    static const unsigned positions[] = {
        0, 768, 1536, 256, 1024, 1792, 512, 1280
    };
    static const uint8_t next[] = { 4, 7, 2, 5, 8, 3, 6, 9 };
    unsigned track, i;

    memset(image, 0, 2304 * (size_t)tracks);
    for (track = 0; track < tracks; track++) {
        uint8_t *start = image + 2304 * track;

        for (i = 0; i < 8; i++) {
            start[positions[i]] = (uint8_t)track;
            start[positions[i] + 1] = next[i];
        }
        if (track + 1 < tracks) {
            start[2048] = (uint8_t)(track + 1);
            start[2049] = 1;
        }
    }
    /* 0/1 and 0/4 aren't free. */
    image[1] = 0;
    image[769] = 0;
    memcpy(image + 0x10, at_10, 17);
    memcpy(image + 0x40, "TANDOS 65 IMAGE 1", 17);
}

/* Two bytes in front of each sector but 0/1 and 0/4. */
static void spoil_links(struct disc *disc)
{
    size_t start;

    for (start = 0; start < disc->length; start += 256)
        if (start != 0 && start != 768)
            memset(disc->bytes + start, 0xEE, 2);
}

/* Without its links a repair makes it again. */
static void blank_of(unsigned tracks, const char *at_10)
{
    struct disc disc, expected;

    expected.length = 2304 * (size_t)tracks;
    put_blank(expected.bytes, tracks, at_10);
    disc.length = expected.length;
    memset(disc.bytes, 0xEE, sizeof disc.bytes);
    EXPECT_NUMBER(0, try_blank(&disc, text("EARLY")));
    expect_disc("blank disc of nine", &expected, &disc);
    EXPECT_NUMBER(0, try_check(&disc).rule);
    spoil_links(&disc);
    EXPECT_NUMBER(0, try_repair(&disc));
    expect_disc("blank disc of nine repaired", &expected, &disc);
}

/* 7, 16, 358 = $0166 and 718 = $02CE sectors are free. */
static void blank_discs(void)
{
    blank_of(1, "\x07\0\x04\0\x07\0\0\0EARLY    ");
    blank_of(2, "\x07\0\x04\0\x10\0\0\0EARLY    ");
    blank_of(40, "\x07\0\x04\0\x66\x01\0\0EARLY    ");
    blank_of(80, "\x07\0\x04\0\xCE\x02\0\0EARLY    ");
}

/* A sector of a file after its first one: `count` bytes of the sheet. */
static void put_later(uint8_t *sector, unsigned link_track,
                      unsigned link_sector, size_t from, unsigned count)
{
    memset(sector, 0, 256);
    sector[0] = (uint8_t)link_track;
    sector[1] = (uint8_t)link_sector;
    sector[2] = (uint8_t)count;
    memcpy(sector + 3, sheet + from, count);
}

/* Two tracks of nine with X, 2,000 bytes from $2000 to $27CF in 8 sectors: all
 * that are free on track 0, then 1/1, which starts at byte 2,304. */
static void make_over_the_edge(struct disc *disc)
{
    uint8_t *image = disc->bytes;

    disc->length = 4608;
    put_blank(image, 2, "\x04\x01\x04\0\x08\0\x08\0EARLY    ");
    memcpy(image + 770, "\x01""X        \x08\0\x07\0\x01\x01\0", 17);
    memcpy(image + 1536, "\0\x02\xFF\0\0\x20\xCF\x27\0\x20\xF5", 11);
    memcpy(image + 1536 + 11, sheet, 245);
    put_later(image + 256, 0, 5, 245, 253);
    put_later(image + 1024, 0, 8, 498, 253);
    put_later(image + 1792, 0, 3, 751, 253);
    put_later(image + 512, 0, 6, 1004, 253);
    put_later(image + 1280, 0, 9, 1257, 253);
    put_later(image + 2048, 1, 1, 1510, 253);
    put_later(image + 2304, 0, 0, 1763, 237);
}

/* X, then Y in 1/4; X goes, and 1/1 links to 1/7, which was free. */
static void over_the_edge(void)
{
    static const uint8_t entry[] = "Y        \x01\0\x04\x01\x04\x01";
    static const uint8_t link[] = { 1, 7 };
    struct disc disc, expected;

    make_over_the_edge(&expected);
    disc.length = 4608;
    memset(disc.bytes, 0xEE, sizeof disc.bytes);
    EXPECT_NUMBER(0, try_blank(&disc, text("EARLY")));
    EXPECT_NUMBER(0, save_at_2000(&disc, "X", bytes(sheet, 2000)));
    expect_disc("file on two tracks", &expected, &disc);
    EXPECT_NUMBER(2000, try_read(&disc, text("X"), 2000).length);
    expect_bytes("file read", sheet, answer, 2000);
    EXPECT_NUMBER(0, save_at_2000(&disc, "Y", bytes(sheet, 1)));
    expect_bytes("entry of Y", entry, disc.bytes + 787, 16);
    EXPECT_NUMBER(0xFF, disc.bytes[3072 + 2]);
    EXPECT_NUMBER(0, try_delete(&disc, text("X")));
    expect_bytes("link of 1/1", link, disc.bytes + 2304, 2);
    EXPECT_NUMBER(0, try_check(&disc).rule);
}

/* Two tracks of nine have 16 free sectors: 15 files leave one, but the 16th
 * needs one for the directory as well. */
static void sixteen_sectors(void)
{
    struct disc disc;
    char name[] = "A";

    make_blank(&disc, 2, "EARLY    ");
    for (; name[0] < 'A' + 15; name[0]++)
        EXPECT_NUMBER(0, save_at_2000(&disc, name, bytes(sheet, 1)));
    EXPECT_NUMBER(1, disc.bytes[0x14]);
    EXPECT_NUMBER(8, save_at_2000(&disc, name, bytes(sheet, 1)));
    EXPECT_NUMBER(0, try_delete(&disc, text("A")));
    EXPECT_NUMBER(8, save_at_2000(&disc, name, bytes(sheet, 499)));
    EXPECT_NUMBER(0, save_at_2000(&disc, name, bytes(sheet, 498)));
    EXPECT_NUMBER(0, try_check(&disc).rule);
}

void test_nine(void)
{
    use_kind(TANDOS_NINE, TANDOS_PLAIN);
    blank_discs();
    over_the_edge();
    sixteen_sectors();
}
