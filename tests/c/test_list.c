/* Lists: records, directory order, buffers. */
#include <stdio.h>
#include <string.h>

#include "calls.h"
#include "report.h"
#include "tests.h"

static void expect_list(const struct disc *disc, const uint8_t *records,
                        size_t length)
{
    tandos_filled listed = try_list(disc, length);

    EXPECT_NUMBER(0, listed.number);
    EXPECT_NUMBER(length, listed.length);
    expect_bytes("records", records, answer, length);
    EXPECT_NUMBER(length, try_list(disc, length + 1).length);
    EXPECT_NUMBER(length, try_list(disc, BUFFER_MAX).length);
    EXPECT_NUMBER(10, try_list(disc, length - 1).number);
    EXPECT_NUMBER(10, try_list(disc, 1).number);
    EXPECT_NUMBER(10, try_list(disc, 0).number);
}

static void worked_example(void)
{
    uint8_t records[] =
        "\x01\x50\x49\x45\x43\x45\x53\x20\x20\x20\x8C\x01\x02\0"
        "\x02\x54\x48\x55\x20\x20\x20\x50\x43\x53\x02\0\0";
    struct disc disc;

    /* 396 = $018C sectors are free, of nine 356 = $0164. */
    records[10] = (uint8_t)of_kind(0x8C, 0x64);
    make_pieces(&disc);
    expect_list(&disc, records, 28);
}

/* 798 = $031E, of nine 718 = $02CE. */
static void blank_disc(void)
{
    const char *records = disc_sectors == 9
                              ? "\x01""EMPTY    \xCE\x02\0\0"
                              : "\x01""EMPTY    \x1E\x03\0\0";
    struct disc disc;

    make_blank(&disc, 80, "EMPTY    ");
    expect_list(&disc, (const uint8_t *)records, 15);
}

/* A protected file, and a disc name and version that no rule asks about. */
static void as_it_stands(void)
{
    uint8_t records[] =
        "\x01\0\xFF""a.b  \x01z\x05\0\x03\0"
        "\x02""A        \x01\0\x80"
        "\x02""B        \x02\0\0";
    struct disc disc;

    records[10] = (uint8_t)of_kind(5, 4);
    make_small(&disc);
    memcpy(disc.bytes + 0x18, records + 1, 9);
    memset(disc.bytes + 0x40, 0xEE, 32);
    *at(&disc, place(0, 4), 3 + 15) = 0x80;
    expect_list(&disc, records, 41);
}

/* B is saved into the second slot, C into the first: directory order. */
static void directory_order(void)
{
    uint8_t records[] =
        "\x01SMALL    \x05\0\x03\0"
        "\x02""C        \x01\0\0"
        "\x02""B        \x02\0\0";
    struct disc disc;

    records[10] = (uint8_t)of_kind(5, 4);
    make_small(&disc);
    EXPECT_NUMBER(0, try_delete(&disc, text("A")));
    EXPECT_NUMBER(0, save_at_2000(&disc, "C", bytes(sheet, 1)));
    expect_list(&disc, records, 41);
}

static struct place place_of_number(unsigned number)
{
    return place(number / disc_sectors, number % disc_sectors + 1);
}

/* 80 tracks in plain order: so many directory sectors, then so many files of a
 * sector each, and nothing free. */
static void make_fullest(struct disc *disc, unsigned directory, unsigned files)
{
    char name[10];
    unsigned i;

    make_blank(disc, 80, "FULLEST  ");
    memset(disc->bytes + 256, 0, disc->length - 256);
    put_free_pointer(disc, place(0, 0));
    put_counts(disc, 0, files);
    disc->bytes[0x12] = 2;
    for (i = 1; i < directory; i++)
        put_link(disc, place_of_number(i), place_of_number(i + 1));
    for (i = 0; i < files; i++) {
        struct place own = place_of_number(1 + directory + i);

        sprintf(name, "F%03u     ", i % 1000);
        put_entry(disc, place_of_number(1 + i / 15), i % 15, name, 1, own, own);
    }
}

/* 1 + 50 + 749 are 800 sectors, 1 + 45 + 674 are 720. 749 = $02ED, 674 =
 * $02A2. */
static void longest_list(void)
{
    static uint8_t records[9752];
    unsigned files = of_kind(749, 674);
    size_t length = of_kind(9752, 8777);
    struct disc disc;
    unsigned i;

    make_fullest(&disc, of_kind(50, 45), files);
    EXPECT_NUMBER(9752, TANDOS_LIST_MAX);
    memcpy(records, "\x01""FULLEST  \0\0\xED\x02", 14);
    records[12] = (uint8_t)of_kind(0xED, 0xA2);
    for (i = 0; i < files; i++)
        sprintf((char *)records + 14 + 13 * i, "\x02""F%03u     \x01%c", i, 0);
    records[length - 1] = 0;
    expect_list(&disc, records, length);
}

void test_list(void)
{
    worked_example();
    blank_disc();
    as_it_stands();
    directory_order();
    longest_list();
}
