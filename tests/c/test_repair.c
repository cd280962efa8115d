/* Repairs: what one leaves byte for byte, and every answer. The cuts after
 * which it is called have their own file. */
#include <string.h>

#include "calls.h"
#include "damages.h"
#include "repairs.h"
#include "report.h"
#include "scattered.h"
#include "tests.h"

/* A blank disc without its free chain becomes blank again, whatever stands in
 * links, pointer and counts; and as it is it stays. */
static void blank_again(unsigned tracks)
{
    static const unsigned fillers[] = { 0, 1, 4, 7, 10, 0x80, 0xFF };
    struct disc blank, disc;
    struct taken taken;
    size_t i;

    make_blank(&blank, tracks, "CARD     ");
    memset(&taken, 0, sizeof taken);
    mark(&taken, place(0, 1));
    mark(&taken, place(0, 4));
    for (i = 0; i < sizeof fillers / sizeof fillers[0]; i++) {
        disc = blank;
        spoil_free_chain(&disc, &taken, fillers[i]);
        EXPECT_NUMBER(0, try_repair(&disc));
        expect_disc("blank disc repaired", &blank, &disc);
    }
    disc = blank;
    EXPECT_NUMBER(0, try_repair(&disc));
    expect_disc("blank disc that was sound", &blank, &disc);
}

/* Every damage of the small disc. One of rules 1 to 5 is refused, and others
 * leave the small disc: its free chain is in the order of a blank disc's. Of
 * sound ones the changed bytes stay but the last link's, whose track is 0. */
static void damaged_discs(void)
{
    struct disc small, disc, damaged;
    size_t i;

    make_small(&small);
    for (i = 0; i < damage_count; i++) {
        unsigned rule = damages[i].rule;

        make_damaged(&disc, &damages[i]);
        damaged = disc;
        EXPECT_NUMBER(rule >= 1 && rule <= 5 ? 3 : 0, try_repair(&disc));
        *at(&damaged, place(0, of_kind(8, 9)), 0) = 0;
        if (rule >= 6)
            expect_disc("small disc repaired", &small, &disc);
        else if (rule == 0)
            expect_disc("sound disc repaired", &damaged, &disc);
    }
}

/* 3 where a second directory sector breaks the rule. */
static void second_directory_sector(void)
{
    struct place directory = free_place(16);
    struct disc good, disc;

    make_sixteen(&good);
    disc = good;
    put_link(&disc, directory, place(0, 4));
    EXPECT_NUMBER(3, try_repair(&disc));
    disc = good;
    *at(&disc, directory, 2) = 0;
    EXPECT_NUMBER(3, try_repair(&disc));
    disc = good;
    *at(&disc, directory, 5) = '4';
    EXPECT_NUMBER(3, try_repair(&disc));
    disc = good;
    put_link(&disc, free_place(15), directory);
    EXPECT_NUMBER(3, try_repair(&disc));
    disc = good;
    put_link(&disc, free_place(17), directory);
    put_free_pointer(&disc, place(0, 4));
    put_counts(&disc, 800, 800);
    EXPECT_NUMBER(0, try_repair(&disc));
    expect_disc("disc of two directory sectors", &good, &disc);
}

/* A full disc has no free chain: pointer and count are zeros, and no link
 * changes. A pointer that is none by its sector byte gets its track as 0. */
static void full_disc(void)
{
    static const struct place pointers[] = {
        { 0, 0 }, { 5, 0 }, { 0, 7 }, { 0, 1 }, { 255, 255 }
    };
    struct disc full, disc;
    size_t i;

    make_full(&full);
    for (i = 0; i < sizeof pointers / sizeof pointers[0]; i++) {
        disc = full;
        put_free_pointer(&disc, pointers[i]);
        EXPECT_NUMBER(0, try_repair(&disc));
        expect_disc("full disc", &full, &disc);
    }
    put_counts(&disc, 1, 65535);
    EXPECT_NUMBER(0, try_repair(&disc));
    expect_disc("full disc with wrong counts", &full, &disc);
}

/* Two deletes leave the free chain out of order: 0/10, 0/3, 0/7 and on, or of
 * nine 0/2, 0/5, 0/7. The repair puts 0/7 in front; the counts stay, and so do
 * the bytes of the files after the links. */
static void sound_but_out_of_order(void)
{
    struct disc disc, expected, small;
    unsigned k;

    make_small(&small);
    disc = small;
    EXPECT_NUMBER(0, try_delete(&disc, text("A")));
    EXPECT_NUMBER(0, try_delete(&disc, text("B")));
    EXPECT_NUMBER(of_kind(10, 2), disc.bytes[0x10]);
    EXPECT_NUMBER(0, try_repair(&disc));
    make_blank(&expected, 1, "SMALL    ");
    for (k = 0; k < 3; k++)
        memcpy(at(&expected, free_place(k), 2), at(&small, free_place(k), 2),
               254);
    expect_disc("free chain in order", &expected, &disc);
}

/* Counts of two bytes: three files of 260 sectors on the longest disc. */
static void high_counts(void)
{
    struct disc good, disc;
    char name[] = "A        ";
    unsigned files;

    make_blank(&good, 80, "HIGH     ");
    for (files = 0; files < of_kind(3, 2); files++, name[0]++) {
        struct module module = { 0, 0, 0, 65536 };

        put_module(&good, 260 * files, module);
        put_entry(&good, place(0, 4), files, name, 260, free_place(260 * files),
                  free_place(260 * files + 259));
    }
    put_free_pointer(&good, free_place(260 * files));
    put_counts(&good, 80 * disc_sectors - 2 - 260 * files, 260 * files);
    EXPECT_NUMBER(0, try_check(&good).rule);
    disc = good;
    put_counts(&disc, 0, 0);
    EXPECT_NUMBER(0, try_repair(&disc));
    expect_disc("high used count", &good, &disc);
}

/* 1 before 3: on discs that break rule 1, 2 or 5 beside. */
static void size_first(void)
{
    size_t track = track_size();
    size_t lengths[] = { 0, 1, 255, 256, track - 1, track + 1, 81 * track };
    struct disc disc;
    size_t i;

    for (i = 0; i < sizeof lengths / sizeof lengths[0]; i++) {
        make_small(&disc);
        disc.length = lengths[i];
        *at(&disc, place(0, 1), 0x12) = 0;
        EXPECT_NUMBER(1, try_repair(&disc));
        *at(&disc, place(0, 1), 0x12) = 4;
        put_link(&disc, place(0, 4), place(0, 4));
        EXPECT_NUMBER(1, try_repair(&disc));
        put_link(&disc, place(0, 4), place(0, 0));
        *at(&disc, place(0, 4), 12) = 2;
        EXPECT_NUMBER(1, try_repair(&disc));
    }
}

static void scattered_discs(unsigned tracks, unsigned discs)
{
    struct disc disc, expected;
    struct taken taken;
    unsigned i;

    begin_random(tracks);
    for (i = 0; i < discs; i++) {
        make_scattered(&disc, &taken, tracks, i % 4);
        expected = disc;
        put_free_chain(&expected, &taken);
        EXPECT_NUMBER(0, try_repair(&disc));
        expect_disc("scattered disc", &expected, &disc);
    }
}

/* Bytes of any kind are almost never a directory: 3, and nothing changes. With
 * a directory of no entries they are a disc. */
static void any_bytes(unsigned tracks)
{
    struct disc disc, expected;
    struct taken taken;
    size_t i;

    begin_random(77 + tracks);
    disc.length = track_size() * tracks;
    for (i = 0; i < disc.length; i++)
        disc.bytes[i] = (uint8_t)below(256);
    disc.bytes[0x12] = 255;
    EXPECT_NUMBER(3, try_repair(&disc));
    disc.bytes[0x12] = 2;
    disc.bytes[0x13] = 0;
    put_link(&disc, place(0, 2), place(200, 0));
    EXPECT_NUMBER(3, try_repair(&disc));
    memset(at(&disc, place(0, 2), 2), 0, 1 + 15 * 16);
    expected = disc;
    memset(&taken, 0, sizeof taken);
    mark(&taken, place(0, 1));
    mark(&taken, place(0, 2));
    put_free_chain(&expected, &taken);
    EXPECT_NUMBER(0, try_repair(&disc));
    expect_disc("any bytes with a directory", &expected, &disc);
}

/* What a repair leaves is a disc to go on with. */
static void go_on(void)
{
    struct disc disc;

    make_unsound(&disc);
    EXPECT_NUMBER(3, save_at_2000(&disc, "C", bytes(sheet, 1)));
    EXPECT_NUMBER(0, try_repair(&disc));
    EXPECT_NUMBER(8, save_at_2000(&disc, "C",
                                  bytes(sheet, of_kind(1258, 1005))));
    EXPECT_NUMBER(0, save_at_2000(&disc, "C",
                                  bytes(sheet, of_kind(1257, 1004))));
    EXPECT_NUMBER(0, try_repair(&disc));
    EXPECT_NUMBER(0, try_delete(&disc, text("A")));
    EXPECT_NUMBER(0, try_check(&disc).rule);
}

void test_repair(void)
{
    blank_again(1);
    blank_again(2);
    blank_again(40);
    blank_again(80);
    damaged_discs();
    second_directory_sector();
    full_disc();
    sound_but_out_of_order();
    high_counts();
    size_first();
    scattered_discs(1, 200);
    scattered_discs(2, 200);
    scattered_discs(9, 50);
    scattered_discs(80, 10);
    any_bytes(1);
    any_bytes(80);
    go_on();
}
