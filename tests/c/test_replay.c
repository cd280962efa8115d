/* Replays: what a list writes, and every reason for which one is refused. */
#include <string.h>

#include "calls.h"
#include "report.h"
#include "tests.h"

static struct text whole(const struct writes *list)
{
    return bytes(list->bytes, list->length);
}

/* Expects 14, also of the same list behind a write that is right; nothing is
 * written then. */
static void refused(unsigned tracks, struct text wrong)
{
    static struct writes list;
    struct disc disc;

    make_blank(&disc, tracks, "CARD     ");
    EXPECT_NUMBER(14, try_replay(&disc, wrong));
    begin_writes(&list);
    put_filled(&list, 3, place(0, 1), 0xEE);
    if (wrong.length > 0)
        memcpy(list.bytes + list.length, wrong.bytes, wrong.length);
    list.length += wrong.length;
    EXPECT_NUMBER(14, try_replay(&disc, whole(&list)));
}

/* One write of this kind and place, and the end. */
static void refused_write(unsigned tracks, unsigned kind, struct place place)
{
    static struct writes list;

    begin_writes(&list);
    put_filled(&list, kind, place, 0);
    end_writes(&list);
    refused(tracks, whole(&list));
}

static void other_kinds(void)
{
    unsigned kind;

    for (kind = 1; kind < 256; kind++)
        if (kind != 3)
            refused_write(1, kind, place(0, 7));
}

/* The bytes of the cut record are zeros, which are no end there. */
static void cut_records(void)
{
    static struct writes list;
    size_t length;

    begin_writes(&list);
    put_filled(&list, 3, place(0, 7), 0);
    for (length = 1; length < 259; length++)
        refused(1, bytes(list.bytes, length));
}

static void not_on_the_disc(unsigned tracks)
{
    unsigned last = disc_sectors;

    refused_write(tracks, 3, place(0, 0));
    refused_write(tracks, 3, place(tracks - 1, 0));
    refused_write(tracks, 3, place(0, last + 1));
    refused_write(tracks, 3, place(tracks - 1, last + 1));
    refused_write(tracks, 3, place(0, 255));
    refused_write(tracks, 3, place(tracks, 1));
    refused_write(tracks, 3, place(tracks, last));
    refused_write(tracks, 3, place(tracks + 1, 1));
    refused_write(tracks, 3, place(255, 1));
    refused_write(tracks, 3, place(255, 255));
}

/* No end: no bytes at all, or whole writes and nothing more. */
static void no_end(void)
{
    static struct writes list;

    refused(1, bytes(NULL, 0));
    refused(1, bytes(sheet, 0));
    begin_writes(&list);
    put_filled(&list, 3, place(0, 7), 0);
    refused(1, whole(&list));
    put_filled(&list, 3, place(0, 4), 0);
    refused(1, whole(&list));
}

/* Bytes after the first end: another end, a byte, or a list that would be
 * right. */
static void after_the_end(void)
{
    static const uint8_t ends[] = { 0, 0 }, byte[] = { 0, 3 };
    static struct writes list;

    refused(1, bytes(ends, sizeof ends));
    refused(1, bytes(byte, sizeof byte));
    begin_writes(&list);
    end_writes(&list);
    put_filled(&list, 3, place(0, 7), 0);
    refused(1, whole(&list));
    end_writes(&list);
    refused(1, whole(&list));
    begin_writes(&list);
    put_filled(&list, 3, place(0, 7), 0);
    end_writes(&list);
    end_writes(&list);
    refused(1, whole(&list));
}

/* Of all tracks and sectors that a record can have, those of the disc. */
static void places_taken(unsigned tracks)
{
    uint8_t list[260] = { 3 };
    struct disc disc;
    size_t taken = 0, wrong = 0;
    unsigned track, sector;

    make_blank(&disc, tracks, "CARD     ");
    for (track = 0; track < 256; track++)
        for (sector = 0; sector < 256; sector++) {
            int is_there =
                track < tracks && sector >= 1 && sector <= disc_sectors;
            uint32_t number;

            list[1] = (uint8_t)track;
            list[2] = (uint8_t)sector;
            number = tandos_replay(disc.bytes, disc.length, STATED, list,
                                   sizeof list);
            taken += number == 0;
            wrong += number != (is_there ? 0u : 14u);
        }
    EXPECT_NUMBER((size_t)tracks * disc_sectors, taken);
    EXPECT_NUMBER(0, wrong);
}

/* The end alone is a list, and writes nothing. */
static void end_alone(void)
{
    static const uint8_t end[] = { 0 };
    struct disc disc, expected;

    make_small(&disc);
    expected = disc;
    EXPECT_NUMBER(0, try_replay(&disc, bytes(end, sizeof end)));
    expect_disc("disc after the end alone", &expected, &disc);
}

/* 256 bytes that differ from their neighbours, and by `salt`. */
static void put_pattern(uint8_t *sector, unsigned salt)
{
    unsigned i;

    for (i = 0; i < 256; i++)
        sector[i] = (uint8_t)(7 * i + 31 * salt);
}

/* A write of such bytes, in the list and on the disc that is expected. */
static void put_both(struct writes *list, struct disc *expected,
                     struct place place, unsigned salt)
{
    put_pattern(at(expected, place, 0), salt);
    put_write(list, expected, place);
}

/* 0/1, the last sector and some between; the disc is none of TANDOS before and
 * after, and its other bytes stay. */
static void on_any_bytes(unsigned tracks)
{
    static struct writes list;
    struct disc disc, expected;
    uint32_t number = 12345;
    size_t i;

    make_blank(&disc, tracks, "CARD     ");
    for (i = 0; i < disc.length; i++) {
        number = number * 1103515245 + 12345;
        disc.bytes[i] = (uint8_t)(number >> 16);
    }
    expected = disc;
    begin_writes(&list);
    put_both(&list, &expected, place(0, 1), 1);
    put_both(&list, &expected, place(tracks - 1, disc_sectors), 2);
    put_both(&list, &expected, place(tracks / 2, 4), 3);
    put_both(&list, &expected, place(0, 2), 4);
    end_writes(&list);
    EXPECT_NUMBER(0, try_replay(&disc, whole(&list)));
    expect_disc("any bytes after a replay", &expected, &disc);
}

/* A sound disc may become unsound, and sound again. */
static void sound_or_not(void)
{
    static struct writes list;
    struct place system = { 0, 1 };
    struct disc disc, sound, unsound;

    make_small(&sound);
    make_unsound(&unsound);
    disc = sound;
    make_writes(&list, &unsound, &system, 1);
    EXPECT_NUMBER(0, try_replay(&disc, whole(&list)));
    expect_disc("disc made unsound", &unsound, &disc);
    EXPECT_NUMBER(7, try_check(&disc).rule);
    make_writes(&list, &sound, &system, 1);
    EXPECT_NUMBER(0, try_replay(&disc, whole(&list)));
    expect_disc("disc made sound", &sound, &disc);
}

/* Every sector of the disc, from the last to the first, and `rounds` times: the
 * list is longer than the disc, and the later of two writes remains. */
static void every_sector(unsigned tracks, unsigned rounds)
{
    static struct writes list;
    struct disc disc, expected;
    unsigned sectors = tracks * disc_sectors, round, number;

    make_blank(&disc, tracks, "CARD     ");
    expected = disc;
    begin_writes(&list);
    for (round = 0; round < rounds; round++)
        for (number = sectors; number > 0; number--)
            put_both(&list, &expected,
                     place((number - 1) / disc_sectors,
                           (number - 1) % disc_sectors + 1),
                     number + 3 * round);
    end_writes(&list);
    EXPECT_NUMBER(1, list.length > disc.length);
    EXPECT_NUMBER(0, try_replay(&disc, whole(&list)));
    expect_disc("disc written whole", &expected, &disc);
}

/* The same sector twice, another one between. */
static void twice(void)
{
    static struct writes list;
    struct disc disc, expected;

    make_small(&disc);
    expected = disc;
    begin_writes(&list);
    put_both(&list, &expected, place(0, 7), 1);
    put_both(&list, &expected, place(0, 8), 2);
    put_both(&list, &expected, place(0, 7), 3);
    end_writes(&list);
    EXPECT_NUMBER(0, try_replay(&disc, whole(&list)));
    expect_disc("sector written twice", &expected, &disc);
}

/* 1 before 14: a wrong length with a wrong list and with a right one. */
static void size_first(void)
{
    static const uint8_t end[] = { 0 }, wrong[] = { 4 };
    struct disc disc;

    make_small(&disc);
    disc.length -= 1;
    EXPECT_NUMBER(1, try_replay(&disc, bytes(wrong, sizeof wrong)));
    EXPECT_NUMBER(1, try_replay(&disc, bytes(end, sizeof end)));
    EXPECT_NUMBER(1, try_replay(&disc, bytes(NULL, 0)));
    disc.length = 0;
    EXPECT_NUMBER(1, try_replay(&disc, bytes(wrong, sizeof wrong)));
    EXPECT_NUMBER(1, try_replay(&disc, bytes(end, sizeof end)));
}

/* A card that only replays keeps up with the disc, though it stands in the
 * other arrangement: a list does not tell of one. */
static void card_of_a_run(void)
{
    uint32_t other = stated.arrangement, own = stated.arrangement;
    struct disc disc, card;
    unsigned step;

    if (disc_sectors == TANDOS_TEN)
        other = own == TANDOS_PLAIN ? TANDOS_MOVED : TANDOS_PLAIN;
    make_blank(&disc, 4, "RUN      ");
    card = disc;
    for (step = 0; step < 100; step++) {
        written.length = 0;
        if (try_step(&disc, step) != TANDOS_DONE || written.length == 0)
            continue;
        stated.arrangement = other;
        EXPECT_NUMBER(0, try_replay(&card, whole(&written)));
        expect_disc("card of the run", &disc, &card);
        stated.arrangement = own;
    }
}

void test_replay(void)
{
    other_kinds();
    cut_records();
    not_on_the_disc(1);
    not_on_the_disc(2);
    not_on_the_disc(40);
    not_on_the_disc(80);
    no_end();
    after_the_end();
    places_taken(1);
    places_taken(2);
    places_taken(80);
    end_alone();
    on_any_bytes(1);
    on_any_bytes(40);
    on_any_bytes(80);
    sound_or_not();
    every_sector(1, 1);
    every_sector(2, 3);
    every_sector(80, 1);
    twice();
    size_first();
    card_of_a_run();
}
