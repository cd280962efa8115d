/* The sectors stated: numbers that are none, lengths, discs stated as the other
 * kind, and a run of commands on both kinds at once. */
#include <string.h>

#include "calls.h"
#include "report.h"
#include "tests.h"

/* A sound disc with the file A of 300 bytes in two sectors. */
static void make_one_file(struct disc *disc, unsigned tracks)
{
    make_blank(disc, tracks, "EARLY    ");
    put_module(disc, 0, module_at_2000(300));
    put_entry(disc, place(0, 4), 0, "A        ", 2, place(0, 7), free_place(1));
    put_free_pointer(disc, free_place(2));
    put_counts(disc, disc_sectors * tracks - 4, 2);
}

/* Every call on a disc of so many tracks, with both arrangements. */
static void refused_as(uint32_t sectors, unsigned tracks)
{
    struct disc disc;
    uint32_t arrangement;

    make_one_file(&disc, tracks);
    stated.sectors = sectors;
    for (arrangement = 0; arrangement < 2; arrangement++) {
        stated.arrangement = arrangement;
        expect_refused_1(&disc);
    }
    put_counts(&disc, disc_sectors * tracks - 4, 3);
    expect_refused_1_first(&disc);
}

/* 8 tracks of nine sectors are also 9 of 8, 6 of 12, 4 of 18 and 1 of 72; 11
 * of ten are also 10 of 11. Cut to fewer bits, others would be 9 or 10. */
static void no_such_sectors(void)
{
    static const uint32_t numbers[] = {
        0, 1, 8, 11, 12, 18, 72, 255, 256, 265, 266, 0x10009, 0x1000A,
        0x80000009, 0x8000000A, 0xFFFFFFF6, 0xFFFFFFF7, 0xFFFFFFFF
    };
    size_t i;

    for (i = 0; i < sizeof numbers / sizeof numbers[0]; i++) {
        use_kind(TANDOS_NINE, TANDOS_PLAIN);
        refused_as(numbers[i], 8);
        use_kind(TANDOS_TEN, TANDOS_PLAIN);
        refused_as(numbers[i], 11);
    }
}

/* Nine is plain alone. 9 and 10 are here for numbers stated in each other's
 * place. */
static void not_moved(void)
{
    static const struct stated none[] = {
        { 9, 1 }, { 9, 2 }, { 9, 9 }, { 0, 9 }, { 0, 10 }, { 1, 10 }
    };
    struct disc disc;
    size_t i;

    use_kind(TANDOS_NINE, TANDOS_PLAIN);
    for (i = 0; i < sizeof none / sizeof none[0]; i++) {
        stated = none[i];
        make_small(&disc);
        expect_refused_1(&disc);
        make_unsound(&disc);
        expect_refused_1_first(&disc);
    }
}

/* Of all lengths those of 1 to 80 tracks are taken, and no other. */
static void lengths_taken(uint32_t sectors)
{
    static const uint8_t image[DISC_MAX];
    size_t length, taken = 0;
    unsigned tracks;

    for (length = 0; length <= sizeof image; length++)
        taken += tandos_view_number(image, length, sectors, TANDOS_PLAIN, 0,
                                    1) == TANDOS_DONE;
    EXPECT_NUMBER(80, taken);
    for (tracks = 1; tracks <= 80; tracks++) {
        length = 256 * (size_t)sectors * tracks;
        EXPECT_NUMBER(0, tandos_view_number(image, length, sectors,
                                            TANDOS_PLAIN, 0, 1));
        EXPECT_NUMBER(0, tandos_check(image, length, sectors,
                                      TANDOS_PLAIN).number);
    }
}

/* An image of this length has so many tracks of so many sectors. */
static void has_tracks(size_t length, uint32_t sectors, uint32_t tracks)
{
    struct disc disc;
    uint32_t track;

    use_kind(sectors, TANDOS_PLAIN);
    memset(disc.bytes, 0xEE, sizeof disc.bytes);
    disc.length = length;
    for (track = 0; track < tracks; track++) {
        EXPECT_NUMBER(256 * (sectors * track + sectors - 1) + 2,
                      tandos_view_start(disc.bytes, length, STATED, track,
                                        sectors));
        EXPECT_NUMBER(0, try_view_number(&disc, track, sectors));
        EXPECT_NUMBER(11, try_view_number(&disc, track, sectors + 1));
    }
    EXPECT_NUMBER(11, try_view_number(&disc, tracks, 1));
}

static void lengths_of_both(void)
{
    has_tracks(23040, TANDOS_NINE, 10);
    has_tracks(23040, TANDOS_TEN, 9);
    has_tracks(92160, TANDOS_NINE, 40);
    has_tracks(92160, TANDOS_TEN, 36);
}

/* A disc of the one kind stated as the other, which its length fits: the rule
 * that is broken, and every call that asks for a sound disc. A repair believes
 * what is stated, and is done where rules 1 to 5 happen to hold. */
static void other_kind(uint32_t sectors, unsigned tracks, unsigned rule)
{
    struct disc disc;

    use_kind(sectors, TANDOS_PLAIN);
    make_one_file(&disc, tracks);
    EXPECT_NUMBER(0, try_check(&disc).rule);
    stated.sectors = sectors == TANDOS_NINE ? TANDOS_TEN : TANDOS_NINE;
    EXPECT_NUMBER(0, try_check(&disc).number);
    EXPECT_NUMBER(rule, try_check(&disc).rule);
    EXPECT_NUMBER(3, try_list(&disc, 9752).number);
    EXPECT_NUMBER(3, try_read(&disc, text("A"), 300).number);
    EXPECT_NUMBER(3, save_at_2000(&disc, "C", bytes(sheet, 1)));
    EXPECT_NUMBER(3, try_delete(&disc, text("A")));
    EXPECT_NUMBER(3, try_rename(&disc, text("A"), text("C")));
    EXPECT_NUMBER(3, try_protect(&disc, text("A"), 1));
    use_kind(stated.sectors, TANDOS_PLAIN);
    EXPECT_NUMBER(rule <= 5 ? 3 : 0, try_repair(&disc));
}

/* Of ten A is in 0/7 and 0/10. Of nine it is in 0/7 and 0/2 and so as good on
 * ten, but from 0/9 on the free chain goes astray. */
static void other_kinds(void)
{
    other_kind(TANDOS_TEN, 9, 5);
    other_kind(TANDOS_TEN, 36, 5);
    other_kind(TANDOS_NINE, 10, 6);
    other_kind(TANDOS_NINE, 40, 6);
}

/* Number, and what a read or list left in its buffer. */
static void compare_step(struct disc *ten, struct disc *nine, unsigned step)
{
    static uint8_t answer_of_ten[BUFFER_MAX];
    uint32_t number;

    use_kind(TANDOS_TEN, TANDOS_PLAIN);
    number = try_step(ten, step);
    memcpy(answer_of_ten, answer, sizeof answer);
    use_kind(TANDOS_NINE, TANDOS_PLAIN);
    EXPECT_NUMBER(number, try_step(nine, step));
    expect_bytes("answer of the run", answer_of_ten, answer, sizeof answer);
    EXPECT_NUMBER(0, try_check(nine).rule);
}

/* 9 tracks of ten are 90 sectors, as are 10 of nine, so that the same commands
 * get the same answers. BIG takes 48 of them, for the disc to get full. */
static void run_on_both(void)
{
    struct disc ten, nine;
    unsigned step;

    use_kind(TANDOS_TEN, TANDOS_PLAIN);
    make_blank(&ten, 9, "RUN      ");
    EXPECT_NUMBER(0, save_at_2000(&ten, "BIG", bytes(sheet, 12000)));
    use_kind(TANDOS_NINE, TANDOS_PLAIN);
    make_blank(&nine, 10, "RUN      ");
    EXPECT_NUMBER(0, save_at_2000(&nine, "BIG", bytes(sheet, 12000)));
    for (step = 0; step < 200; step++)
        compare_step(&ten, &nine, step);
}

void test_sectors(void)
{
    no_such_sectors();
    not_moved();
    lengths_taken(TANDOS_NINE);
    lengths_taken(TANDOS_TEN);
    lengths_of_both();
    other_kinds();
    run_on_both();
}
