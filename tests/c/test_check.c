/* The check: each rule broken in several ways, and what breaks none. */
#include <stdio.h>
#include <string.h>

#include "calls.h"
#include "damages.h"
#include "report.h"
#include "tests.h"

static void damaged_discs(void)
{
    struct disc disc;
    size_t i;

    for (i = 0; i < damage_count; i++) {
        const struct damage *damage = &damages[i];
        char what[40];

        make_damaged(&disc, damage);
        sprintf(what, "damages[%u]", (unsigned)i);
        expect_number(__FILE__, __LINE__, what, damage->rule,
                      try_check(&disc).rule);
        EXPECT_NUMBER(0, try_check(&disc).number);
        EXPECT_NUMBER(damage->rule == 0 ? 0 : 3, try_list(&disc, 41).number);
    }
}

/* Rules over two directory sectors. */
static void second_directory_sector(void)
{
    struct place directory = free_place(16);
    struct disc good, disc;

    make_sixteen(&good);
    EXPECT_NUMBER(0, try_check(&good).rule);
    disc = good;
    put_link(&disc, directory, place(0, 4));
    EXPECT_NUMBER(2, try_check(&disc).rule);
    disc = good;
    *at(&disc, directory, 2) = 0;
    EXPECT_NUMBER(3, try_check(&disc).rule);
    disc = good;
    *at(&disc, directory, 5) = '4';
    EXPECT_NUMBER(4, try_check(&disc).rule);
    disc = good;
    put_link(&disc, free_place(15), directory);
    EXPECT_NUMBER(5, try_check(&disc).rule);
    disc = good;
    put_link(&disc, free_place(17), directory);
    EXPECT_NUMBER(6, try_check(&disc).rule);
}

/* A full disc whose free pointer is 'none' with a track byte of 5. */
static void no_free_chain(void)
{
    struct disc disc;

    make_full(&disc);
    put_free_pointer(&disc, place(5, 0));
    EXPECT_NUMBER(0, try_check(&disc).rule);
    put_free_pointer(&disc, place(0, 1));
    EXPECT_NUMBER(6, try_check(&disc).rule);
}

/*
 * The sectors of two tracks but 0/1, each in a part: the first two are the
 * directory's, the next two those of the file F, the rest is free.
 */
#define PARTS_MAX 19

/* In the order of their numbers, but for one that gets the part given. */
static void deal_parts(struct place *parts, struct place chosen, unsigned part)
{
    unsigned number, dealt = 0;

    for (number = 1; number < 2 * disc_sectors; number++) {
        struct place next =
            place(number / disc_sectors, number % disc_sectors + 1);

        if (dealt == part)
            parts[dealt++] = chosen;
        if (next.track != chosen.track || next.sector != chosen.sector)
            parts[dealt++] = next;
    }
}

/* The disc on which these places are linked by these names. */
static void make_parts(struct disc *disc, const struct place *places,
                       const struct place *names)
{
    unsigned count = 2 * disc_sectors - 1;
    unsigned i;

    make_blank(disc, 2, "PARTS    ");
    disc->bytes[0x12] = (uint8_t)names[0].sector;
    disc->bytes[0x13] = (uint8_t)names[0].track;
    for (i = 0; i < count; i++) {
        int is_end = i == 1 || i == 3 || i == count - 1;

        put_link(disc, places[i], is_end ? place(0, 0) : names[i + 1]);
    }
    put_entry(disc, places[0], 0, "F        ", 2, names[2], names[3]);
    put_free_pointer(disc, names[4]);
    put_counts(disc, count - 4, 2);
}

/* The last sector of a track is on the disc, whatever its part. The one after
 * it is not, though the number of 0/10 of nine, or of 0/11 of ten, would be
 * that of 1/1; which rule is broken goes by the part. */
static void end_of_track(unsigned part, unsigned rule)
{
    struct place places[PARTS_MAX], names[PARTS_MAX];
    struct disc disc;

    deal_parts(places, place(0, disc_sectors), part);
    make_parts(&disc, places, places);
    EXPECT_NUMBER(0, try_check(&disc).rule);
    deal_parts(places, place(1, 1), part);
    make_parts(&disc, places, places);
    EXPECT_NUMBER(0, try_check(&disc).rule);
    memcpy(names, places, sizeof names);
    names[part] = place(0, disc_sectors + 1);
    make_parts(&disc, places, names);
    EXPECT_NUMBER(rule, try_check(&disc).rule);
    EXPECT_NUMBER(3, try_list(&disc, 9752).number);
}

static void ends_of_tracks(void)
{
    static const unsigned rules[] = { 1, 2, 5, 5, 6, 6 };
    unsigned part;

    for (part = 0; part < 6; part++)
        end_of_track(part, rules[part]);
}

void test_check(void)
{
    damaged_discs();
    second_directory_sector();
    no_free_chain();
    ends_of_tracks();
}
