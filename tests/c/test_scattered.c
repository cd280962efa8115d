/* Commands that cancel, on discs of any bytes: some thousands of saves and
 * deletes, and of renames in a row. */
#include <string.h>

#include "cancels.h"
#include "report.h"
#include "scattered.h"
#include "tests.h"

/* The names of entries, as many as a scattered disc has at most, and whether a
 * slot is free. */
struct slots {
    unsigned count;
    const uint8_t *names[75];
    int is_one_free;
};

static void take_slots(struct slots *slots, const struct disc *disc)
{
    struct place directory = pair_at(disc->bytes + 0x12);
    unsigned i;

    slots->count = 0;
    slots->is_one_free = 0;
    for (; directory.sector != 0; directory = link_of(disc, directory))
        for (i = 0; i < 15; i++) {
            const uint8_t *slot = sector_of(disc, directory) + 3 + 16 * i;

            if (slot[0] == 0)
                slots->is_one_free = 1;
            else
                slots->names[slots->count++] = slot;
        }
}

static struct place end_of_free(const struct disc *disc)
{
    struct place here = pair_at(disc->bytes + 0x10);

    while (link_of(disc, here).sector != 0)
        here = link_of(disc, here);
    return here;
}

/* A module of so many sectors, 260 at most, with any numbers. */
static struct command any_save(unsigned sectors)
{
    unsigned least = sectors == 1 ? 1 : 245 + 253 * (sectors - 2) + 1;
    unsigned length = least + below(sectors == 1 ? 245 : 253);
    unsigned start;

    if (length > 65536)
        length = 65536;
    start = below(65536 - length + 1);
    return a_save(text("NEW"), below(8), (uint16_t)start,
                  (uint16_t)below(65536), bytes(sheet, length));
}

/* Both commands with buffers that just hold their lists. 0 if one of them is
 * refused. */
static int save_and_delete(struct disc *disc, unsigned taken)
{
    struct command save = any_save(taken), delete = a_delete(text("NEW"));
    uint32_t saved =
        try_command(disc, &save, WRITE_SIZE * (taken + 2) + 1).number;
    uint32_t deleted =
        try_command(disc, &delete, DELETE_WRITES_SIZE).number;

    return saved == TANDOS_DONE && deleted == TANDOS_DONE;
}

/* A disc with a free slot and at least two free sectors. Gives their number. */
static unsigned make_open(struct disc *disc, unsigned tracks)
{
    struct slots slots;
    unsigned free_count;

    do {
        free_count = make_scattered_sound(disc, tracks, 2 + below(3));
        take_slots(&slots, disc);
    } while (!slots.is_one_free);
    return free_count;
}

/* What occurred: pairs that were accepted, those that took all that was free,
 * and those after which the track byte of its end differs. */
struct pairs {
    unsigned accepted, all, cleared;
};

static void pair(struct pairs *pairs, unsigned tracks, int is_all)
{
    struct disc before, disc;
    unsigned free_count = make_open(&before, tracks);
    unsigned taken = is_all ? free_count : 1 + below(free_count - 1);
    struct place end = end_of_free(&before);
    unsigned track = *at(&before, end, 0);

    if (taken > 260)
        taken = 260;
    disc = before;
    pairs->accepted += (unsigned)save_and_delete(&disc, taken);
    pairs->all += taken == free_count;
    pairs->cleared += *at(&disc, end, 0) != track;
    EXPECT_NUMBER(taken == free_count ? 0 : track, *at(&disc, end, 0));
    put_back(&disc, &before, taken);
    expect_disc("scattered disc, saved and deleted", &before, &disc);
}

/* Every third save takes all that is free. Few of the ends have the track 0. */
static void saves_and_deletes(unsigned tracks, unsigned discs)
{
    struct pairs pairs = { 0, 0, 0 };
    unsigned i;

    begin_random(1000 + tracks);
    for (i = 0; i < discs; i++)
        pair(&pairs, tracks, i % 3 == 0);
    EXPECT_NUMBER(discs, pairs.accepted);
    EXPECT_NUMBER((discs + 2) / 3, pairs.all);
    EXPECT_NUMBER(1, pairs.cleared <= pairs.all);
    EXPECT_NUMBER(1, 10 * pairs.cleared >= 9 * pairs.all);
}

/* The longest files, which do not reach the end. */
static void longest_files(unsigned discs)
{
    struct pairs pairs = { 0, 0, 0 };
    unsigned i;

    begin_random(1080);
    for (i = 0; i < discs; i++)
        pair(&pairs, 80, 1);
    EXPECT_NUMBER(discs, pairs.accepted);
    EXPECT_NUMBER(0, pairs.all);
    EXPECT_NUMBER(0, pairs.cleared);
}

/* The typed form of a scattered disc's name, which is F, three digits and X. */
static void type_name(char *typed, const uint8_t *stored)
{
    memcpy(typed, stored, 4);
    memcpy(typed + 4, ".X", 3);
}

static const char *any_name(void)
{
    static const char *const names[] = {
        "A", "A.B", "AB.C", "SIXCHR", "SIXCHR.EXT", "F000", "9.9", "Z.ZZZ"
    };

    return names[below(sizeof names / sizeof names[0])];
}

/* A rename that is followed by one to another file's name, or to its own: the
 * number of the second. */
static uint32_t rename_to_standing(const struct disc *start,
                                   const char *const *names)
{
    struct disc disc = *start;

    EXPECT_NUMBER(0, rename_lent(&disc, names[0], names[1],
                                 ENTRY_WRITES_SIZE));
    return rename_lent(&disc, names[1], names[2], ENTRY_WRITES_SIZE);
}

/* What occurred, by the last of three names: the first one again, another, the
 * second one, and that of another file. The last two are refused with 5. */
struct triples {
    unsigned back, on, itself, taken;
};

static void triple(struct triples *triples, const struct disc *start,
                   const struct slots *slots)
{
    unsigned which = below(slots->count);
    unsigned other = (which + 1 + below(slots->count - 1)) % slots->count;
    char first[7], standing[7];
    const char *names[3];

    type_name(first, slots->names[which]);
    type_name(standing, slots->names[other]);
    names[0] = first;
    names[1] = any_name();
    names[2] = first;
    triples->back += (unsigned)expect_joined(start, names, WRITES_ROOM);
    do
        names[2] = any_name();
    while (strcmp(names[1], names[2]) == 0);
    triples->on += (unsigned)expect_joined(start, names,
                                           ENTRY_WRITES_SIZE + below(20));
    names[2] = names[1];
    triples->itself += rename_to_standing(start, names) == TANDOS_TAKEN;
    names[2] = standing;
    triples->taken += rename_to_standing(start, names) == TANDOS_TAKEN;
}

static void renames(unsigned tracks, unsigned discs)
{
    struct triples triples = { 0, 0, 0, 0 };
    struct slots slots;
    struct disc disc;
    unsigned i;

    begin_random(2000 + tracks);
    for (i = 0; i < discs; i++) {
        do {
            make_scattered_sound(&disc, tracks, below(3));
            take_slots(&slots, &disc);
        } while (slots.count < 2);
        triple(&triples, &disc, &slots);
    }
    EXPECT_NUMBER(discs, triples.back);
    EXPECT_NUMBER(discs, triples.on);
    EXPECT_NUMBER(discs, triples.itself);
    EXPECT_NUMBER(discs, triples.taken);
}

void test_scattered(void)
{
    saves_and_deletes(1, 450);
    saves_and_deletes(2, 450);
    saves_and_deletes(9, 150);
    longest_files(6);
    renames(1, 200);
    renames(2, 200);
    renames(9, 100);
    renames(80, 4);
}
