/*
 * Writes the first inputs of the fuzzer, one file each, to a folder. Usage:
 * seeds FOLDER. Each stands at a boundary of the rules, so that the fuzzer
 * need not find the way there.
 */
#include <stdio.h>
#include <stdlib.h>
#include <string.h>

#include "seed.h"
#include "seeds_cancels.h"
#include "seeds_repairs.h"
#include "seeds_sheets.h"
#include "seeds_stated.h"
#include "seeds_writes.h"

static void seed_commands(void)
{
    begin(0);
    save(0, SHEET_246);
    save(1, SHEET_1);
    put(COMMAND_LIST, BUFFER_EXACT, COMMAND_LIST, BUFFER_ONE_LESS, -1);
    put(COMMAND_READ, 0, BUFFER_EXACT, COMMAND_READ, 0, BUFFER_ONE_LESS, -1);
    put(COMMAND_READ, 1, BUFFER_LARGEST, COMMAND_READ, 9, BUFFER_EMPTY, -1);
    protect(0, 1);
    delete(0);
    rename_to(0, 2);
    protect(0, 0);
    rename_to(0, 2);
    delete(2);
    rename_to(1, 1);
    delete(7);
    put(COMMAND_CHECK, COMMAND_VIEW, 0, 1, COMMAND_VIEW, 1, 1, -1);
    put(COMMAND_VIEW, 0, 0, COMMAND_VIEW, NUMBER_WIDE, 0, 1, 0, 0, 1, -1);
    put(COMMAND_TEXT, 14, COMMAND_TEXT, 15, -1);
    put(COMMAND_BLANK, NAME_TYPED + 2, 'A', '9', COMMAND_BLANK, NAME_NULL, -1);
    end("commands");
}

static void seed_refusals(void)
{
    begin(0);
    save(0, SHEET_1);
    save(0, SHEET_1);
    put(COMMAND_READ, NAME_NULL, BUFFER_EMPTY, COMMAND_READ, 1, 0, -1);
    rename_to(NAME_NULL, 1);
    rename_to(0, NAME_NULL);
    rename_to(1, 2);
    rename_to(1, 0);
    protect(NAME_NULL, 1);
    protect(1, 1);
    end("refusals");
}

static void seed_full(void)
{
    begin(0);
    save_sectors(0, free_of(1), 1);
    save_sectors(0, free_of(1), 0);
    save(1, SHEET_1);
    delete(0);
    save(1, SHEET_1);
    save(2, SHEET_752);
    end("full");
}

/* Where the module alone would fit, and the directory has to grow. */
static void seed_no_room_for_directory(void)
{
    begin(2);
    save_many(0, 14);
    save_sectors(14, free_of(3) - 14 - 1, 0);
    save(15, SHEET_1);
    delete(14);
    save_sectors(15, free_of(3) - 14 - 2, 0);
    save(16, SHEET_1);
    end("directory-no-room");
}

static void seed_directory(void)
{
    begin(2);
    save_many(0, 17);
    delete(3);
    save(40, SHEET_246);
    save(41, SHEET_1);
    end("directory");
    /* One free sector becomes the directory's second: the last save is one too
     * many. */
    begin(2);
    save_many(0, 17);
    save_many(17, free_of(3) - 17);
    delete(0);
    delete(16);
    save(50, SHEET_246);
    save(51, SHEET_245);
    end("directory-full");
    begin(3);
    save_many(0, 19);
    save_many(19, 17);
    delete(31);
    rename_to(30, 31);
    put(COMMAND_LIST, 0, -1);
    end("directory-three");
    /* 225 is 16 tracks. */
    begin(225);
    save_many(0, 19);
    save_many(19, 19);
    save_many(38, 19);
    save_many(57, 19);
    delete(14);
    delete(74);
    put(COMMAND_LIST, 0, -1);
    save(150, SHEET_1);
    end("directory-many");
}

static void seed_large(void)
{
    /* 224 and 239 are 65 and 50 tracks. */
    begin(224);
    put(COMMAND_SAVE, 0, 7, 0, 0, 0xFF, 0xFF, SHEET_65536, 1, BUFFER_EXACT, -1);
    put(COMMAND_SAVE, 1, 7, 1, 0, 0xFF, 0xFF, SHEET_65535, 1, BUFFER_EXACT, -1);
    put(COMMAND_SAVE, 2, 7, 1, 0, 0xFF, 0xFF, SHEET_65536, 1, BUFFER_EXACT, -1);
    put(COMMAND_SAVE, 3, 7, 0, 0, 0, 0, SHEET_65537, 1, BUFFER_EXACT, -1);
    put(COMMAND_READ, 0, BUFFER_ONE_LESS, -1);
    delete(0);
    end("large");
    begin(239);
    save(0, SHEET_4293);
    put(COMMAND_SAVE, 1, 8, 0, 0, 0, 0, SHEET_1, 1, BUFFER_EXACT, -1);
    put(COMMAND_SAVE, 1, NUMBER_WIDE, 0, 1, 0, 0, 0, 0, 0, 0, SHEET_1, 1, -1);
    put(BUFFER_EXACT, -1);
    put(COMMAND_SAVE, 1, 0, 0, 0, 0, 0, SHEET_0, 1, BUFFER_EXACT, -1);
    delete(0);
    end("pages");
}

/* The most tracks, the last of them far behind byte 65,535; then one more. */
static void seed_most_tracks(void)
{
    begin(0);
    resize(80 * seed_sectors, 0);
    put(COMMAND_BLANK, 0, -1);
    save(0, SHEET_1);
    put(COMMAND_VIEW, 79, seed_sectors, COMMAND_VIEW, 79, 2, -1);
    put(COMMAND_VIEW, 80, 1, COMMAND_VIEW, 79, seed_sectors + 1, -1);
    resize(81 * seed_sectors, 0);
    put(COMMAND_CHECK, -1);
    put_calls(0);
    end("most-tracks");
}

/* Numbers that are right once they are cut to 8 or 16 bits. */
static void seed_wide_numbers(void)
{
    begin(0);
    save(0, SHEET_1);
    put(COMMAND_PROTECT, 0, NUMBER_WIDE, 0, 1, 0, 0, BUFFER_EXACT, -1);
    delete(0);
    put(COMMAND_PROTECT, 0, NUMBER_WIDE, 0, 0, 1, 0, BUFFER_EXACT, -1);
    delete(0);
    put(COMMAND_VIEW, NUMBER_WIDE, 0, 0, 1, 0, 1, -1);
    put(COMMAND_VIEW, 0, NUMBER_WIDE, seed_sectors, 1, 0, 0, -1);
    put(COMMAND_VIEW, 0, NUMBER_WIDE, 1, 0, 1, 0, -1);
    put(COMMAND_TEXT, NUMBER_WIDE, 1, 1, 0, 0, -1);
    end("wide-numbers");
}

static void put_typed(int command, const char *name)
{
    put(command, NAME_TYPED + (int)strlen(name), -1);
    for (; *name != '\0'; name++)
        put(*name, -1);
}

static void seed_names(void)
{
    static const char *const names[] = {
        "SEVENCH", "X.", ".A", "", "ABC", "A.BC", "A.BCDE", "A..B", "A.B.C",
        "x", "A B", "SIXCHR.EXT", "NINECHARS", "TENCHARS10"
    };
    size_t i;

    begin(0);
    for (i = 0; i < sizeof names / sizeof names[0]; i++) {
        put_typed(COMMAND_DELETE, names[i]);
        put(BUFFER_EXACT, -1);
        put_typed(COMMAND_SAVE, names[i]);
        put(0, 0, 0, 0, 0, SHEET_1, 5, BUFFER_EXACT, -1);
        put_typed(COMMAND_BLANK, names[i]);
    }
    end("names");
}

/* One disc for each rule of the check: two files, then a change. */
static void seed_rules(void)
{
    static const int changes[8][5] = {
        { COMMAND_SYSTEM, 2, 0, COMMAND_CHECK, -1 },
        { COMMAND_LINK, SECTOR_DIRECTORY, 0, 0, 4 },
        { COMMAND_BYTE, SECTOR_DIRECTORY, 0, 2, 1 },
        { COMMAND_BYTE, SECTOR_DIRECTORY, 0, 3 + 16 + 1, '0' },
        { COMMAND_LINK, SECTOR_FIRST_FREE, 0, 0, 3 },
        { COMMAND_SYSTEM, 4, 1, COMMAND_CHECK, -1 },
        { COMMAND_SYSTEM, 6, 1, COMMAND_CHECK, -1 },
        { COMMAND_SYSTEM, 0, 0, COMMAND_SYSTEM, 4 }
    };
    char name[16];
    int rule;

    for (rule = 1; rule <= 8; rule++) {
        const int *change = changes[rule - 1];

        begin(0);
        save(0, SHEET_1);
        save(1, SHEET_246);
        put(change[0], change[1], change[2], change[3], change[4], -1);
        /* The eighth goes on: the free count has to be 0 as well. */
        put(rule == 8 ? 0 : COMMAND_CHECK, COMMAND_CHECK, -1);
        save(2, SHEET_1);
        put(COMMAND_READ, 0, BUFFER_EXACT, COMMAND_LIST, 0, -1);
        delete(0);
        rename_to(0, 5);
        protect(0, 1);
        repair();
        snprintf(name, sizeof name, "rule-%d", rule);
        end(name);
    }
}

static void seed_unusual(void)
{
    /* The entry and the used count say one sector, the chain has two. */
    begin(0);
    save(0, SHEET_246);
    put(COMMAND_BYTE, SECTOR_DIRECTORY, 0, 3 + 9, 1, COMMAND_SYSTEM, 6, 1, -1);
    put(COMMAND_READ, 0, BUFFER_EXACT, -1);
    delete(0);
    end("chain-goes-on");
    begin(0);
    save(0, SHEET_246);
    put(COMMAND_BYTE, SECTOR_FIRST_FREE, 0, 2, 0xFE, -1);
    put(COMMAND_READ, 0, BUFFER_EXACT, -1);
    delete(0);
    end("not-plain");
    begin_empty();
    put(START_BYTES, seed_kind, 0x00, seed_sectors, 0x00, -1);
    put(COMMAND_CHECK, COMMAND_LIST, BUFFER_LARGEST, -1);
    put(COMMAND_BLANK, 0, COMMAND_READ, 0, 0, -1);
    delete(0);
    end("bytes");
}

/* Lengths that are refused, among them those of a track with one sector more or
 * less, which for one of the two is the other number's. */
static void seed_sizes(void)
{
    int more;

    begin(0);
    for (more = -1; more <= 1; more += 2) {
        resize(seed_sectors + more, 0);
        put_calls(0);
        resize(seed_sectors, more);
        put_calls(0);
    }
    resize(0, 0);
    put_calls(0);
    end("sizes");
}

/* In the seeds that follow, the first sector of a track is named as one more of
 * the track before, so that only the number of sectors keeps it off the disc.
 * First in a link. */
static void put_above_link(int sector, int track)
{
    put(COMMAND_LINK, sector, 0, track, seed_sectors + 1, -1);
}

/* In the second entry, where its first or its last sector stands. */
static void put_above_pointer(int byte)
{
    int at = 3 + 16 + byte;

    put(COMMAND_BYTE, SECTOR_DIRECTORY, 0, at, seed_sectors + 1, -1);
    put(COMMAND_BYTE, SECTOR_DIRECTORY, 0, at + 1, 0, -1);
}

static void end_above(const char *name)
{
    put(COMMAND_CHECK, -1);
    put_calls(0);
    end(name);
}

static void seed_above(void)
{
    begin(1);
    put_above_link(last_passing() - 1, 0);
    end_above("above-free-link");
    begin(1);
    save_sectors(0, seed_sectors - 1, 0);
    put_above_link(last_passing() - 1, 0);
    end_above("above-file-link");
    begin(1);
    save_sectors(0, free_of(1), 0);
    put(COMMAND_SYSTEM, 0, seed_sectors + 1, COMMAND_SYSTEM, 1, 0, -1);
    end_above("above-free");
    /* 16 files: the directory's second sector is the first of track 2. */
    begin(2);
    save_sectors(0, free_of(2) - 15, 0);
    save_many(1, 15);
    put_above_link(SECTOR_DIRECTORY, 1);
    end_above("above-directory");
}

static void seed_above_entry(void)
{
    begin(1);
    save_sectors(0, free_of(1), 0);
    save(1, SHEET_1);
    put_above_pointer(11);
    end_above("above-first");
    begin(1);
    save_sectors(0, free_of(1), 0);
    save(1, SHEET_1);
    put_above_pointer(13);
    end_above("above-last");
}

/* Every sector of two tracks shown, so that each has to be in its place. */
static void seed_views(void)
{
    int track, sector;

    begin(1);
    save(0, SHEET_2016);
    save(1, SHEET_2016);
    for (track = 0; track < 2; track++)
        for (sector = 1; sector <= seed_sectors + 1; sector++)
            put(COMMAND_VIEW, track, sector, -1);
    end("views");
}

static void write_seeds(void)
{
    seed_commands();
    seed_refusals();
    seed_full();
    seed_directory();
    seed_no_room_for_directory();
    seed_large();
    seed_most_tracks();
    seed_wide_numbers();
    seed_names();
    seed_rules();
    seed_unusual();
    seed_sizes();
    seed_above();
    seed_above_entry();
    seed_views();
    write_writes_seeds();
    write_repair_seeds();
    write_cancel_seeds();
    write_stated_seeds();
}

int main(int argc, char **argv)
{
    int kind;

    if (argc != 2) {
        fputs("usage: seeds FOLDER\n", stderr);
        return EXIT_FAILURE;
    }
    seed_folder = argv[1];
    for (kind = 0; kind < STATED_KINDS; kind++) {
        choose_kind((enum stated_kind)kind);
        write_seeds();
    }
    write_wrong_runs();
    write_sheet_seeds();
    return EXIT_SUCCESS;
}
