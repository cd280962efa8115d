#include "seeds_cancels.h"

#include "seed.h"

/* Bytes of the directory sector behind its slots. */
#define BEHIND_SLOTS 243

/* The number of the last free sector of a blank disc's chain. */
static int last_free(int tracks)
{
    return seed_sectors * (tracks - 1) + last_passing() - 1;
}

/* The number of the directory's second sector where 16 files of one sector were
 * saved to a blank disc: 1/5, or of nine 2/1. */
static int second_directory(void)
{
    return seed_kind == STATED_NINE ? 18 : 14;
}

static void put_behind_slots(int directory)
{
    int byte;

    for (byte = BEHIND_SLOTS; byte < 256; byte++)
        put_byte(directory, byte, 0xB0 + byte - BEHIND_SLOTS);
}

/* Bytes that no command writes: all of 0/1 but its pointers and counts, which a
 * repair sets, and those behind the slots of 0/4. */
static void put_marks(void)
{
    put_built(1);
    put_write(0, 0, 0x35);
    put(WRITES_WHOLE, -1);
    put(COMMAND_SYSTEM, 2, 4, COMMAND_SYSTEM, 3, 0, -1);
    repair();
    put_byte(0, 255, 0xA0);
    put_behind_slots(SECTOR_DIRECTORY);
}

/* The track bytes of two end links, of the directory and of the free chain. */
static void put_tracks(int directory, int tracks)
{
    put_byte(directory, 0, 7);
    put_byte(last_free(tracks), 0, 9);
}

/* A blank disc of one track with all of these, and bytes behind the links of
 * its free sectors. */
static void begin_marked(void)
{
    int sector;

    begin(0);
    put_built(free_of(1));
    for (sector = 1; sector < seed_sectors; sector++)
        if (sector != SECTOR_DIRECTORY)
            put_write(0, sector, 2 * sector + 1);
    put(WRITES_WHOLE, -1);
    put_marks();
    put_tracks(SECTOR_DIRECTORY, 1);
    for (sector = 1; sector < seed_sectors; sector++)
        if (sector != SECTOR_DIRECTORY)
            put_byte(sector, 255, 0xC0 + sector);
}

/* Of every length that fits, up to all: saved, deleted, and saved once more,
 * where the bytes stand already. */
static void seed_lengths(void)
{
    int sectors;

    begin_marked();
    for (sectors = 1; sectors <= free_of(1); sectors++) {
        save_sectors(0, sectors, 0);
        delete(0);
    }
    save_sectors(0, free_of(1), 0);
    delete(0);
    end("cancel-lengths");
    begin_marked();
    save_sectors(0, free_of(1), 0);
    end("cancel-all");
    begin_marked();
    for (sectors = free_of(1); sectors > 0; sectors--)
        save_sectors(sectors, 1, -244);
    end("cancel-ones");
}

/* The only free sector, the end of the chain, with any track byte. */
static void seed_only(void)
{
    begin_marked();
    save_sectors(0, free_of(1) - 1, 0);
    save(1, SHEET_245);
    delete(1);
    put_byte(last_free(1), 0, 255);
    save(1, SHEET_1);
    delete(1);
    put_byte(last_free(1), 0, 1);
    delete(0);
    save_sectors(2, free_of(1), -252);
    end("cancel-only");
}

/* A free chain out of order, on three tracks, to which files of one sector and
 * more were given back. */
static void seed_scattered(void)
{
    begin(2);
    put_marks();
    put_tracks(SECTOR_DIRECTORY, 3);
    save_many(0, 6);
    save(6, SHEET_499);
    save_many(7, 5);
    delete(9);
    delete(6);
    delete(2);
    delete(4);
    save(20, SHEET_752);
    save(21, SHEET_1763);
    delete(20);
    delete(21);
    save_sectors(22, free_of(3) - 8, 0);
    end("cancel-scattered");
}

/* 17 files, in a directory of two sectors. */
static void begin_grown(void)
{
    begin(2);
    save_many(0, 17);
    put_marks();
    put_behind_slots(second_directory());
    put_tracks(second_directory(), 3);
}

/* The second directory sector's next slot; one that was cleared in the first,
 * and then the one after it; the last one of the second. */
static void seed_slots(void)
{
    begin_grown();
    save(40, SHEET_1);
    delete(3);
    delete(7);
    save(41, SHEET_246);
    save(42, SHEET_1);
    delete(40);
    save(43, SHEET_499);
    end("cancel-slots");
}

/* Each kind of third name: the first, another, the second, another file's and
 * none; with and without an extension. Names are N0.., from 64 on with one
 * letter and from 128 on with two. */
static void seed_renames(void)
{
    begin_marked();
    save(0, SHEET_1);
    save(65, SHEET_246);
    rename_twice(0, 10, 0);
    rename_twice(10, 130, 74);
    rename_twice(130, 1, 130);
    rename_twice(1, 2, 2);
    rename_twice(2, 3, 65);
    rename_twice(3, 4, NAME_NULL);
    rename_twice(65, 140, 66);
    rename_twice(140, 5, 65);
    protect(4, 1);
    rename_twice(4, 6, 7);
    rename_twice(5, 8, 4);
    protect(4, 0);
    rename_twice(4, 6, 8);
    /* A slot is free before the file's. */
    delete(6);
    rename_twice(8, 9, 70);
    rename_twice(9, 6, 9);
    end("cancel-renames");
}

/* Files in both sectors of a directory, and buffers that are longer. */
static void seed_renames_grown(void)
{
    begin_grown();
    rename_twice(0, 70, 130);
    rename_twice(14, 71, 14);
    rename_twice(15, 0, 131);
    rename_twice(16, 15, 16);
    rename_lent(70, 72, BUFFER_LARGEST);
    rename_lent(15, 70, BUFFER_LONGER);
    put(14, -1);
    rename_lent(70, 15, BUFFER_ONE_LESS);
    end("cancel-renames-grown");
}

void write_cancel_seeds(void)
{
    seed_lengths();
    seed_only();
    seed_scattered();
    seed_slots();
    seed_renames();
    seed_renames_grown();
}
