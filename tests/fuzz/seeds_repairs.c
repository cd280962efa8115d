#include "seeds_repairs.h"

#include <stdio.h>

#include "seed.h"

#define COUNT(array) (sizeof(array) / sizeof(array)[0])

/* Bytes of the system sector as COMMAND_SYSTEM numbers them. */
enum system_byte {
    FREE_SECTOR, FREE_TRACK, DIRECTORY_SECTOR, DIRECTORY_TRACK, FREE_LOW,
    FREE_HIGH, USED_LOW, USED_HIGH
};

static void put_system(enum system_byte byte, int value)
{
    put(COMMAND_SYSTEM, (int)byte, value, -1);
}

static void put_link(int sector, int track, int to)
{
    put(COMMAND_LINK, sector, 0, track, to, -1);
}

/* What a disc shows after a repair, and that its free chain can be used. */
static void repair_and_use(void)
{
    repair();
    put(COMMAND_LIST, BUFFER_EXACT, -1);
    save(60, SHEET_246);
    delete(60);
    repair();
}

/* The card is pulled after so many writes of the command that follows. */
static void cut(int writes, enum cut_command command)
{
    put(COMMAND_CUT, writes & 0xFF, writes >> 8, (int)command, -1);
}

static void cut_save(int writes, int name, enum sheet sheet)
{
    cut(writes, CUT_SAVE);
    put(name, 1, 0x00, 0x00, 0x00, 0x20, (int)sheet, name, BUFFER_EXACT, -1);
}

static void cut_delete(int writes, int name)
{
    cut(writes, CUT_DELETE);
    put(name, BUFFER_EXACT, -1);
}

static void cut_rename(int writes, int old_name, int new_name)
{
    cut(writes, CUT_RENAME);
    put_renamed(old_name, new_name, BUFFER_EXACT);
}

static void cut_protect(int writes, int name, int on)
{
    cut(writes, CUT_PROTECT);
    put(name, on, BUFFER_EXACT, -1);
}

/* Sound discs: nothing to do, then another order of the free chain. */
static void seed_sound(void)
{
    begin(1);
    repair();
    save(0, SHEET_246);
    save(1, SHEET_1);
    repair();
    save(2, SHEET_499);
    delete(0);
    repair();
    delete(2);
    repair_and_use();
    end("repair-sound");
    /* Every other file is taken out, from the last to the first. */
    begin(2);
    save_many(0, 19);
    delete(17);
    delete(13);
    delete(7);
    delete(12);
    delete(1);
    repair_and_use();
    delete(0);
    delete(18);
    delete(2);
    put_system(FREE_LOW, 0);
    repair_and_use();
    end("repair-scattered");
}

/* No free sector, one, and two that follow each other over a taken track. */
static void seed_few(void)
{
    begin(1);
    save_sectors(0, 2 * seed_sectors - 2, 0);
    repair();
    put_system(FREE_TRACK, 9);
    repair();
    put_system(FREE_SECTOR, 5);
    repair();
    put_system(FREE_LOW, 1);
    repair();
    put_system(USED_LOW, 1);
    repair();
    delete(0);
    repair();
    end("repair-none");
    begin(1);
    save_sectors(0, 2 * seed_sectors - 3, 0);
    repair();
    put_system(FREE_SECTOR, 0);
    repair();
    save(1, SHEET_1);
    put_system(FREE_LOW, 2);
    repair();
    delete(1);
    put_system(FREE_SECTOR, 0);
    put_system(FREE_LOW, 0);
    repair();
    end("repair-one");
    begin(2);
    save(0, SHEET_1);
    save_sectors(1, 2 * seed_sectors - 3, 0);
    delete(0);
    put_system(FREE_LOW, 0);
    repair_and_use();
    end("repair-gap");
}

/* Free pointers and links that break rule 6, each mended: 0/1, the directory, a
 * file, off the disc, a circle; then wrong counts. */
static void seed_free(void)
{
    static const int pointers[][2] = {
        { 1, 0 }, { 4, 0 }, { 7, 0 }, { 0, 0 }, { 11, 0 }, { 255, 0 },
        { 7, 1 }, { 1, 255 }, { 0, 255 }, { 2, 0 }
    };
    static const int links[][2] = {
        { 0, 1 }, { 0, 4 }, { 0, 7 }, { 0, 10 }, { 0, 0 }, { 5, 0 }, { 1, 1 },
        { 255, 255 }
    };
    size_t i;

    begin(0);
    save(0, SHEET_1);
    for (i = 0; i < COUNT(pointers); i++) {
        put_system(FREE_SECTOR, pointers[i][0]);
        put_system(FREE_TRACK, pointers[i][1]);
        repair();
    }
    end("repair-pointers");
    begin(0);
    save(0, SHEET_1);
    for (i = 0; i < COUNT(links); i++) {
        /* 0/3 and 0/2, in the middle of the chain and near its end. */
        put_link(2, links[i][0], links[i][1]);
        repair();
        put_link(1, links[i][0], links[i][1]);
        repair();
    }
    end("repair-links");
}

static void seed_counts(void)
{
    static const int values[] = { 0, 1, 255 };
    size_t i;
    int byte;

    begin(0);
    save(0, SHEET_246);
    for (byte = FREE_LOW; byte <= USED_HIGH; byte++)
        for (i = 0; i < COUNT(values); i++) {
            put_system((enum system_byte)byte, values[i]);
            repair();
        }
    end("repair-counts");
    /* The chain has no end of its own any more, and its count fits: rule 8. */
    begin(0);
    save(0, SHEET_246);
    put_system(FREE_SECTOR, 0);
    put_system(FREE_LOW, 0);
    repair_and_use();
    put_link(8, 0, 0);
    put_system(FREE_LOW, 3);
    repair_and_use();
    end("repair-unmet");
}

/* Both counts above 255, on the most tracks; a directory of three sectors. */
static void seed_large(void)
{
    begin(0);
    resize(80 * seed_sectors, 0);
    put(COMMAND_BLANK, 0, -1);
    put(COMMAND_SAVE, 0, 0, 0, 0, 0, 0, SHEET_65536, 1, BUFFER_EXACT, -1);
    put_system(FREE_HIGH, 0);
    put_system(USED_HIGH, 0);
    repair();
    save(1, SHEET_4293);
    delete(0);
    put_system(FREE_SECTOR, 0);
    repair();
    put(COMMAND_LIST, BUFFER_EXACT, -1);
    end("repair-large");
    begin(3);
    save_many(0, 19);
    save_many(19, 13);
    delete(31);
    delete(15);
    put_system(FREE_SECTOR, 4);
    repair_and_use();
    delete(30);
    delete(14);
    put_system(USED_LOW, 0);
    repair_and_use();
    end("repair-directory");
}

/* The directory's first sector isn't 0/4, which is free then. */
static void seed_elsewhere(void)
{
    begin(0);
    put_system(DIRECTORY_SECTOR, 7);
    put_link(SECTOR_FIRST_FREE, 0, 0);
    repair();
    save(0, SHEET_246);
    cut_save(1, 1, SHEET_1);
    repair();
    delete(0);
    put_system(FREE_LOW, 0);
    repair_and_use();
    end("repair-elsewhere");
}

/* Bytes that a repair keeps: in the system sector, behind the slots and the
 * links, the track of an end link of the directory and of a file, and an entry
 * whose file is not plain. And one that it clears: the track of the old end of
 * the free chain. */
static void seed_kept(void)
{
    static const int bytes[] = {
        0x00, 0x01, 0x0F, 0x18, 0x20, 0x21, 0x3F, 0x40, 0x60, 0xFF
    };
    size_t i;

    begin(0);
    save(0, SHEET_246);
    protect(0, 1);
    for (i = 0; i < COUNT(bytes); i++)
        put_byte(0, bytes[i], 0xA0 + (int)i);
    put_byte(SECTOR_DIRECTORY, 243, 0xB0);
    put_byte(SECTOR_DIRECTORY, 255, 0xB1);
    put_byte(SECTOR_DIRECTORY, 0, 7);
    put_byte(last_passing() - 1, 0, 7);
    repair();
    for (i = 2; i < 256; i += 127) {
        put_byte(1, (int)i, 0xC0);
        put_byte(2, (int)i, 0xC1);
        put_byte(SECTOR_FIRST_FREE, (int)i, 0xC2);
    }
    put_system(FREE_LOW, 9);
    repair();
    put(COMMAND_LINK, seed_kind == STATED_NINE ? 1 : 9, 0, 9, 0, -1);
    repair();
    end("repair-kept");
}

/* Refused: for each of rules 1 to 5 a change of a disc with two files, with a
 * sound free chain and with one that is broken as well. */
static void seed_refused(int is_free_broken)
{
    static const int changes[][4] = {
        { COMMAND_SYSTEM, 2, 0, -1 }, { COMMAND_SYSTEM, 2, 1, -1 },
        { COMMAND_SYSTEM, 2, 11, -1 }, { COMMAND_SYSTEM, 3, 1, -1 },
        { COMMAND_SYSTEM, 3, 255, -1 }
    };
    static const int links[][3] = {
        { SECTOR_DIRECTORY, 0, 4 }, { SECTOR_DIRECTORY, 0, 1 },
        { SECTOR_DIRECTORY, 0, 11 }, { SECTOR_DIRECTORY, 1, 1 },
        { SECTOR_DIRECTORY, 0, 7 }, { SECTOR_FIRST_FREE, 0, 7 },
        { SECTOR_FIRST_FREE, 0, 1 }, { SECTOR_FIRST_FREE, 0, 4 },
        { SECTOR_FIRST_FREE, 9, 1 }, { SECTOR_FIRST_FREE, 0, 0 }
    };
    char name[32];
    size_t i;

    for (i = 0; i < COUNT(changes) + COUNT(links); i++) {
        size_t j = i - COUNT(changes);

        begin(0);
        save(0, SHEET_246);
        save(1, SHEET_1);
        if (is_free_broken)
            put_system(FREE_LOW, 0);
        if (i < COUNT(changes))
            put(changes[i][0], changes[i][1], changes[i][2], -1);
        else
            put_link(links[j][0], links[j][1], links[j][2]);
        repair();
        put(COMMAND_CHECK, -1);
        snprintf(name, sizeof name, "repair-refused-%d-%d", is_free_broken,
                 (int)i);
        end(name);
    }
}

/* Refused for a byte of a directory sector: the number of slots in use, a slot
 * that is no entry, and each byte of the second entry. */
static void seed_refused_entry(void)
{
    static const int bytes[][2] = {
        { 2, 1 }, { 2, 3 }, { 2, 0 }, { 3 + 2 * 16, 'A' },
        { 3 + 15 * 16 - 1, 1 },
        { 3 + 16, ' ' }, { 3 + 16, 'n' }, { 3 + 16 + 1, '0' },
        { 3 + 16 + 3, 'X' }, { 3 + 16 + 7, 'X' }, { 3 + 16 + 9, 0 },
        { 3 + 16 + 9, 2 }, { 3 + 16 + 10, 1 }, { 3 + 16 + 11, 0 },
        { 3 + 16 + 11, 1 }, { 3 + 16 + 11, 7 }, { 3 + 16 + 12, 1 },
        { 3 + 16 + 13, 1 }, { 3 + 16 + 13, 0 }, { 3 + 16 + 14, 1 },
        { 3 + 16 + 15, 1 }, { 3 + 16 + 15, 0x81 }, { 3 + 16 + 15, 0x40 }
    };
    char name[32];
    size_t i;

    for (i = 0; i < COUNT(bytes); i++) {
        begin(0);
        save(0, SHEET_246);
        save(1, SHEET_1);
        put_byte(SECTOR_DIRECTORY, bytes[i][0], bytes[i][1]);
        repair();
        put_system(USED_LOW, 9);
        repair();
        snprintf(name, sizeof name, "repair-refused-entry-%d", (int)i);
        end(name);
    }
}

/* The same in the directory's second sector, and lengths that are refused. */
static void seed_refused_late(void)
{
    int more;

    /* The 16th file is 1/10 or 1/7, and the new directory sector follows. */
    begin(2);
    save_many(0, 16);
    put_link(SECTOR_DIRECTORY, 0, 7);
    repair();
    put_link(SECTOR_DIRECTORY, 0, 0);
    repair();
    end("repair-refused-second");
    begin(0);
    save(0, SHEET_1);
    put_system(FREE_LOW, 0);
    for (more = -1; more <= 1; more += 2) {
        resize(seed_sectors, more);
        repair();
        resize(seed_sectors + more, 0);
        repair();
    }
    resize(0, 0);
    repair();
    resize(81 * seed_sectors, 0);
    repair();
    end("repair-sizes");
}

/* Any bytes as an image. */
static void seed_bytes(void)
{
    begin_empty();
    put(START_BYTES, seed_kind, 0x00, seed_sectors, 0x00, -1);
    repair();
    put(COMMAND_CHECK, -1);
    put(COMMAND_BLANK, 0, -1);
    repair();
    end("repair-bytes");
}

/* Every cut of each command, each repaired, on a disc that goes on. */
static void seed_cut_saves(void)
{
    int writes;

    begin(1);
    save(0, SHEET_246);
    for (writes = 0; writes <= 5; writes++) {
        cut_save(writes, 1, SHEET_499);
        repair();
    }
    delete(1);
    for (writes = 0; writes <= 3; writes++) {
        cut_save(writes, 2, SHEET_1);
        repair();
    }
    repair_and_use();
    end("cut-saves");
    /* The last free sectors of a disc. */
    begin(0);
    for (writes = 0; writes <= seed_sectors; writes++) {
        cut(writes, CUT_SAVE);
        put(0, 1, 0, 0, 0, 0, SHEET_LENGTH, -1);
        put((245 + 253 * (seed_sectors - 3)) & 0xFF,
            (245 + 253 * (seed_sectors - 3)) >> 8, 3, BUFFER_EXACT, -1);
        repair();
    }
    end("cut-save-full");
}

/* The directory grows: 15 files, then a save of two sectors, five writes. */
static void seed_cut_growing(void)
{
    int writes;

    begin(2);
    save_many(0, 15);
    for (writes = 0; writes <= 5; writes++) {
        cut_save(writes, 20, SHEET_246);
        repair();
    }
    cut_delete(1, 20);
    repair();
    save(21, SHEET_1);
    cut_delete(2, 3);
    repair();
    save(22, SHEET_1);
    repair_and_use();
    end("cut-growing");
}

static void seed_cut_deletes(void)
{
    int writes;

    begin(1);
    save(0, SHEET_1);
    save(1, SHEET_499);
    save(2, SHEET_246);
    for (writes = 0; writes <= 3; writes++) {
        cut_delete(writes, 1);
        repair();
        save(1, SHEET_499);
    }
    for (writes = 1; writes <= 3; writes++) {
        cut_delete(writes, writes - 1);
        repair();
    }
    repair_and_use();
    end("cut-deletes");
    /* No sector is free before. */
    begin(0);
    save(1, SHEET_1);
    save_sectors(0, seed_sectors - 3, 0);
    for (writes = 0; writes <= 3; writes++) {
        cut_delete(writes, 1);
        repair();
        save(1, SHEET_1);
    }
    end("cut-delete-full");
}

static void seed_cut_entries(void)
{
    begin(1);
    save(0, SHEET_246);
    save(1, SHEET_1);
    cut_rename(0, 0, 2);
    repair();
    cut_rename(1, 0, 2);
    repair();
    cut_protect(0, 2, 1);
    repair();
    cut_protect(1, 2, 1);
    repair();
    cut_protect(1, 2, 1);
    repair();
    cut_delete(1, 2);
    cut_protect(0, 2, 0);
    cut_protect(1, 2, 0);
    cut_delete(1, 2);
    repair();
    cut_rename(1, 1, 1);
    repair_and_use();
    end("cut-entries");
}

/* Between the cut and the repair come calls that are refused. */
static void seed_refused_between(void)
{
    begin(1);
    save(0, SHEET_246);
    save(1, SHEET_1);
    cut_save(2, 2, SHEET_246);
    put(COMMAND_CHECK, COMMAND_LIST, BUFFER_LARGEST, -1);
    put(COMMAND_READ, 0, BUFFER_LARGEST, COMMAND_VIEW, 0, 1, -1);
    save(3, SHEET_1);
    delete(0);
    rename_to(0, 4);
    protect(0, 1);
    cut_delete(1, 0);
    repair();
    delete(0);
    end("cut-refused-between");
}

/* Calls that are accepted, as the card is sound, and another cut; then a
 * replay, a blank disc or a change, after which nothing is promised. */
static void seed_between(void)
{
    begin(1);
    save(0, SHEET_246);
    cut_save(0, 1, SHEET_246);
    save(2, SHEET_1);
    protect(2, 1);
    repair();
    cut_rename(1, 0, 3);
    delete(3);
    save(4, SHEET_499);
    repair();
    cut_save(4, 5, SHEET_246);
    cut_delete(0, 5);
    rename_to(5, 6);
    cut_delete(1, 6);
    repair_and_use();
    end("cut-accepted-between");
    begin(1);
    save(0, SHEET_246);
    cut_save(2, 1, SHEET_246);
    replay(0);
    repair();
    cut_delete(1, 1);
    put(COMMAND_BLANK, 0, -1);
    repair();
    save(0, SHEET_1);
    cut_delete(2, 0);
    put_system(FREE_LOW, 0);
    repair_and_use();
    end("cut-ended-between");
}

/* A buffer that is too short gives no list, and nothing is cut. */
static void seed_cut_refused(void)
{
    begin(0);
    save(0, SHEET_1);
    cut(1, CUT_DELETE);
    put(0, BUFFER_ONE_LESS, -1);
    cut(1, CUT_RENAME);
    put_renamed(0, 1, BUFFER_EMPTY);
    cut(1, CUT_PROTECT);
    put(7, 1, BUFFER_EXACT, -1);
    cut_save(1, 0, SHEET_1);
    repair();
    end("cut-refused");
}

/* The longest list, 263 writes: 224 is 65 tracks. */
static void seed_cut_longest(void)
{
    static const int cuts[] = { 1, 2, 128, 255, 256, 257, 260, 261, 262, 263 };
    size_t i;

    begin(224);
    save_many(0, 15);
    for (i = 0; i < COUNT(cuts); i++) {
        cut(cuts[i], CUT_SAVE);
        put(15, 0, 0, 0, 0, 0, SHEET_65536, 1, BUFFER_EXACT, -1);
        repair();
    }
    cut_delete(1, 15);
    repair();
    end("cut-longest");
}

void write_repair_seeds(void)
{
    seed_sound();
    seed_few();
    seed_free();
    seed_counts();
    seed_large();
    seed_elsewhere();
    seed_kept();
    seed_refused(0);
    seed_refused(1);
    seed_refused_entry();
    seed_refused_late();
    seed_bytes();
    seed_cut_saves();
    seed_cut_growing();
    seed_cut_deletes();
    seed_cut_entries();
    seed_refused_between();
    seed_between();
    seed_cut_refused();
    seed_cut_longest();
}
