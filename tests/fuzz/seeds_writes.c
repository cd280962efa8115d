#include "seeds_writes.h"

#include <stdio.h>

#include "seed.h"

#define COUNT(array) (sizeof(array) / sizeof(array)[0])

/* The bytes of a record, and of a list of so many. */
#define WRITE_SIZE 259
#define LIST_SIZE(records) (WRITE_SIZE * (records) + 1)

static void put_word(int word)
{
    put(word & 0xFF, word >> 8, -1);
}

static void put_long(long number)
{
    put((int)(number & 0xFF), (int)(number >> 8 & 0xFF), (int)(number >> 16),
        -1);
}

/* A command's buffer is as long as a list of so many records would need, and
 * `more` bytes. */
static void put_room(int records, int more)
{
    put_word(LIST_SIZE(records) + more);
}

/* Each command on the file 0, which stands, and a save of another. The lists
 * are of 4, 1, 1 and 3 records. */
static void put_lent(enum buffer buffer)
{
    save_lent(1, SHEET_246, buffer);
    rename_lent(0, 2, buffer);
    protect_lent(0, 1, buffer);
    delete_lent(0, buffer);
}

/* Buffers that are too short by little or much, then longer ones. */
static void seed_buffers(void)
{
    begin(0);
    save(0, SHEET_246);
    put_lent(BUFFER_ONE_LESS);
    put_lent(BUFFER_EMPTY);
    protect(0, 0);
    save_lent(1, SHEET_246, BUFFER_LENGTH);
    put_room(3, 0);
    rename_lent(0, 2, BUFFER_LENGTH);
    put_room(0, 0);
    protect_lent(0, 1, BUFFER_LENGTH);
    put_room(0, 2);
    delete_lent(0, BUFFER_LENGTH);
    put_room(2, 0);
    end("writes-short");
    begin(0);
    save_lent(0, SHEET_246, BUFFER_LARGEST);
    save_lent(1, SHEET_1, BUFFER_LONGER);
    put(0, -1);
    rename_lent(0, 2, BUFFER_LONGER);
    put(0, -1);
    protect_lent(2, 1, BUFFER_LONGER);
    put(14, -1);
    protect_lent(2, 1, BUFFER_LARGEST);
    protect_lent(2, 0, BUFFER_LARGEST);
    rename_lent(1, 3, BUFFER_LARGEST);
    delete_lent(2, BUFFER_LONGER);
    put(1, -1);
    delete_lent(3, BUFFER_LARGEST);
    end("writes-longer");
}

/* A short buffer is refused last. */
static void seed_order(void)
{
    begin(0);
    save(0, SHEET_1);
    save(1, SHEET_1);
    save_lent(NAME_NULL, SHEET_1, BUFFER_EMPTY);
    save_lent(2, SHEET_0, BUFFER_EMPTY);
    save_lent(0, SHEET_1, BUFFER_EMPTY);
    save_lent(2, SHEET_4293, BUFFER_EMPTY);
    delete_lent(NAME_NULL, BUFFER_EMPTY);
    delete_lent(2, BUFFER_EMPTY);
    rename_lent(0, NAME_NULL, BUFFER_EMPTY);
    rename_lent(2, 3, BUFFER_EMPTY);
    rename_lent(0, 1, BUFFER_EMPTY);
    rename_lent(0, 0, BUFFER_EMPTY);
    protect_lent(NAME_NULL, 1, BUFFER_EMPTY);
    protect_lent(2, 1, BUFFER_EMPTY);
    protect(0, 1);
    delete_lent(0, BUFFER_EMPTY);
    rename_lent(0, 1, BUFFER_EMPTY);
    rename_lent(0, 3, BUFFER_EMPTY);
    put(COMMAND_SYSTEM, 6, 1, -1);
    put_lent(BUFFER_EMPTY);
    resize(seed_sectors, 1);
    put_lent(BUFFER_EMPTY);
    end("writes-order");
}

/* The 16th file: a buffer for its list without the directory's new sector is
 * one record short. Then files in both directory sectors. */
static void seed_grows(void)
{
    begin(2);
    save_many(0, 15);
    save_lent(15, SHEET_246, BUFFER_LENGTH);
    put_room(4, 0);
    save_lent(15, SHEET_246, BUFFER_ONE_LESS);
    save_lent(15, SHEET_246, BUFFER_EMPTY);
    save(15, SHEET_246);
    save_lent(16, SHEET_1, BUFFER_LARGEST);
    protect(15, 1);
    protect(15, 0);
    rename_to(16, 17);
    rename_to(3, 16);
    delete(15);
    delete(16);
    save(18, SHEET_499);
    save(19, SHEET_1);
    replay(0);
    replay(1);
    end("writes-grows");
}

/* Bytes that the rules leave alone, in the system sector, behind the slots and
 * in a free sector, and an end link with a track: a record has them all. */
static void seed_left_alone(void)
{
    static const int bytes[] = { 0x00, 0x0F, 0x21, 0x3F, 0x60, 0xFF };
    size_t i;

    begin(2);
    for (i = 0; i < COUNT(bytes); i++)
        put(COMMAND_BYTE, 0, 0, bytes[i], 0xA0 + (int)i, -1);
    put(COMMAND_BYTE, 3, 0, 243, 0xB0, COMMAND_BYTE, 3, 0, 255, 0xFF, -1);
    put(COMMAND_BYTE, 6, 0, 255, 0xC0, COMMAND_LINK, 3, 0, 7, 0, -1);
    save(0, SHEET_1);
    protect(0, 1);
    protect(0, 0);
    rename_to(0, 20);
    save_many(1, 14);
    save(15, SHEET_246);
    delete(20);
    save(21, SHEET_499);
    delete(15);
    replay(1);
    end("writes-left-alone");
}

/* The longest list: 260 sectors of a file, and the directory grows. 224 is 65
 * tracks. */
static void put_longest(enum buffer buffer)
{
    put(COMMAND_SAVE, 15, 0, 0, 0, 0, 0, SHEET_65536, 1, (int)buffer, -1);
}

static void seed_longest(void)
{
    static const long cuts[] = {
        0, 1, 256, LIST_SIZE(252) - 1, 65535, 65536, 65537, LIST_SIZE(253),
        LIST_SIZE(262), LIST_SIZE(263) - 1
    };
    size_t i;

    begin(224);
    save_many(0, 15);
    put_longest(BUFFER_ONE_LESS);
    put_longest(BUFFER_LENGTH);
    put_room(0, 0);
    put_longest(BUFFER_EXACT);
    delete(15);
    for (i = 0; i < COUNT(cuts); i++) {
        put(COMMAND_REPLAY, WRITES_KEPT, 1, WRITES_CUT, -1);
        put_long(cuts[i]);
    }
    replay(1);
    replay(0);
    end("writes-longest");
}

/* What a command wrote, written once more, later, and to other discs. */
static void seed_replays(void)
{
    begin(0);
    save(0, SHEET_246);
    replay(0);
    delete(0);
    replay(1);
    replay(0);
    save(1, SHEET_499);
    protect(1, 1);
    replay(1);
    rename_to(1, 2);
    replay(0);
    replay(3);
    put(COMMAND_BLANK, 0, -1);
    replay(2);
    put_calls(1);
    end("replay");
    begin(0);
    save(0, SHEET_246);
    save(1, SHEET_1);
    put(COMMAND_BLANK, 0, -1);
    put(COMMAND_REPLAY, WRITES_JOINED, 1, 1, 0, WRITES_WHOLE, -1);
    put(COMMAND_REPLAY, WRITES_JOINED, 0, 1, 0, WRITES_WHOLE, -1);
    put(COMMAND_REPLAY, WRITES_JOINED, 0, 0, 1, WRITES_WHOLE, -1);
    put(COMMAND_REPLAY, WRITES_JOINED, 1, 0, 0, WRITES_SHORTER, 0, -1);
    put_calls(0);
    end("replay-joined");
}

/* Replay looks at no disc: each of these breaks it or mends it. */
static void seed_mends(void)
{
    begin(0);
    save(0, SHEET_246);
    put(COMMAND_BYTE, 3, 0, 2, 9, -1);
    replay(0);
    put_built(1);
    put_write(0, 3, 1);
    put(WRITES_WHOLE, -1);
    put_built(1);
    put_write(0, 0, 0);
    put(WRITES_WHOLE, -1);
    put_built(0);
    put(WRITES_WHOLE, -1);
    replay(0);
    put_calls(0);
    end("replay-mends");
}

/* The list of a deleted file's save, cut at each byte of a boundary. */
static void seed_cuts(void)
{
    static const int cuts[] = {
        0, 1, 2, 3, 4, 5, 128, 255, 256, 257, 258, 259, 260, 261, 262, 263,
        515, 516, 517, 518, 519, 520, 521, 522, 774, 775, 776, 777
    };
    size_t i;

    begin(0);
    save(0, SHEET_1);
    delete(0);
    for (i = 0; i < COUNT(cuts); i++) {
        put(COMMAND_REPLAY, WRITES_KEPT, 1, WRITES_CUT, -1);
        put_long(cuts[i]);
    }
    replay(1);
    end("replay-cut");
}

/* So many bytes more, also those of a whole record. */
static void seed_more(void)
{
    static const int counts[] = { 0, 1, 2, 255 };
    static const int bytes[] = { 0, 1, 3, 4, 255 };
    size_t i, j;

    begin(0);
    save(0, SHEET_1);
    delete(0);
    for (i = 0; i < COUNT(counts); i++)
        for (j = 0; j < COUNT(bytes); j++) {
            put(COMMAND_REPLAY, WRITES_KEPT, 1, WRITES_MORE, counts[i], -1);
            put(bytes[j], -1);
        }
    put(COMMAND_REPLAY, WRITES_JOINED, 1, 3, 1, WRITES_WHOLE, -1);
    put(COMMAND_REPLAY, WRITES_JOINED, 1, 3, 3, WRITES_WHOLE, -1);
    put(COMMAND_REPLAY, WRITES_JOINED, 1, 1, 3, WRITES_WHOLE, -1);
    end("replay-more");
}

/* In the list of a deleted file's save, of four records. */
static void put_head(int record, int place, int byte)
{
    put(COMMAND_REPLAY, WRITES_KEPT, 1, WRITES_HEAD, record, 0, place, byte,
        -1);
}

/* Every kind, track and sector, in the first record and in the last. */
static void seed_heads(int place)
{
    char name[32];
    int byte;

    for (byte = 0; byte < 256; byte++) {
        if (byte % 32 == 0) {
            begin(1);
            save(0, SHEET_246);
            delete(0);
        }
        put_head(0, place, byte);
        put_head(3, place, byte);
        snprintf(name, sizeof name, "replay-head-%d-%d", place, byte / 32);
        if (byte % 32 == 31)
            end(name);
    }
}

/* Any record, written out. */
static void put_any(int kind, int track, int sector)
{
    put_built(2);
    put_write(0, 2, 7);
    put(WRITE_ANY, kind, track, sector, 5, WRITES_WHOLE, -1);
}

/* The last sector of a disc, and the next ones, on few tracks and on most. */
static void seed_last(int tracks)
{
    char name[32];

    begin(0);
    resize(tracks * seed_sectors, 0);
    put(COMMAND_BLANK, 0, -1);
    put_any(3, tracks - 1, seed_sectors);
    put_any(3, tracks - 1, seed_sectors + 1);
    put_any(3, tracks, 0);
    put_any(3, tracks, 1);
    put_any(3, tracks - 1, 0);
    put_any(3, 0, seed_sectors + 1);
    put_any(3, 255, 255);
    snprintf(name, sizeof name, "replay-last-%d", tracks);
    end(name);
}

/* Every sector of two tracks in one list, each with other bytes. */
static void seed_places(void)
{
    int i;

    begin(1);
    put_built(2 * seed_sectors);
    for (i = 0; i < 2 * seed_sectors; i++)
        put_write(i % 2, i / 2, i + 1);
    put(WRITES_WHOLE, -1);
    end("replay-places");
}

/* One sector twice; the same list backwards; longer lists than any command's,
 * and than 16 bits count. */
static void seed_repeated(void)
{
    static const int counts[] = { 252, 253, 254, 263, 264, 600 };
    size_t i;

    begin(0);
    put_built(3);
    put_write(0, 4, 1);
    put_write(0, 5, 2);
    put_write(0, 4, 3);
    put(WRITES_WHOLE, -1);
    put_built(2);
    put_write(0, 4, 3);
    put_write(0, 4, 1);
    put(WRITES_WHOLE, -1);
    for (i = 0; i < COUNT(counts); i++) {
        put_built(2);
        put(WRITE_MANY, -1);
        put_word(counts[i] - 1);
        put(0, 6, (int)i, -1);
        put_write(0, 6, 0x80 + (int)i);
        put(WRITES_WHOLE, -1);
    }
    end("replay-repeated");
}

static void put_raw(int length, int one, int two, int three)
{
    put(COMMAND_REPLAY, WRITES_BYTES, -1);
    put_word(length);
    put(one, two, three, -1);
}

/* Few bytes, and one record of a list byte by byte. */
static void seed_bytes(void)
{
    int i;

    begin(0);
    put_raw(WRITES_NULL, -1, -1, -1);
    replay_nothing();
    put_raw(1, 0, -1, -1);
    put_raw(1, 3, -1, -1);
    put_raw(1, 1, -1, -1);
    put_raw(2, 0, 0, -1);
    put_raw(2, 0, 3, -1);
    put_raw(2, 3, 0, -1);
    put_raw(3, 3, 0, 1);
    put_raw(LIST_SIZE(1), 3, 0, 2);
    for (i = 0; i < 256; i++)
        put(i, -1);
    put(0, -1);
    end("replay-bytes");
}

void write_writes_seeds(void)
{
    int place;

    seed_buffers();
    seed_order();
    seed_grows();
    seed_left_alone();
    seed_longest();
    seed_replays();
    seed_mends();
    seed_cuts();
    seed_more();
    for (place = 0; place < 3; place++)
        seed_heads(place);
    seed_last(2);
    seed_last(80);
    seed_places();
    seed_repeated();
    seed_bytes();
}
