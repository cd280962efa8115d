#include "writes.h"

#include <string.h>

#include "counters.h"
#include "finding.h"
#include "places.h"

#define KIND_END 0
#define KIND_WRITE 3
#define HEAD 3
#define WRITE_LENGTH (HEAD + 256)

/* A file of a sound image has less than 800 sectors. */
#define LIST_RECORDS_MOST 803

#define COMMAND_RECORDS_MOST 263

static uint8_t made[WRITE_LENGTH * LIST_RECORDS_MOST + 1];
static size_t made_length;

/* The sector as it stands in the image. */
static void put_write(const struct image *image, struct link link)
{
    uint8_t *record = made + made_length;

    record[0] = KIND_WRITE;
    record[1] = (uint8_t)link.track;
    record[2] = (uint8_t)link.sector;
    memcpy(record + HEAD, sector_at(image, link), 256);
    made_length += WRITE_LENGTH;
}

static struct text end_writes(void)
{
    struct text list;

    made[made_length++] = KIND_END;
    list.bytes = made;
    list.length = made_length;
    return list;
}

static struct standing standing_in(const struct image *image,
                                   const uint8_t *stored)
{
    struct standing standing = find_entry(image, stored);

    REQUIRE(standing.entry != NULL, "the directory lacks a file of the list");
    return standing;
}

static void count_save(struct stated stated, int is_grown)
{
    if (is_grown)
        count_list_occasion(stated, SAVE_GROWS);
    if (made_length == WRITE_LENGTH * COMMAND_RECORDS_MOST)
        count_list_occasion(stated, SAVE_LONGEST);
}

struct text save_writes(const struct image *before, const struct image *after,
                        const uint8_t *stored)
{
    struct standing standing = standing_in(after, stored);
    struct link link = pointer_at(standing.entry + ENTRY_FIRST);
    struct link linking = standing.linking;
    /* What links to the entry's sector was the directory's end. */
    int is_grown = linking.sector != 0 &&
                   link_at(sector_at(before, linking)).sector == 0;

    made_length = 0;
    put_write(after, system_link);
    for (; link.sector != 0; link = link_at(sector_at(after, link)))
        put_write(after, link);
    put_write(after, standing.directory);
    if (is_grown)
        put_write(after, linking);
    count_save(after->stated, is_grown);
    return end_writes();
}

struct text delete_writes(const struct image *before,
                          const struct image *after, const uint8_t *stored)
{
    struct standing standing = standing_in(before, stored);

    made_length = 0;
    put_write(after, standing.directory);
    put_write(after, pointer_at(standing.entry + ENTRY_LAST));
    put_write(after, system_link);
    return end_writes();
}

struct text entry_writes(const struct image *after, const uint8_t *stored)
{
    made_length = 0;
    put_write(after, standing_in(after, stored).directory);
    return end_writes();
}

/* The first reason for 14, or LIST_OCCASIONS if there is none. */
static enum list_occasion reason_against(const struct image *image,
                                         struct text list)
{
    size_t at;

    for (at = 0; at < list.length; at += WRITE_LENGTH) {
        const uint8_t *record = list.bytes + at;
        size_t left = list.length - at;

        if (record[0] == KIND_END)
            return left == 1 ? LIST_OCCASIONS : LIST_AFTER_END;
        if (record[0] != KIND_WRITE)
            return LIST_KIND;
        if (left < WRITE_LENGTH)
            return LIST_CUT;
        if (record[1] >= tracks_of(image))
            return LIST_TRACK;
        if (record[2] == 0)
            return LIST_SECTOR_0;
        if (record[2] > sectors_of(image->stated))
            return LIST_ABOVE;
    }
    return LIST_NO_END;
}

static uint8_t *sector_of(struct image *image, const uint8_t *record)
{
    return image->bytes + sector_start(image->stated, record[1], record[2]);
}

/* What follows the first end in the list. */
static struct text after_end(struct text list)
{
    while (list.length > 0 && list.bytes[0] != KIND_END) {
        list.bytes += WRITE_LENGTH;
        list.length -= WRITE_LENGTH;
    }
    list.bytes++;
    list.length--;
    return list;
}

/* 0 if the list's first record is wrong, or leaves the image as it is. */
static int does_begin(struct image *image, struct text list)
{
    struct text first = list;

    if (list.length < WRITE_LENGTH)
        return 0;
    first.length = WRITE_LENGTH;
    return reason_against(image, first) == LIST_NO_END &&
           memcmp(sector_of(image, list.bytes), list.bytes + HEAD, 256) != 0;
}

static void count_refused(struct image *image, struct text list,
                          enum list_occasion reason)
{
    count_list_occasion(image->stated, reason);
    if (reason == LIST_AFTER_END &&
        reason_against(image, after_end(list)) == LIST_OCCASIONS)
        count_list_occasion(image->stated, LIST_AFTER_LIST);
    if (does_begin(image, list))
        count_list_occasion(image->stated, LIST_LATE);
}

/* Bit n: the occasion n was met in this list. */
static unsigned write_all(struct image *image, struct text list)
{
    static uint8_t is_written[TANDOS_MAX_TRACKS][TANDOS_TEN + 1];
    unsigned met = 0;
    size_t at;

    memset(is_written, 0, sizeof is_written);
    for (at = 0; at + 1 < list.length; at += WRITE_LENGTH) {
        const uint8_t *record = list.bytes + at;
        uint8_t *to = sector_of(image, record);

        if (record[1] == 0 && record[2] == 1)
            met |= 1u << LIST_SYSTEM;
        if (is_written[record[1]][record[2]] &&
            memcmp(to, record + HEAD, 256) != 0)
            met |= 1u << LIST_TWICE;
        is_written[record[1]][record[2]] = 1;
        memcpy(to, record + HEAD, 256);
    }
    if (list.length == 1)
        met |= 1u << LIST_ALONE;
    if (list.length > WRITE_LENGTH * COMMAND_RECORDS_MOST + 1)
        met |= 1u << LIST_LONG;
    return met;
}

uint32_t expected_replay(struct image *image, struct text writes)
{
    enum list_occasion reason;
    unsigned met, i;

    if (!is_image(image))
        return TANDOS_SIZE;
    reason = reason_against(image, writes);
    if (reason != LIST_OCCASIONS) {
        count_refused(image, writes, reason);
        return TANDOS_BAD_LIST;
    }
    met = write_all(image, writes);
    for (i = 0; i < LIST_OCCASIONS; i++)
        if (met >> i & 1)
            count_list_occasion(image->stated, (enum list_occasion)i);
    return TANDOS_DONE;
}
