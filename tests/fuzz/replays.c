#include "replays.h"

#include <string.h>

#include "calls.h"

#define HEAD (TANDOS_WRITE_RECORD_SIZE - TANDOS_SECTOR_SIZE)

/* The most bytes that a damage adds. */
#define MORE_MOST 256

struct kept {
    size_t length;
    uint8_t bytes[BUFFER_MOST];
};

static struct kept kept[KEPT_MOST];
static size_t last;

/* Two kept lists are not longer. */
static uint8_t built[TANDOS_WRITES_SIZE(WRITES_MOST) + MORE_MOST];
static size_t built_length;

void begin_lists(void)
{
    size_t i;

    last = 0;
    for (i = 0; i < KEPT_MOST; i++) {
        kept[i].length = 1;
        kept[i].bytes[0] = TANDOS_WRITES_END;
    }
}

struct text keep_list(size_t length)
{
    struct text list;

    last = (last + 1) % KEPT_MOST;
    kept[last].length = length;
    memcpy(kept[last].bytes, answer, length);
    list.bytes = kept[last].bytes;
    list.length = length;
    return list;
}

static void append_kept(struct input *input)
{
    size_t which = take(input, 1) % KEPT_MOST;
    const struct kept *list = &kept[(last + KEPT_MOST - which) % KEPT_MOST];

    memcpy(built + built_length, list->bytes, list->length);
    built_length += list->length;
}

static void join_kept(struct input *input)
{
    int is_end_left_out = take(input, 1) % 2 == 0;

    append_kept(input);
    if (is_end_left_out)
        built_length--;
    append_kept(input);
}

/* The sector's bytes of a record whose head stands. */
static void fill(uint8_t *record, uint32_t byte, const struct image *image)
{
    size_t i;

    if (byte == FILL_STANDING && is_on_disc(image, record[1], record[2])) {
        memcpy(record + HEAD, image->bytes + sector_start(image->stated,
                                                          record[1], record[2]),
               TANDOS_SECTOR_SIZE);
        return;
    }
    for (i = 0; i < TANDOS_SECTOR_SIZE; i++)
        record[HEAD + i] = (uint8_t)(byte * (i + 1));
}

static void take_write(struct input *input, uint32_t kind, uint8_t *record,
                       const struct image *image)
{
    size_t tracks = tracks_of(image);

    if (kind % WRITE_KINDS == WRITE_ANY) {
        take_bytes(input, record, HEAD);
    } else {
        record[0] = TANDOS_WRITE;
        record[1] = (uint8_t)(take(input, 1) % (tracks == 0 ? 1 : tracks));
        record[2] = (uint8_t)(1 + take(input, 1) % sectors_of(image->stated));
    }
    fill(record, take(input, 1), image);
}

/* One write, or the same one many times. */
static void take_writes(struct input *input, const struct image *image)
{
    uint32_t kind = take(input, 1);
    size_t count = kind < WRITE_MANY ? 1 : take(input, 2) % (WRITES_MOST + 1);
    uint8_t record[TANDOS_WRITE_RECORD_SIZE];

    take_write(input, kind, record, image);
    for (; count > 0 && built_length < sizeof built - MORE_MOST - 1; count--) {
        memcpy(built + built_length, record, sizeof record);
        built_length += sizeof record;
    }
}

static void build(struct input *input, const struct image *image)
{
    uint32_t groups = take(input, 1) % GROUPS_MOST;

    for (; groups > 0; groups--)
        take_writes(input, image);
    built[built_length++] = TANDOS_WRITES_END;
}

static void shorten(size_t count)
{
    built_length -= count < built_length ? count : built_length;
}

static void prolong(size_t count, uint32_t byte)
{
    memset(built + built_length, (int)byte, count);
    built_length += count;
}

/* A byte of a record's head, or the end of a list without a record. */
static size_t take_head(struct input *input)
{
    size_t record = take(input, 2);
    size_t records = built_length / TANDOS_WRITE_RECORD_SIZE;
    size_t byte = take(input, 1) % HEAD;

    if (records == 0)
        return 0;
    return TANDOS_WRITE_RECORD_SIZE * (record % records) + byte;
}

/* The list has its end, and so a byte at least. */
static void take_damage(struct input *input)
{
    size_t number;

    switch (take(input, 1)) {
    case WRITES_CUT:
        built_length = take(input, 3) % built_length;
        break;
    case WRITES_SHORTER:
        shorten(1 + take(input, 1));
        break;
    case WRITES_MORE:
        number = 1 + take(input, 1);
        prolong(number, take(input, 1));
        break;
    case WRITES_BYTE:
        number = take(input, 3) % built_length;
        built[number] = (uint8_t)take(input, 1);
        break;
    case WRITES_HEAD:
        number = take_head(input);
        built[number] = (uint8_t)take(input, 1);
        break;
    default:
        break;
    }
}

static struct text take_raw(struct input *input)
{
    struct text list = { NULL, 0 };
    uint32_t length = take(input, 2);

    if (length == WRITES_NULL)
        return list;
    list.bytes = built;
    list.length = length % (WRITES_BYTES_MOST + 1);
    take_bytes(input, built, list.length);
    return list;
}

struct text take_list(struct input *input, const struct image *image)
{
    struct text list = { built, 0 };

    built_length = 0;
    switch (take(input, 1) % WRITES_KINDS) {
    case WRITES_KEPT:
        append_kept(input);
        break;
    case WRITES_JOINED:
        join_kept(input);
        break;
    case WRITES_BUILT:
        build(input, image);
        break;
    default:
        return take_raw(input);
    }
    take_damage(input);
    list.length = built_length;
    return list;
}
