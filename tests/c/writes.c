#include "writes.h"

#include <string.h>

#include "report.h"

void begin_writes(struct writes *writes)
{
    writes->length = 0;
}

static uint8_t *put_head(struct writes *writes, unsigned kind,
                         struct place place)
{
    uint8_t *record = writes->bytes + writes->length;

    record[0] = (uint8_t)kind;
    record[1] = (uint8_t)place.track;
    record[2] = (uint8_t)place.sector;
    writes->length += WRITE_SIZE;
    return record + 3;
}

void put_write(struct writes *writes, const struct disc *disc,
               struct place place)
{
    memcpy(put_head(writes, 3, place), sector_of(disc, place), 256);
}

void put_filled(struct writes *writes, unsigned kind, struct place place,
                unsigned byte)
{
    memset(put_head(writes, kind, place), (int)byte, 256);
}

void end_writes(struct writes *writes)
{
    writes->bytes[writes->length++] = 0;
}

void make_writes(struct writes *writes, const struct disc *disc,
                 const struct place *places, size_t count)
{
    size_t i;

    begin_writes(writes);
    for (i = 0; i < count; i++)
        put_write(writes, disc, places[i]);
    end_writes(writes);
}

void expect_writes(const char *what, const struct writes *expected,
                   const struct writes *found)
{
    EXPECT_NUMBER(expected->length, found->length);
    expect_bytes(what, expected->bytes, found->bytes, expected->length);
}

/* Where an entry stands: its directory sector, and the one that links to that
 * (sector 0 for the first). */
struct found {
    const uint8_t *entry; /* NULL if there is none */
    struct place directory, before;
};

static const uint8_t *entry_in(const uint8_t *directory, const uint8_t *stored)
{
    unsigned slot;

    for (slot = 0; slot < 15; slot++)
        if (memcmp(directory + 3 + 16 * slot, stored, 9) == 0)
            return directory + 3 + 16 * slot;
    return NULL;
}

static void store_name(uint8_t *stored, const uint8_t *name, size_t name_len)
{
    size_t i, to = 0;

    memset(stored, ' ', 9);
    for (i = 0; i < name_len && to < 9; i++)
        if (name[i] == '.')
            to = 6;
        else
            stored[to++] = name[i];
}

static struct found find(const struct disc *disc, const uint8_t *name,
                         size_t name_len)
{
    struct found found = { NULL, pair_at(disc->bytes + 0x12), { 0, 0 } };
    uint8_t stored[9];
    unsigned met;

    store_name(stored, name, name_len);
    for (met = 0; met < CHAIN_MOST; met++) {
        if (!is_on_disc(disc, found.directory))
            break;
        found.entry = entry_in(sector_of(disc, found.directory), stored);
        if (found.entry != NULL)
            break;
        found.before = found.directory;
        found.directory = link_of(disc, found.directory);
    }
    return found;
}

/* As many of a chain's sectors as a file may have. */
static void put_chain(struct writes *writes, const struct disc *disc,
                      struct place from)
{
    unsigned met;

    for (met = 0; met < 260 && is_on_disc(disc, from); met++) {
        put_write(writes, disc, from);
        from = link_of(disc, from);
    }
}

int make_save_writes(struct writes *writes, const struct disc *before,
                     const struct disc *after, const uint8_t *name,
                     size_t name_len)
{
    struct found found = find(after, name, name_len);

    if (found.entry == NULL)
        return 0;
    begin_writes(writes);
    put_write(writes, after, place(0, 1));
    put_chain(writes, after, pair_at(found.entry + 11));
    put_write(writes, after, found.directory);
    /* The directory grew if it ended there before. */
    if (found.before.sector != 0 && link_of(before, found.before).sector == 0)
        put_write(writes, after, found.before);
    end_writes(writes);
    return 1;
}

int make_delete_writes(struct writes *writes, const struct disc *before,
                       const struct disc *after, const uint8_t *name,
                       size_t name_len)
{
    struct found found = find(before, name, name_len);
    struct place places[3];

    if (found.entry == NULL)
        return 0;
    places[0] = found.directory;
    places[1] = pair_at(found.entry + 13);
    places[2] = place(0, 1);
    if (!is_on_disc(before, places[1]))
        return 0;
    make_writes(writes, after, places, 3);
    return 1;
}

int make_entry_writes(struct writes *writes, const struct disc *after,
                      const uint8_t *name, size_t name_len)
{
    struct found found = find(after, name, name_len);

    if (found.entry == NULL)
        return 0;
    make_writes(writes, after, &found.directory, 1);
    return 1;
}
