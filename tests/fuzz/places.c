#include "places.h"

#include <string.h>

const struct link system_link = { 0, 1 };

struct link link_at(const uint8_t *bytes)
{
    struct link link;

    link.track = bytes[0];
    link.sector = bytes[1];
    return link;
}

struct link pointer_at(const uint8_t *bytes)
{
    struct link link;

    link.track = bytes[1];
    link.sector = bytes[0];
    return link;
}

size_t word_at(const uint8_t *bytes)
{
    return bytes[0] + 256u * bytes[1];
}

void put_word(uint8_t *to, size_t word)
{
    to[0] = (uint8_t)word;
    to[1] = (uint8_t)(word >> 8);
}

const uint8_t *sector_at(const struct image *image, struct link link)
{
    return image->bytes +
           sector_start(image->stated, link.track, link.sector);
}

uint8_t *sector_to_write(struct image *image, struct link link)
{
    return image->bytes +
           sector_start(image->stated, link.track, link.sector);
}

const uint8_t *system_sector(const struct image *image)
{
    return sector_at(image, system_link);
}

int is_free_slot(const uint8_t *slot)
{
    static const uint8_t zeros[SLOT_SIZE];

    return memcmp(slot, zeros, SLOT_SIZE) == 0;
}

static const uint8_t *entry_in(const uint8_t *directory, const uint8_t *stored)
{
    unsigned i;

    for (i = 0; i < SLOTS_PER_DIRECTORY_SECTOR; i++) {
        const uint8_t *slot = directory + FIRST_SLOT + SLOT_SIZE * i;

        if (memcmp(slot, stored, TANDOS_NAME_SIZE) == 0)
            return slot;
    }
    return NULL;
}

struct standing find_entry(const struct image *image, const uint8_t *stored)
{
    struct standing standing = { NULL, { 0, 0 }, { 0, 0 } };
    struct link link = pointer_at(system_sector(image) + SYSTEM_DIRECTORY);

    while (link.sector != 0) {
        standing.linking = standing.directory;
        standing.directory = link;
        standing.entry = entry_in(sector_at(image, link), stored);
        if (standing.entry != NULL)
            break;
        link = link_at(sector_at(image, link));
    }
    return standing;
}
