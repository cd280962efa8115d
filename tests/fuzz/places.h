/* Where things stand in an image: links, pointers, the system sector's numbers
 * and entries. */
#ifndef PLACES_H
#define PLACES_H

#include "image.h"

/* A link stands track first, a pointer sector first. */
struct link {
    size_t track, sector;
};

/* 0/1. */
extern const struct link system_link;

struct link link_at(const uint8_t *bytes);
struct link pointer_at(const uint8_t *bytes);

/* A number of two bytes, low byte first. */
size_t word_at(const uint8_t *bytes);
void put_word(uint8_t *to, size_t word);

const uint8_t *sector_at(const struct image *image, struct link link);
uint8_t *sector_to_write(struct image *image, struct link link);
const uint8_t *system_sector(const struct image *image);

/* In the system sector. */
#define SYSTEM_FREE 0x10
#define SYSTEM_DIRECTORY 0x12
#define SYSTEM_FREE_COUNT 0x14
#define SYSTEM_USED_COUNT 0x16

/* In a directory sector. */
#define SLOTS_IN_USE 2
#define FIRST_SLOT 3
#define SLOT_SIZE 16
#define SLOTS_PER_DIRECTORY_SECTOR 15

/* In an entry: its length, its first and its last sector, its attribute. */
#define ENTRY_LENGTH 9
#define ENTRY_FIRST 11
#define ENTRY_LAST 13
#define ENTRY_ATTRIBUTE 15

int is_free_slot(const uint8_t *slot);

/* An entry of a sound image, its directory sector, and the one that links to
 * that (sector 0 if it is the first). */
struct standing {
    const uint8_t *entry; /* NULL if there is none */
    struct link directory, linking;
};

struct standing find_entry(const struct image *image, const uint8_t *stored);

#endif
