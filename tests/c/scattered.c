#include "scattered.h"

#include <stdio.h>
#include <string.h>

static uint32_t random_state;

void begin_random(uint32_t state)
{
    random_state = state;
}

unsigned below(unsigned limit)
{
    random_state = random_state * 1103515245 + 12345;
    return (random_state >> 16) % limit;
}

/* The sectors of a disc but 0/1, in any order, and how many are dealt out. */
struct pack {
    struct place places[CHAIN_MOST];
    unsigned count, dealt;
};

static void shuffle(struct pack *pack, unsigned tracks)
{
    unsigned number;

    pack->count = pack->dealt = 0;
    for (number = 1; number < tracks * disc_sectors; number++) {
        unsigned other = below(pack->count + 1);

        pack->places[pack->count++] = pack->places[other];
        pack->places[other] =
            place(number / disc_sectors, number % disc_sectors + 1);
    }
}

/* Links the next sectors of the pack, and marks them. The end link's track may
 * be any. */
static struct place *deal(struct disc *disc, struct taken *taken,
                          struct pack *pack, unsigned length)
{
    struct place *places = pack->places + pack->dealt;
    unsigned i;

    for (i = 0; i < length; i++) {
        int is_last = i + 1 == length;

        put_link(disc, places[i],
                 is_last ? place(below(256), 0) : places[i + 1]);
        mark(taken, places[i]);
    }
    pack->dealt += length;
    return places;
}

static void deal_directory(struct disc *disc, struct taken *taken,
                           struct pack *pack, unsigned length)
{
    struct place *directory = deal(disc, taken, pack, length);
    unsigned i;

    disc->bytes[0x12] = (uint8_t)directory[0].sector;
    disc->bytes[0x13] = (uint8_t)directory[0].track;
    for (i = 0; i < length; i++)
        memset(at(disc, directory[i], 2), 0, 1 + 15 * 16);
}

/* Files in any slots of the directory, which are the first of the pack, as long
 * as `spare` sectors are left. */
static void deal_files(struct disc *disc, struct taken *taken,
                       struct pack *pack, unsigned directory_length,
                       unsigned spare)
{
    unsigned slot, slots = 15 * directory_length;
    char name[10];

    for (slot = 0; slot < slots; slot++) {
        unsigned left = pack->count - pack->dealt, length = 1 + below(6);
        struct place *file;

        if (below(4) == 0 || left < spare + length)
            continue;
        file = deal(disc, taken, pack, length);
        sprintf(name, "F%03u  X  ", slot % 1000);
        put_entry(disc, pack->places[slot / 15], slot % 15, name, length,
                  file[0], file[length - 1]);
        taken->used_count += length;
    }
}

/* That of the disc that was made last. */
static struct pack pack;

void make_scattered(struct disc *disc, struct taken *taken, unsigned tracks,
                    unsigned spare)
{
    unsigned directory_length = 1 + below(tracks < 3 ? 2 : 5);
    size_t i;

    disc->length = track_size() * tracks;
    for (i = 0; i < disc->length; i++)
        disc->bytes[i] = (uint8_t)below(256);
    memset(taken, 0, sizeof *taken);
    mark(taken, place(0, 1));
    shuffle(&pack, tracks);
    deal_directory(disc, taken, &pack, directory_length);
    deal_files(disc, taken, &pack, directory_length, spare);
}

unsigned make_scattered_sound(struct disc *disc, unsigned tracks,
                              unsigned spare)
{
    struct taken taken;
    struct place *chain;
    unsigned length;

    make_scattered(disc, &taken, tracks, spare);
    length = pack.count - pack.dealt;
    chain = deal(disc, &taken, &pack, length);
    put_free_pointer(disc, length > 0 ? chain[0] : place(below(256), 0));
    put_counts(disc, length, taken.used_count);
    return length;
}
