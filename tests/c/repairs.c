#include "repairs.h"

#include <string.h>

static unsigned number_of(struct place place)
{
    return disc_sectors * place.track + place.sector - 1;
}

static unsigned sector_count(const struct disc *disc)
{
    return (unsigned)(disc->length / 256);
}

void mark(struct taken *taken, struct place place)
{
    taken->marks[number_of(place)] = 1;
}

/* Up to the end link, or a link off the disc, or for as long as any chain. */
static void mark_chain(struct taken *taken, const struct disc *disc,
                       struct place from)
{
    unsigned met;

    for (met = 0; met < CHAIN_MOST && is_on_disc(disc, from); met++) {
        mark(taken, from);
        from = link_of(disc, from);
    }
}

/* The file of a slot: a free one has the length and the first sector 0. */
static void mark_file(struct taken *taken, const struct disc *disc,
                      const uint8_t *slot)
{
    taken->used_count += slot[9] + 256u * slot[10];
    mark_chain(taken, disc, pair_at(slot + 11));
}

void mark_taken(struct taken *taken, const struct disc *disc)
{
    struct place directory = pair_at(disc->bytes + 0x12);
    unsigned met, slot;

    memset(taken, 0, sizeof *taken);
    mark(taken, place(0, 1));
    for (met = 0; met < CHAIN_MOST && is_on_disc(disc, directory); met++) {
        const uint8_t *slots = sector_of(disc, directory) + 3;

        mark(taken, directory);
        for (slot = 0; slot < 15; slot++)
            mark_file(taken, disc, slots + 16 * slot);
        directory = link_of(disc, directory);
    }
}

/* From the last sector to the first, so that each links to the one behind. */
void put_free_chain(struct disc *disc, const struct taken *taken)
{
    struct place next = { 0, 0 };
    unsigned n, free_count = 0;

    for (n = sector_count(disc); n > 0; n--) {
        struct place here = passed_place(n - 1);

        if (taken->marks[number_of(here)])
            continue;
        put_link(disc, here, next);
        next = here;
        free_count++;
    }
    put_free_pointer(disc, next);
    put_counts(disc, free_count, taken->used_count);
}

void spoil_free_chain(struct disc *disc, const struct taken *taken,
                      unsigned byte)
{
    unsigned number;

    for (number = 0; number < sector_count(disc); number++)
        if (!taken->marks[number])
            memset(disc->bytes + 256 * number, (int)byte, 2);
    memset(disc->bytes + 0x10, (int)byte, 2);
    memset(disc->bytes + 0x14, (int)byte, 4);
}

void make_repaired(struct disc *disc)
{
    struct taken taken;

    mark_taken(&taken, disc);
    put_free_chain(disc, &taken);
}
