#include "chains.h"

#include <stdio.h>
#include <string.h>

#include "text.h"

/* Positions in the system sector. */
enum {
    FREE_POINTER = 0x10,
    DIRECTORY_POINTER = 0x12,
    FREE_COUNT = 0x14,
    USED_COUNT = 0x16,
    DISC_NAME = 0x18
};

/* Positions in a directory sector and in an entry. */
enum {
    ENTRIES = 2,
    FIRST_SLOT = 3,
    SLOT_SIZE = 16,
    ENTRY_LENGTH = 9,
    ENTRY_FIRST = 11,
    ENTRY_LAST = 13,
    ENTRY_ATTRIBUTE = 15
};

/* No chain: the value of met_by for a sector that none has met. */
#define NO_CHAIN MAX_CHAINS

struct pair pair_of(const struct chains *chains, unsigned number)
{
    struct pair pair;

    pair.track = number / chains->sectors_per_track;
    pair.sector = number % chains->sectors_per_track + 1;
    return pair;
}

unsigned number_of(const struct chains *chains, struct pair pair)
{
    return pair.track * chains->sectors_per_track + pair.sector - 1;
}

/* Sector, then track: so pairs stand in the system sector and in entries. */
static struct pair stored_pair(const uint8_t *bytes)
{
    struct pair pair;

    pair.track = bytes[1];
    pair.sector = bytes[0];
    return pair;
}

/* Track, then sector: so links stand. */
static struct pair link_of(const struct chains *chains, unsigned number)
{
    const uint8_t *bytes = chains->sector[number].bytes;
    struct pair pair;

    pair.track = bytes[0];
    pair.sector = bytes[1];
    return pair;
}

static bool is_on_disc(const struct chains *chains, struct pair pair)
{
    return pair.track < chains->tracks && pair.sector >= 1 &&
           pair.sector <= chains->sectors_per_track;
}

static void meet(struct chains *chains, unsigned number, unsigned chain,
                 unsigned position)
{
    struct sector *sector = &chains->sector[number];
    struct meeting meeting;

    meeting.chain = chain;
    meeting.position = position;
    if (sector->meetings == 0)
        sector->first = meeting;
    else if (sector->meetings == 1)
        sector->second = meeting;
    sector->meetings++;
    chains->met_by[number] = chain;
}

static void leave_disc(struct chains *chains, struct chain *chain)
{
    chain->end = CHAIN_LEAVES;
    if (chain->length > 0)
        chains->sector[chains->order[chain->length - 1]].links_off = true;
}

/* Each turn meets a sector that this walk has not met, so there are at most as
 * many as the disc has sectors. */
static void walk(struct chains *chains, unsigned number)
{
    struct chain *chain = &chains->chain[number];
    struct pair next = chain->first;

    for (;;) {
        unsigned sector;

        chain->next = next;
        if (next.sector == 0 && chain->length > 0)
            return;
        if (!is_on_disc(chains, next)) {
            leave_disc(chains, chain);
            return;
        }
        sector = number_of(chains, next);
        if (sector == 0 || chains->met_by[sector] == number) {
            chain->end = CHAIN_RETURNS;
            meet(chains, sector, number, chain->length + 1);
            return;
        }
        chain->last = next;
        chains->order[chain->length++] = sector;
        meet(chains, sector, number, chain->length);
        next = link_of(chains, sector);
    }
}

static const uint8_t *system_sector(const struct chains *chains)
{
    return chains->sector[0].bytes;
}

static void follow_directory(struct chains *chains)
{
    struct chain *directory = &chains->chain[DIRECTORY_CHAIN];

    directory->first = stored_pair(system_sector(chains) + DIRECTORY_POINTER);
    walk(chains, DIRECTORY_CHAIN);
    /* Nothing on the disc says how long its directory is. */
    directory->said_length = directory->length;
}

static void follow_free(struct chains *chains)
{
    struct chain *free_chain = &chains->chain[FREE_CHAIN];

    free_chain->first = stored_pair(system_sector(chains) + FREE_POINTER);
    free_chain->said_length = word_at(system_sector(chains) + FREE_COUNT);
    /* Without a free sector there is no chain to follow. */
    if (free_chain->first.sector != 0)
        walk(chains, FREE_CHAIN);
}

static bool is_free_slot(const uint8_t *slot)
{
    static const uint8_t zeros[SLOT_SIZE];

    return memcmp(slot, zeros, SLOT_SIZE) == 0;
}

static void add_files_of(struct chains *chains, unsigned sector)
{
    const uint8_t *slot = chains->sector[sector].bytes + FIRST_SLOT;
    unsigned i;

    for (i = 0; i < SLOTS_PER_SECTOR; i++, slot += SLOT_SIZE) {
        struct chain *file = &chains->chain[chains->count];

        if (is_free_slot(slot))
            continue;
        file->name = slot;
        file->entry.sector = sector;
        file->entry.slot = i + 1;
        file->entry.attribute = slot[ENTRY_ATTRIBUTE];
        file->said_length = word_at(slot + ENTRY_LENGTH);
        file->first = stored_pair(slot + ENTRY_FIRST);
        file->said_last = stored_pair(slot + ENTRY_LAST);
        chains->said_files += file->said_length;
        chains->count++;
    }
}

static void follow_files(struct chains *chains)
{
    unsigned directory_length = chains->chain[DIRECTORY_CHAIN].length;
    unsigned i;

    /* The order is still that of the directory. */
    for (i = 0; i < directory_length; i++)
        add_files_of(chains, chains->order[i]);
    for (i = FIRST_FILE_CHAIN; i < chains->count; i++)
        walk(chains, i);
}

/* The sectors of the image, none of them met. */
static void find_sectors(struct chains *chains)
{
    unsigned i;

    chains->tracks = track_count(chains->image);
    chains->sectors_per_track = chains->image->sectors;
    chains->sectors = chains->tracks * chains->sectors_per_track;
    for (i = 0; i < chains->sectors; i++) {
        struct pair pair = pair_of(chains, i);

        chains->sector[i].bytes =
            chains->image->bytes +
            sector_start(chains->image, pair.track, pair.sector);
        chains->met_by[i] = NO_CHAIN;
    }
}

void follow_chains(struct chains *chains, const struct image *image)
{
    memset(chains, 0, sizeof *chains);
    chains->image = image;
    find_sectors(chains);
    chains->disc_name = system_sector(chains) + DISC_NAME;
    chains->count = FIRST_FILE_CHAIN;
    chains->said_used = word_at(system_sector(chains) + USED_COUNT);
    meet(chains, 0, SYSTEM_CHAIN, 1);
    chains->chain[SYSTEM_CHAIN].length = 1;
    follow_directory(chains);
    follow_files(chains);
    follow_free(chains);
}

unsigned said_entries(const struct sector *sector)
{
    return sector->bytes[ENTRIES];
}

bool is_lost(const struct sector *sector)
{
    return sector->meetings == 0;
}

bool is_met_again(const struct sector *sector)
{
    return sector->meetings > 1;
}

const char *chain_label(unsigned chain, char text[CHAIN_TEXT_SIZE])
{
    switch (chain) {
    case SYSTEM_CHAIN: return "sys";
    case DIRECTORY_CHAIN: return "dir";
    case FREE_CHAIN: return ".";
    default:
        snprintf(text, CHAIN_TEXT_SIZE, "%u", chain - FIRST_FILE_CHAIN + 1);
        return text;
    }
}

const char *chain_name(const struct chains *chains, unsigned chain,
                       char text[CHAIN_TEXT_SIZE])
{
    switch (chain) {
    case SYSTEM_CHAIN: return "system sector";
    case DIRECTORY_CHAIN: return "directory";
    case FREE_CHAIN: return "free chain";
    default: return file_name_text(chains->chain[chain].name, text);
    }
}
