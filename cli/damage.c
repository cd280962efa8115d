#include "damage.h"

#include <stdio.h>
#include <string.h>

#include "text.h"

#define PLACE "%u/%u"

/* Room for the name of a chain and a number. */
#define MEETING_TEXT_SIZE (CHAIN_TEXT_SIZE + 32)

/* "A (sector 3)": of the system sector, which is but one, the name alone. */
static const char *meeting_text(const struct chains *chains,
                                struct meeting meeting,
                                char text[MEETING_TEXT_SIZE])
{
    char name[CHAIN_TEXT_SIZE];

    if (meeting.chain == SYSTEM_CHAIN)
        return chain_name(chains, meeting.chain, name);
    snprintf(text, MEETING_TEXT_SIZE, "%s (sector %u)",
             chain_name(chains, meeting.chain, name), meeting.position);
    return text;
}

const char *met_again_text(const struct chains *chains, unsigned number,
                           char text[DAMAGE_TEXT_SIZE])
{
    const struct sector *sector = &chains->sector[number];
    struct pair place = pair_of(chains, number);
    char first[MEETING_TEXT_SIZE], second[MEETING_TEXT_SIZE], more[32] = "";

    if (sector->meetings > 2)
        snprintf(more, sizeof more, ", and %u more", sector->meetings - 2);
    snprintf(text, DAMAGE_TEXT_SIZE, PLACE ": %s, %s%s", place.track,
             place.sector, meeting_text(chains, sector->first, first),
             meeting_text(chains, sector->second, second), more);
    return text;
}

/* A chain leaves the disc from its last sector, or does not even begin. */
const char *linked_off_text(const struct chains *chains, unsigned number,
                            char text[DAMAGE_TEXT_SIZE])
{
    const struct chain *chain = &chains->chain[number];
    char name[CHAIN_TEXT_SIZE], from[32] = "beginning";

    if (chain->length > 0)
        snprintf(from, sizeof from, PLACE, chain->last.track,
                 chain->last.sector);
    snprintf(text, DAMAGE_TEXT_SIZE, "%s of %s: to " PLACE, from,
             chain_name(chains, number, name), chain->next.track,
             chain->next.sector);
    return text;
}

bool ends_elsewhere(const struct chain *chain)
{
    return chain->name != NULL && chain->end == CHAIN_ENDS &&
           (chain->last.track != chain->said_last.track ||
            chain->last.sector != chain->said_last.sector);
}

const char *ended_elsewhere_text(const struct chains *chains, unsigned number,
                                 char text[DAMAGE_TEXT_SIZE])
{
    const struct chain *chain = &chains->chain[number];
    char name[CHAIN_TEXT_SIZE];

    snprintf(text, DAMAGE_TEXT_SIZE, "%s: at " PLACE ", the entry says " PLACE,
             chain_name(chains, number, name), chain->last.track,
             chain->last.sector, chain->said_last.track,
             chain->said_last.sector);
    return text;
}

static const char *under(const char *heading, const char *piece,
                         char text[DAMAGE_TEXT_SIZE])
{
    snprintf(text, DAMAGE_TEXT_SIZE, "%s: %s", heading, piece);
    return text;
}

/* Of a chain that does not end. */
static const char *stop_damage(const struct chains *chains, unsigned number,
                               char text[DAMAGE_TEXT_SIZE])
{
    const struct chain *chain = &chains->chain[number];
    char piece[DAMAGE_TEXT_SIZE];

    if (chain->end == CHAIN_LEAVES)
        return under(LINKED_OFF, linked_off_text(chains, number, piece), text);
    return under(MET_AGAIN,
                 met_again_text(chains, number_of(chains, chain->next), piece),
                 text);
}

static unsigned entries_of(const struct chains *chains, unsigned sector)
{
    unsigned found = 0, i;

    for (i = FIRST_FILE_CHAIN; i < chains->count; i++)
        found += chains->chain[i].entry.sector == sector;
    return found;
}

/* The directory is followed before the files. */
static bool is_miscounted(const struct chains *chains, unsigned number)
{
    const struct sector *sector = &chains->sector[number];

    return !is_lost(sector) && sector->first.chain == DIRECTORY_CHAIN &&
           said_entries(sector) != entries_of(chains, number);
}

static bool is_name_part(const uint8_t *bytes, size_t size, size_t least)
{
    size_t length = unpadded_length(bytes, size), i = 0;

    while (i < length && ((bytes[i] >= 'A' && bytes[i] <= 'Z') ||
                          (bytes[i] >= '0' && bytes[i] <= '9')))
        i++;
    return i == length && length >= least;
}

/* What is wrong with an entry; NULL where nothing is. */
static const char *entry_fault(const struct chain *file)
{
    if (!is_name_part(file->name, NAME_PART, 1) ||
        !is_name_part(file->name + NAME_PART, EXTENSION_PART, 0))
        return "no file has such a name";
    if (file->said_length == 0)
        return "the length is 0";
    if (file->entry.attribute != TANDOS_ATTRIBUTE_NONE &&
        file->entry.attribute != TANDOS_ATTRIBUTE_PROTECTED)
        return "the attribute is neither $00 nor $80";
    return NULL;
}

/* Of a disc on which there is one, or a sector that is miscounted. */
static const char *entry_damage(const struct chains *chains,
                                char text[DAMAGE_TEXT_SIZE])
{
    unsigned i = FIRST_FILE_CHAIN;
    const struct chain *file;
    char name[CHAIN_TEXT_SIZE];
    struct pair place;

    while (entry_fault(&chains->chain[i]) == NULL)
        i++;
    file = &chains->chain[i];
    place = pair_of(chains, file->entry.sector);
    snprintf(text, DAMAGE_TEXT_SIZE, "Wrong entry: " PLACE ", slot %u, %s: %s",
             place.track, place.sector, file->entry.slot,
             chain_name(chains, i, name), entry_fault(file));
    return text;
}

static const char *directory_damage(const struct chains *chains,
                                    char text[DAMAGE_TEXT_SIZE])
{
    struct pair place;
    unsigned i = 0;

    while (i < chains->sectors && !is_miscounted(chains, i))
        i++;
    if (i == chains->sectors)
        return entry_damage(chains, text);
    place = pair_of(chains, i);
    snprintf(text, DAMAGE_TEXT_SIZE,
             "Wrong number of entries: " PLACE ": it says %u, but has %u",
             place.track, place.sector, said_entries(&chains->sector[i]),
             entries_of(chains, i));
    return text;
}

/* The first file of the same name. */
static unsigned namesake_of(const struct chains *chains, unsigned number)
{
    unsigned i = FIRST_FILE_CHAIN;

    while (memcmp(chains->chain[i].name, chains->chain[number].name,
                  TANDOS_NAME_SIZE) != 0)
        i++;
    return i;
}

/* Of a disc on which two entries have the same name. */
static const char *name_damage(const struct chains *chains,
                               char text[DAMAGE_TEXT_SIZE])
{
    unsigned second = FIRST_FILE_CHAIN;
    const struct entry *entry, *other;
    struct pair place, other_place;
    char name[CHAIN_TEXT_SIZE];

    while (namesake_of(chains, second) == second)
        second++;
    entry = &chains->chain[namesake_of(chains, second)].entry;
    other = &chains->chain[second].entry;
    place = pair_of(chains, entry->sector);
    other_place = pair_of(chains, other->sector);
    snprintf(text, DAMAGE_TEXT_SIZE, "The same name: %s: " PLACE ", slot %u, "
             "and " PLACE ", slot %u", chain_name(chains, second, name),
             place.track, place.sector, entry->slot, other_place.track,
             other_place.sector, other->slot);
    return text;
}

/* Of a file; NULL where its chain is as its entry says. */
static const char *chain_damage(const struct chains *chains, unsigned number,
                                char text[DAMAGE_TEXT_SIZE])
{
    const struct chain *chain = &chains->chain[number];
    char piece[DAMAGE_TEXT_SIZE], name[CHAIN_TEXT_SIZE];

    if (chain->end != CHAIN_ENDS)
        return stop_damage(chains, number, text);
    if (ends_elsewhere(chain))
        return under(ENDED_ELSEWHERE,
                     ended_elsewhere_text(chains, number, piece), text);
    if (chain->length == chain->said_length)
        return NULL;
    snprintf(text, DAMAGE_TEXT_SIZE, "Not as long as the entry says: %s: %u "
             "sector%s, the entry says %u", chain_name(chains, number, name),
             chain->length, plural(chain->length), chain->said_length);
    return text;
}

/* The free chain is followed last: only after it is no place of a file met. */
static bool is_met_by_files(const struct sector *sector)
{
    return is_met_again(sector) && sector->second.chain != FREE_CHAIN;
}

/* Of a disc on which a file's chain is wrong, or has a sector of another. */
static const char *file_damage(const struct chains *chains,
                               char text[DAMAGE_TEXT_SIZE])
{
    char piece[DAMAGE_TEXT_SIZE];
    const char *found = NULL;
    unsigned i;

    for (i = FIRST_FILE_CHAIN; i < chains->count && found == NULL; i++)
        found = chain_damage(chains, i, text);
    if (found != NULL)
        return found;
    for (i = 0; !is_met_by_files(&chains->sector[i]); i++)
        continue;
    return under(MET_AGAIN, met_again_text(chains, i, piece), text);
}

const char *first_damage(const struct chains *chains, uint32_t rule,
                         char text[DAMAGE_TEXT_SIZE])
{
    switch (rule) {
    case 1:
    case 2: return stop_damage(chains, DIRECTORY_CHAIN, text);
    case 3: return directory_damage(chains, text);
    case 4: return name_damage(chains, text);
    default: return file_damage(chains, text);
    }
}
