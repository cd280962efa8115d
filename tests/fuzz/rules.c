#include "rules.h"

#include <string.h>

#include "expected.h"
#include "places.h"

/* More than any chain on a disc. */
#define NO_CHAIN SIZE_MAX

#define ENTRIES_MOST \
    (SLOTS_PER_DIRECTORY_SECTOR * TANDOS_TEN * TANDOS_MAX_TRACKS)

/* The entries of the disc that is judged, in directory order. */
static const uint8_t *entries[ENTRIES_MOST];
static size_t entry_count;

static uint8_t *place_of(struct met *met, struct stated stated,
                         struct link link)
{
    return &met->places[sectors_of(stated) * link.track + link.sector - 1];
}

enum place place_in(const struct met *met, struct stated stated, size_t track,
                    size_t sector)
{
    return (enum place)met->places[sectors_of(stated) * track + sector - 1];
}

/* Marks the sectors of a chain up to its end link and gives its length, or
 * NO_CHAIN if it leaves the disc or meets a sector that was met. `last` becomes
 * its last sector. */
static size_t mark_chain(const struct image *image, struct met *met,
                         struct link link, enum place place, struct link *last)
{
    size_t length = 0;

    for (; link.sector != 0; link = link_at(sector_at(image, link))) {
        uint8_t *met_at;

        if (!is_on_disc(image, link.track, link.sector))
            return NO_CHAIN;
        met_at = place_of(met, image->stated, link);
        if (*met_at != PLACE_NONE)
            return NO_CHAIN;
        *met_at = (uint8_t)place;
        *last = link;
        length++;
    }
    met->counts[place] += length;
    return length;
}

static int is_good_entry(const uint8_t *entry)
{
    uint8_t attribute = entry[ENTRY_ATTRIBUTE];

    return is_stored_name(entry) && word_at(entry + ENTRY_LENGTH) >= 1 &&
           (attribute == TANDOS_ATTRIBUTE_NONE ||
            attribute == TANDOS_ATTRIBUTE_PROTECTED);
}

/* Rule 3 of one directory sector, whose entries are taken. */
static int take_entries(const uint8_t *directory)
{
    size_t first = entry_count;
    size_t good = 0;
    unsigned i;

    for (i = 0; i < SLOTS_PER_DIRECTORY_SECTOR; i++) {
        const uint8_t *slot = directory + FIRST_SLOT + SLOT_SIZE * i;

        if (is_free_slot(slot))
            continue;
        entries[entry_count++] = slot;
        good += (size_t)is_good_entry(slot);
    }
    return entry_count - first == good && directory[SLOTS_IN_USE] == good;
}

static int is_rule_3(const struct image *image, struct link link)
{
    int holds = 1;

    entry_count = 0;
    for (; link.sector != 0; link = link_at(sector_at(image, link)))
        holds &= take_entries(sector_at(image, link));
    return holds;
}

static int is_name_before(size_t count)
{
    size_t i;

    for (i = 0; i < count; i++)
        if (memcmp(entries[i], entries[count], TANDOS_NAME_SIZE) == 0)
            return 1;
    return 0;
}

static int is_rule_4(void)
{
    size_t i;

    for (i = 0; i < entry_count; i++)
        if (is_name_before(i))
            return 0;
    return 1;
}

static int is_rule_5(const struct image *image, struct met *met)
{
    size_t i;

    for (i = 0; i < entry_count; i++) {
        struct link end = pointer_at(entries[i] + ENTRY_LAST);
        struct link last = { 0, 0 };
        size_t length = mark_chain(image, met,
                                   pointer_at(entries[i] + ENTRY_FIRST),
                                   PLACE_FILE, &last);

        if (length != word_at(entries[i] + ENTRY_LENGTH) ||
            last.track != end.track || last.sector != end.sector)
            return 0;
    }
    return 1;
}

static unsigned broken_free(const struct image *image, struct met *met)
{
    const uint8_t *system = system_sector(image);
    struct link last;
    size_t length = mark_chain(image, met, pointer_at(system + SYSTEM_FREE),
                               PLACE_FREE, &last);

    if (length != word_at(system + SYSTEM_FREE_COUNT))
        return 6;
    if (met->counts[PLACE_FILE] != word_at(system + SYSTEM_USED_COUNT))
        return 7;
    if (1 + met->counts[PLACE_DIRECTORY] + met->counts[PLACE_FILE] + length !=
        image->length / TANDOS_SECTOR_SIZE)
        return 8;
    return 0;
}

unsigned broken_rule(const struct image *image, struct met *met)
{
    struct link first = pointer_at(system_sector(image) + SYSTEM_DIRECTORY);
    struct link last;

    memset(met, 0, sizeof *met);
    *place_of(met, image->stated, system_link) = PLACE_SYSTEM;
    if (!is_on_disc(image, first.track, first.sector) ||
        *place_of(met, image->stated, first) == PLACE_SYSTEM)
        return 1;
    if (mark_chain(image, met, first, PLACE_DIRECTORY, &last) == NO_CHAIN)
        return 2;
    if (!is_rule_3(image, first))
        return 3;
    if (!is_rule_4())
        return 4;
    if (!is_rule_5(image, met))
        return 5;
    return broken_free(image, met);
}
