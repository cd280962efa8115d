#include "repairs.h"

#include <string.h>

#include "calls.h"
#include "counters.h"
#include "finding.h"
#include "places.h"
#include "rules.h"
#include "twins.h"

static int is_threaded(enum place place)
{
    return place == PLACE_NONE || place == PLACE_FREE;
}

/* Links the sectors that are threaded, from the last to the first, so that each
 * gets the one before it in this walk. Gives their number; `next` becomes the
 * first of them. */
static size_t thread(struct image *image, const struct met *met,
                     struct link *next)
{
    const uint8_t *order = passing_order(image->stated);
    size_t sectors = sectors_of(image->stated);
    size_t i = image->length / TANDOS_SECTOR_SIZE;
    size_t count = 0;

    next->track = 0;
    next->sector = 0;
    while (i-- > 0) {
        struct link here = { i / sectors, order[i % sectors] };
        uint8_t *link = sector_to_write(image, here);

        if (!is_threaded(place_in(met, image->stated, here.track,
                                  here.sector)))
            continue;
        link[0] = (uint8_t)next->track;
        link[1] = (uint8_t)next->sector;
        *next = here;
        count++;
    }
    return count;
}

static void count_counts(struct stated stated, const struct met *met,
                         size_t free_sectors)
{
    if (free_sectors == 0)
        count_repair_occasion(stated, REPAIR_NONE);
    if (free_sectors == 1)
        count_repair_occasion(stated, REPAIR_ONE);
    if (free_sectors > UINT8_MAX)
        count_repair_occasion(stated, REPAIR_FREE_WORD);
    if (met->counts[PLACE_FILE] > UINT8_MAX)
        count_repair_occasion(stated, REPAIR_USED_WORD);
    if (met->counts[PLACE_DIRECTORY] > 1)
        count_repair_occasion(stated, REPAIR_GROWN);
}

/* The answer; the image becomes what has to stand after it, and `rule` the one
 * that was broken. */
static uint32_t expected_repair(struct image *image, unsigned *rule)
{
    static struct met met;
    uint8_t *system;
    struct link first;
    size_t free_sectors;

    *rule = 0;
    if (!is_image(image))
        return TANDOS_SIZE;
    *rule = broken_rule(image, &met);
    if (*rule >= 1 && *rule <= LAST_STANDING_RULE)
        return TANDOS_UNSOUND;
    free_sectors = thread(image, &met, &first);
    system = sector_to_write(image, system_link);
    system[SYSTEM_FREE] = (uint8_t)first.sector;
    system[SYSTEM_FREE + 1] = (uint8_t)first.track;
    put_word(system + SYSTEM_FREE_COUNT, free_sectors);
    put_word(system + SYSTEM_USED_COUNT, met.counts[PLACE_FILE]);
    count_counts(image->stated, &met, free_sectors);
    return TANDOS_DONE;
}

static void require_settled(const struct image *repaired)
{
    static struct image again;

    copy_image(&again, repaired);
    REQUIRE_EQUAL(TANDOS_DONE, call_repair(&again), "a second repair");
    REQUIRE(memcmp(repaired->bytes, again.bytes, again.length) == 0,
            "a second repair changes something");
}

static void count_repair(struct change change, unsigned rule)
{
    static const enum repair_occasion occasions[] = {
        REPAIR_KEEPS, REPAIR_RULE_1, REPAIR_RULE_2, REPAIR_RULE_3,
        REPAIR_RULE_4, REPAIR_RULE_5, REPAIR_RULE_6, REPAIR_RULE_7,
        REPAIR_RULE_8
    };
    const struct image *image = change.before;
    enum repair_occasion occasion = occasions[rule];

    if (rule == 0 && memcmp(image->bytes, change.after->bytes,
                            image->length) != 0)
        occasion = REPAIR_ORDERS;
    count_repair_occasion(image->stated, occasion);
}

uint32_t repair(struct image *image)
{
    static struct image before, expected;
    struct change change = { &before, image, TANDOS_DONE };
    unsigned rule;

    copy_image(&before, image);
    copy_image(&expected, image);
    change.number = expected_repair(&expected, &rule);
    REQUIRE_EQUAL(change.number, call_repair(image), "repair");
    REQUIRE(memcmp(expected.bytes, image->bytes, image->length) == 0,
            "a repair leaves another image");
    twin_repair(change);
    if (change.number == TANDOS_DONE)
        require_settled(image);
    if (change.number != TANDOS_SIZE)
        count_repair(change, rule);
    return change.number;
}
