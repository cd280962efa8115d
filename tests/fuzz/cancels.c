#include "cancels.h"

#include <string.h>

#include "counters.h"
#include "expected.h"
#include "finding.h"
#include "places.h"

/* The first byte behind a sector's link, and the last. */
#define BODY_FIRST TANDOS_LINK_SIZE
#define BODY_LAST (TANDOS_SECTOR_SIZE - 1)

static struct link first_free(const struct image *image)
{
    return pointer_at(system_sector(image) + SYSTEM_FREE);
}

/* Puts the bytes that may differ back to what they were. Which these are is
 * found in the image before alone: the file took so many sectors from the head
 * of the free chain. */
static void put_back(struct image *deleted, const struct image *before,
                     size_t taken)
{
    struct link link = first_free(before);

    for (; taken > 0; taken--) {
        const uint8_t *was = sector_at(before, link);
        uint8_t *is = sector_to_write(deleted, link);

        memcpy(is + BODY_FIRST, was + BODY_FIRST, TANDOS_VIEW_SIZE);
        link = link_at(was);
        if (link.sector == 0)
            is[0] = was[0];
    }
}

/* Where the file ended in the free chain, and what became of that chain's
 * end. */
static void count_end(const struct image *before, const struct image *deleted,
                      size_t taken)
{
    struct stated stated = before->stated;
    struct link link = first_free(before);
    struct link end = link;
    size_t length = 0;
    unsigned track;

    for (; link.sector != 0; link = link_at(sector_at(before, link))) {
        end = link;
        length++;
    }
    track = sector_at(before, end)[0];
    count_cancel_occasion(stated, length == taken ? CANCEL_REACHES
                                                  : CANCEL_STOPS);
    if (length == 1)
        count_cancel_occasion(stated, CANCEL_ONLY);
    if (length > taken && track != 0)
        count_cancel_occasion(stated, CANCEL_KEEPS_END);
    if (sector_at(deleted, end)[0] != track)
        count_cancel_occasion(stated, CANCEL_CLEARS_END);
}

/* Which bytes behind the links of the file's sectors really differ. */
static void count_bodies(const struct image *before,
                         const struct image *deleted, size_t taken)
{
    struct stated stated = before->stated;
    struct link link = first_free(before);
    int differ = 0;

    for (; taken > 0; taken--) {
        const uint8_t *was = sector_at(before, link);
        const uint8_t *is = sector_at(deleted, link);

        differ |= memcmp(was + BODY_FIRST, is + BODY_FIRST, TANDOS_VIEW_SIZE);
        if (was[BODY_FIRST] != is[BODY_FIRST])
            count_cancel_occasion(stated, CANCEL_BYTE_2);
        if (was[BODY_LAST] != is[BODY_LAST])
            count_cancel_occasion(stated, CANCEL_BYTE_255);
        link = link_at(was);
    }
    if (!differ)
        count_cancel_occasion(stated, CANCEL_SAME);
}

/* The file's slot was in a directory sector before the last. */
static void count_slot(const struct image *after, struct text name)
{
    uint8_t stored[TANDOS_NAME_SIZE];
    struct standing standing;

    store_name(name, stored);
    standing = find_entry(after, stored);
    if (link_at(sector_at(after, standing.directory)).sector != 0)
        count_cancel_occasion(after->stated, CANCEL_EARLIER);
}

void require_save_cancels(const struct moment *before,
                          const struct moment *after, struct text name,
                          const struct module *module, size_t buffer_length)
{
    static struct image deleted;
    size_t taken = module_sectors(module->sheet.length);

    if (need(&before->state, module->sheet.length) > taken) {
        count_cancel_occasion(before->image.stated, CANCEL_GROWS);
        return;
    }
    copy_image(&deleted, &after->image);
    REQUIRE_EQUAL(TANDOS_DONE,
                  call_delete(&deleted, name, buffer_length).number,
                  "delete of the file just saved");
    count_end(&before->image, &deleted, taken);
    count_bodies(&before->image, &deleted, taken);
    count_slot(&after->image, name);
    put_back(&deleted, &before->image, taken);
    REQUIRE(memcmp(before->image.bytes, deleted.bytes, deleted.length) == 0,
            "a save and the delete of its file do not cancel");
}

static int is_same_name(struct text one, struct text other)
{
    uint8_t stored[TANDOS_NAME_SIZE], other_stored[TANDOS_NAME_SIZE];

    return store_name(one, stored) && store_name(other, other_stored) &&
           memcmp(stored, other_stored, TANDOS_NAME_SIZE) == 0;
}

static enum cancel_occasion second_occasion(const struct renames *renames,
                                            uint32_t number)
{
    if (number == TANDOS_NAME)
        return RENAME_NO_NAME;
    if (number == TANDOS_TAKEN)
        return is_same_name(renames->second, renames->third) ? RENAME_ITSELF
                                                             : RENAME_TAKEN;
    return is_same_name(renames->first, renames->third) ? RENAME_BACK
                                                        : RENAME_ON;
}

/* A refusal of the second rename ends it. */
static void require_joined(const struct moment *before,
                           const struct moment *after,
                           const struct renames *renames, size_t second_length)
{
    static struct image twice, once;
    uint32_t number = expected_rename(&after->state, renames->second,
                                      renames->third, second_length);

    copy_image(&twice, &after->image);
    REQUIRE_EQUAL(number,
                  call_rename(&twice, renames->second, renames->third,
                              second_length).number,
                  "a second rename");
    count_cancel_occasion(twice.stated, second_occasion(renames, number));
    if (number != TANDOS_DONE)
        return;
    copy_image(&once, &before->image);
    if (!is_same_name(renames->first, renames->third))
        REQUIRE_EQUAL(TANDOS_DONE,
                      call_rename(&once, renames->first, renames->third,
                                  renames->buffer_length).number,
                      "one rename in place of two");
    REQUIRE(memcmp(once.bytes, twice.bytes, once.length) == 0,
            "two renames leave another image than one, or than none");
}

void require_renames_join(const struct moment *before,
                          const struct moment *after, struct renames renames)
{
    require_joined(before, after, &renames, TANDOS_ENTRY_WRITES_SIZE);
    renames.third = renames.first;
    require_joined(before, after, &renames, renames.buffer_length);
}
