#include "promises.h"

#include <string.h>

#include "blank.h"
#include "expected.h"
#include "finding.h"
#include "writes.h"

/* Stands for the file of a state that has no counterpart in the other. */
#define NONE TANDOS_MAX_FILES

/* The most bytes that delete may change: a slot, its sector's count, a link,
 * the free pointer, both counts. */
#define DELETE_BYTES (16 + 1 + 2 + 2 + 4)

static size_t index_of(const struct state *state, struct text name)
{
    uint8_t stored[TANDOS_NAME_SIZE];
    const struct file *file;

    REQUIRE(store_name(name, stored), "an illegal name is accepted");
    file = find(state, stored);
    return file == NULL ? NONE : (size_t)(file - state->files);
}

static int is_same_reading(const struct file *one, const struct file *other)
{
    return one->sectors == other->sectors && one->hash == other->hash &&
           memcmp(&one->reading, &other->reading, sizeof one->reading) == 0;
}

static int is_same_file(const struct file *one, const struct file *other)
{
    return memcmp(one->name, other->name, TANDOS_NAME_SIZE) == 0 &&
           one->attribute == other->attribute && is_same_reading(one, other);
}

/* All files but these two stand as they did, in the same order. */
static void require_others_kept(const struct state *before, size_t left_out,
                                const struct state *after, size_t added)
{
    size_t i = 0, j = 0;

    for (;;) {
        i += i == left_out;
        j += j == added;
        if (i >= before->file_count || j >= after->file_count)
            break;
        REQUIRE(is_same_file(&before->files[i], &after->files[j]),
                "a file that the command does not name is changed");
        i++;
        j++;
    }
    REQUIRE(i >= before->file_count && j >= after->file_count,
            "files that the command does not name come or go");
    REQUIRE(memcmp(before->disc_name, after->disc_name, TANDOS_NAME_SIZE) == 0,
            "the disc's name is changed");
}

static void require_counts(const struct state *state, size_t free_sectors,
                           size_t directory_sectors)
{
    REQUIRE_EQUAL(free_sectors, state->free_sectors, "free sectors");
    REQUIRE_EQUAL(directory_sectors, state->directory_sectors,
                  "directory sectors");
}

static size_t changed_bytes(const struct image *one, const struct image *other)
{
    size_t changed = 0;
    size_t i;

    for (i = 0; i < one->length; i++)
        changed += one->bytes[i] != other->bytes[i];
    return changed;
}

static size_t changed_sectors(const struct image *one,
                              const struct image *other)
{
    size_t changed = 0;
    size_t at;

    for (at = 0; at < one->length; at += TANDOS_SECTOR_SIZE)
        changed += memcmp(one->bytes + at, other->bytes + at,
                          TANDOS_SECTOR_SIZE) != 0;
    return changed;
}

static void require_absent(const struct moment *moment, struct text name)
{
    struct lent lent = lend(moment->image.bytes, moment->image.length);

    REQUIRE_EQUAL(TANDOS_ABSENT,
                  call_read(&lent, moment->image.stated, name, 0).number,
                  "read of a name that no longer stands");
    give_back_kept(&lent, moment->image.bytes, "read changes the image");
}

void require_replayed(const struct image *before, const struct image *after,
                      struct text writes)
{
    static struct image replayed;

    copy_image(&replayed, before);
    REQUIRE_EQUAL(TANDOS_DONE, call_replay(&replayed, writes),
                  "replay of a command's list");
    REQUIRE(memcmp(replayed.bytes, after->bytes, after->length) == 0,
            "replay of a command's list leaves another disc");
}

/* The list has these bytes, and does what the command did. */
static void require_writes(const struct moment *before,
                           const struct moment *after, struct text expected,
                           struct text writes)
{
    REQUIRE_EQUAL(expected.length, writes.length, "length of a list of writes");
    REQUIRE(memcmp(expected.bytes, writes.bytes, writes.length) == 0,
            "a list of writes has other bytes");
    require_replayed(&before->image, &after->image, writes);
}

void require_saved(const struct moment *before, const struct moment *after,
                   struct text name, const struct module *module,
                   struct text writes)
{
    size_t length = module->sheet.length;
    size_t needed = need(&before->state, length);
    size_t grown = needed - module_sectors(length);
    size_t added = index_of(&after->state, name);
    const struct file *file = &after->state.files[added];
    const tandos_reading *reading = &file->reading;

    REQUIRE(added != NONE, "a saved file does not stand");
    REQUIRE_EQUAL(TANDOS_ATTRIBUTE_NONE, file->attribute, "attribute");
    REQUIRE_EQUAL(TANDOS_DONE, reading->number, "read of a saved file");
    REQUIRE(reading->page == module->page && reading->start == module->start &&
            reading->transfer == module->transfer &&
            reading->length == length &&
            file->hash == hash_of(module->sheet.bytes, length),
            "a saved file reads otherwise");
    require_others_kept(&before->state, NONE, &after->state, added);
    require_counts(&after->state, before->state.free_sectors - needed,
                   before->state.directory_sectors + grown);
    /* The system sector, the entry's, and where the directory grows the one
     * that is linked from. */
    REQUIRE(changed_sectors(&before->image, &after->image) <= needed + 2,
            "save changes other sectors");
    require_writes(before, after,
                   save_writes(&before->image, &after->image, file->name),
                   writes);
    REQUIRE(writes.length <= TANDOS_SAVE_WRITES_MAX, "a longer list of writes");
}

void require_deleted(const struct moment *before, const struct moment *after,
                     struct text name, struct text writes)
{
    size_t gone = index_of(&before->state, name);

    REQUIRE(index_of(&after->state, name) == NONE, "a deleted file stands");
    require_absent(after, name);
    require_others_kept(&before->state, gone, &after->state, NONE);
    require_counts(&after->state, before->state.free_sectors +
                                  before->state.files[gone].sectors,
                   before->state.directory_sectors);
    REQUIRE(changed_bytes(&before->image, &after->image) <= DELETE_BYTES,
            "delete changes other bytes");
    require_writes(before, after,
                   delete_writes(&before->image, &after->image,
                                 before->state.files[gone].name),
                   writes);
}

void require_renamed(const struct moment *before, const struct moment *after,
                     struct text old_name, struct text new_name,
                     struct text writes)
{
    size_t at = index_of(&before->state, old_name);
    const struct file *was = &before->state.files[at];
    const struct file *is = &after->state.files[at];

    require_absent(after, old_name);
    REQUIRE_EQUAL(at, index_of(&after->state, new_name), "place of a renamed");
    REQUIRE(was->attribute == is->attribute && is_same_reading(was, is),
            "a renamed file reads otherwise");
    require_others_kept(&before->state, at, &after->state, at);
    require_counts(&after->state, before->state.free_sectors,
                   before->state.directory_sectors);
    REQUIRE(changed_bytes(&before->image, &after->image) <= TANDOS_NAME_SIZE,
            "rename changes other bytes");
    require_writes(before, after, entry_writes(&after->image, is->name),
                   writes);
}

/* A protected file is neither deleted nor renamed. */
static void require_refused(const struct moment *moment, struct text name)
{
    static const uint8_t other[] = "ZZZZZZ.ZZZ";
    static struct image copy;
    struct text other_name;

    other_name.bytes = other;
    other_name.length = sizeof other - 1;
    copy_image(&copy, &moment->image);
    REQUIRE_EQUAL(TANDOS_PROTECTED, call_delete(&copy, name, 0).number,
                  "delete of a protected file");
    REQUIRE_EQUAL(TANDOS_PROTECTED,
                  call_rename(&copy, name, other_name, 0).number,
                  "rename of a protected file");
}

void require_protected(const struct moment *before, const struct moment *after,
                       struct text name, uint32_t on, struct text writes)
{
    size_t at = index_of(&before->state, name);
    const struct file *was = &before->state.files[at];
    const struct file *is = &after->state.files[at];
    unsigned attribute = on == 0 ? TANDOS_ATTRIBUTE_NONE
                                 : TANDOS_ATTRIBUTE_PROTECTED;

    REQUIRE_EQUAL(at, index_of(&after->state, name), "place of a protected");
    REQUIRE_EQUAL(attribute, is->attribute, "attribute after protect");
    REQUIRE(is_same_reading(was, is), "a protected file reads otherwise");
    require_others_kept(&before->state, at, &after->state, at);
    REQUIRE_EQUAL(was->attribute != attribute,
                  changed_bytes(&before->image, &after->image),
                  "bytes that protect changes");
    require_writes(before, after, entry_writes(&after->image, is->name),
                   writes);
    if (on != 0)
        require_refused(after, name);
}

void require_same_state(const struct state *one, const struct state *other)
{
    require_others_kept(one, NONE, other, NONE);
    require_counts(other, one->free_sectors, one->directory_sectors);
}

void require_blank_bytes(const struct image *image, const uint8_t *stored)
{
    static struct image expected;

    expected.length = image->length;
    expected.stated = image->stated;
    put_blank(&expected, stored);
    REQUIRE(memcmp(expected.bytes, image->bytes, image->length) == 0,
            "a blank disc has other bytes");
}

void require_blank(const struct moment *after, struct text name)
{
    uint8_t stored[TANDOS_NAME_SIZE];

    REQUIRE(store_disc_name(name, stored), "an illegal disc name is accepted");
    require_blank_bytes(&after->image, stored);
    REQUIRE(memcmp(stored, after->state.disc_name, TANDOS_NAME_SIZE) == 0,
            "name of a blank disc");
    REQUIRE_EQUAL(0, after->state.file_count, "files of a blank disc");
    require_counts(&after->state,
                   after->image.length / TANDOS_SECTOR_SIZE - 2, 1);
}
