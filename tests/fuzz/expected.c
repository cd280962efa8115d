#include "expected.h"

#include <string.h>

#include "places.h"

static int is_legal(uint8_t byte)
{
    return (byte >= 'A' && byte <= 'Z') || (byte >= '0' && byte <= '9');
}

/* One part of a name, 1 to `width` legal bytes, padded with spaces. */
static int store_part(const uint8_t *part, size_t length, size_t width,
                      uint8_t *stored)
{
    size_t i;

    if (length < 1 || length > width)
        return 0;
    memset(stored, ' ', width);
    for (i = 0; i < length; i++) {
        if (!is_legal(part[i]))
            return 0;
        stored[i] = part[i];
    }
    return 1;
}

int store_name(struct text typed, uint8_t *stored)
{
    size_t dot = 0;

    while (dot < typed.length && typed.bytes[dot] != '.')
        dot++;
    if (!store_part(typed.bytes, dot, 6, stored))
        return 0;
    memset(stored + 6, ' ', 3);
    return dot == typed.length ||
           store_part(typed.bytes + dot + 1, typed.length - dot - 1, 3,
                      stored + 6);
}

int store_disc_name(struct text typed, uint8_t *stored)
{
    return store_part(typed.bytes, typed.length, TANDOS_NAME_SIZE, stored);
}

/* Legal bytes, at least so many, then spaces. */
static int is_padded(const uint8_t *part, size_t least, size_t width)
{
    size_t length = 0;
    size_t i;

    while (length < width && is_legal(part[length]))
        length++;
    for (i = length; i < width; i++)
        if (part[i] != ' ')
            return 0;
    return length >= least;
}

int is_stored_name(const uint8_t *stored)
{
    return is_padded(stored, 1, 6) && is_padded(stored + 6, 0, 3);
}

size_t need(const struct state *state, size_t sheet_length)
{
    size_t slots = SLOTS_PER_DIRECTORY_SECTOR * state->directory_sectors;

    return module_sectors(sheet_length) + (state->file_count == slots);
}

size_t save_writes_length(const struct state *state, size_t sheet_length)
{
    return TANDOS_WRITES_SIZE(need(state, sheet_length) + 2);
}

uint32_t expected_list(const struct state *state, size_t buffer_length)
{
    if (!state->is_image)
        return TANDOS_SIZE;
    if (!state->is_sound)
        return TANDOS_UNSOUND;
    if (buffer_length < TANDOS_LIST_SIZE(state->file_count))
        return TANDOS_SHORT;
    return TANDOS_DONE;
}

/* The refusals 1 to 4 of the commands on a standing file; where none applies,
 * that file. */
static uint32_t expected_standing(const struct state *state, struct text name,
                                  const struct file **file)
{
    uint8_t stored[TANDOS_NAME_SIZE];

    *file = NULL;
    if (!state->is_image)
        return TANDOS_SIZE;
    if (!store_name(name, stored))
        return TANDOS_NAME;
    if (!state->is_sound)
        return TANDOS_UNSOUND;
    *file = find(state, stored);
    return *file == NULL ? TANDOS_ABSENT : TANDOS_DONE;
}

uint32_t expected_read(const struct state *state, struct text name,
                       size_t buffer_length)
{
    const struct file *file;
    uint32_t number = expected_standing(state, name, &file);

    if (number != TANDOS_DONE)
        return number;
    if (file->reading.number != TANDOS_DONE)
        return file->reading.number;
    return buffer_length < file->reading.length ? TANDOS_SHORT : TANDOS_DONE;
}

/* The last refusal of the commands that give a list of this length. */
static uint32_t unless_short(uint32_t number, size_t length,
                             size_t buffer_length)
{
    if (number == TANDOS_DONE && buffer_length < length)
        return TANDOS_SHORT;
    return number;
}

uint32_t expected_save(const struct state *state, struct text name,
                       const struct module *module, size_t buffer_length)
{
    uint8_t stored[TANDOS_NAME_SIZE];
    size_t length = module->sheet.length;

    if (!state->is_image)
        return TANDOS_SIZE;
    if (!store_name(name, stored))
        return TANDOS_NAME;
    if (module->page > 7 || length < 1 || length > 65536u - module->start)
        return TANDOS_MODULE;
    if (!state->is_sound)
        return TANDOS_UNSOUND;
    if (find(state, stored) != NULL)
        return TANDOS_TAKEN;
    if (need(state, length) > state->free_sectors)
        return TANDOS_ROOM;
    return unless_short(TANDOS_DONE, save_writes_length(state, length),
                        buffer_length);
}

/* The refusals of the commands on a file that must not be protected. */
static uint32_t expected_open(const struct state *state, struct text name)
{
    const struct file *file;
    uint32_t number = expected_standing(state, name, &file);

    if (number == TANDOS_DONE && file->attribute != TANDOS_ATTRIBUTE_NONE)
        return TANDOS_PROTECTED;
    return number;
}

uint32_t expected_delete(const struct state *state, struct text name,
                         size_t buffer_length)
{
    return unless_short(expected_open(state, name), TANDOS_DELETE_WRITES_SIZE,
                        buffer_length);
}

uint32_t expected_rename(const struct state *state, struct text old_name,
                         struct text new_name, size_t buffer_length)
{
    uint8_t stored[TANDOS_NAME_SIZE];
    uint32_t number;

    if (state->is_image && !store_name(new_name, stored))
        return TANDOS_NAME;
    number = expected_open(state, old_name);
    if (number == TANDOS_DONE && find(state, stored) != NULL)
        return TANDOS_TAKEN;
    return unless_short(number, TANDOS_ENTRY_WRITES_SIZE, buffer_length);
}

uint32_t expected_protect(const struct state *state, struct text name,
                          size_t buffer_length)
{
    const struct file *file;

    return unless_short(expected_standing(state, name, &file),
                        TANDOS_ENTRY_WRITES_SIZE, buffer_length);
}

uint32_t expected_blank(const struct state *state, struct text name)
{
    uint8_t stored[TANDOS_NAME_SIZE];

    if (!state->is_image)
        return TANDOS_SIZE;
    return store_disc_name(name, stored) ? TANDOS_DONE : TANDOS_NAME;
}

uint32_t expected_view(const struct image *image, const struct state *state,
                       uint32_t track, uint32_t sector)
{
    if (!state->is_image)
        return TANDOS_SIZE;
    return is_on_disc(image, track, sector) ? TANDOS_DONE : TANDOS_NO_SECTOR;
}
