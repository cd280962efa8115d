/* The four commands that give a list of writes, and the replay of one. */
#include <stdio.h>
#include <string.h>

#include "calls.h"
#include "lent.h"
#include "report.h"

struct writes written;

static struct command a_command(enum command_kind kind, struct text name,
                                struct text other)
{
    struct command command = { .kind = kind, .name = name, .other = other };

    return command;
}

struct command a_save(struct text name, uint32_t page, uint16_t start,
                      uint16_t transfer, struct text sheet)
{
    struct command command = a_command(SAVE, name, sheet);

    command.page = page;
    command.start = start;
    command.transfer = transfer;
    return command;
}

struct command a_delete(struct text name)
{
    return a_command(DELETE, name, bytes(NULL, 0));
}

struct command a_rename(struct text old_name, struct text new_name)
{
    return a_command(RENAME, old_name, new_name);
}

struct command a_protect(struct text name, uint32_t on)
{
    struct command command = a_command(PROTECT, name, bytes(NULL, 0));

    command.on = on;
    return command;
}

static tandos_filled call(const struct command *given, struct lent image,
                          struct lent name, struct lent other,
                          struct lent list)
{
    switch (given->kind) {
    case SAVE:
        return tandos_save(ON(image), WITH(name), given->page, given->start,
                           given->transfer, WITH(other), WITH(list));
    case DELETE:
        return tandos_delete(ON(image), WITH(name), WITH(list));
    case RENAME:
        return tandos_rename(ON(image), WITH(name), WITH(other), WITH(list));
    default:
        return tandos_protect(ON(image), WITH(name), given->on, WITH(list));
    }
}

static const char *label(const char *what, enum command_kind kind)
{
    static const char *const kinds[] = { "save", "delete", "rename",
                                         "protect" };
    static char text[40];

    sprintf(text, "%s after %s", what, kinds[kind]);
    return text;
}

/* No buffer at all is NULL with length 0. */
static struct lent lend_writes(size_t length)
{
    size_t i;

    for (i = 0; i < length; i++)
        written.bytes[i] = (uint8_t)(0x5A + 3 * i);
    return lend(length == 0 ? NULL : written.bytes, length);
}

static void take_writes(const char *what, struct lent *list,
                        tandos_filled filled)
{
    size_t length = filled.number == TANDOS_DONE ? filled.length : 0;

    if (filled.number != TANDOS_DONE)
        EXPECT_NUMBER(0, filled.length);
    if (list->length > 0)
        memcpy(written.bytes, list->bytes, list->length);
    written.length = length;
    expect_kept_beyond(length, what, list);
}

tandos_filled try_command(struct disc *disc, const struct command *command,
                          size_t writes_len)
{
    struct lent image = lend_disc(disc);
    struct lent name = lend_text(command->name);
    struct lent other = lend_text(command->other);
    struct lent list = lend_writes(writes_len);
    tandos_filled filled = call(command, image, name, other, list);

    take_back(label("image", command->kind), disc, &image, filled.number);
    expect_kept_beyond(0, label("name", command->kind), &name);
    expect_kept_beyond(0, label("sheet or new name", command->kind), &other);
    take_writes(label("writes", command->kind), &list, filled);
    return filled;
}

static int make_list(struct writes *list, const struct command *command,
                     const struct disc *before, const struct disc *after)
{
    switch (command->kind) {
    case SAVE:
        return make_save_writes(list, before, after, WITH(command->name));
    case DELETE:
        return make_delete_writes(list, before, after, WITH(command->name));
    case RENAME:
        return make_entry_writes(list, after, WITH(command->other));
    default:
        return make_entry_writes(list, after, WITH(command->name));
    }
}

static void expect_short(const struct command *command,
                         const struct disc *before, size_t writes_len)
{
    struct disc disc = *before;

    EXPECT_NUMBER(10, try_command(&disc, command, writes_len).number);
}

/* Leaves the list in `written`. */
static void expect_enough(const struct command *command,
                          const struct disc *before, const struct disc *after,
                          const struct writes *list)
{
    struct disc disc = *before;

    EXPECT_NUMBER(0, try_command(&disc, command, list->length).number);
    expect_writes("list in a buffer of its length", list, &written);
    expect_disc("disc with a buffer of the list's length", after, &disc);
}

static void expect_replayed(const struct disc *before, const struct disc *after,
                            const struct writes *list)
{
    struct disc disc = *before;

    EXPECT_NUMBER(0, try_replay(&disc, bytes(list->bytes, list->length)));
    expect_disc("old disc after a replay", after, &disc);
}

static void expect_list(const struct command *command,
                        const struct disc *before, const struct disc *after)
{
    static struct writes list;
    int is_made = make_list(&list, command, before, after);

    EXPECT_NUMBER(1, (size_t)is_made);
    if (!is_made)
        return;
    expect_writes("list", &list, &written);
    expect_short(command, before, 0);
    expect_short(command, before, list.length - 1);
    expect_enough(command, before, after, &list);
    expect_replayed(before, after, &list);
}

static uint32_t try_with_list(struct disc *disc, struct command command)
{
    struct disc before = *disc;
    uint32_t number = try_command(disc, &command, WRITES_ROOM).number;

    if (number == TANDOS_DONE)
        expect_list(&command, &before, disc);
    else
        EXPECT_NUMBER(number, try_command(disc, &command, 0).number);
    return number;
}

uint32_t try_save(struct disc *disc, struct text name, uint32_t page,
                  uint16_t start, uint16_t transfer, struct text sheet)
{
    return try_with_list(disc, a_save(name, page, start, transfer, sheet));
}

uint32_t try_delete(struct disc *disc, struct text name)
{
    return try_with_list(disc, a_delete(name));
}

uint32_t try_rename(struct disc *disc, struct text old_name,
                    struct text new_name)
{
    return try_with_list(disc, a_rename(old_name, new_name));
}

uint32_t try_protect(struct disc *disc, struct text name, uint32_t on)
{
    return try_with_list(disc, a_protect(name, on));
}

uint32_t try_replay(struct disc *disc, struct text list)
{
    struct lent image = lend_disc(disc);
    struct lent records = lend_text(list);
    uint32_t number = tandos_replay(ON(image), WITH(records));

    take_back("image after replay", disc, &image, number);
    expect_kept_beyond(0, "list after replay", &records);
    return number;
}
