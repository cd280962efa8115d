/* tandos delete, rename and protect: changes of one entry. */
#include <string.h>

#include "commands.h"
#include "image.h"
#include "message.h"
#include "store.h"

enum { WRITES };

#define WRITES_SYNOPSIS "[--writes FILE] "
#define WRITES_HELP \
    "  --writes FILE   write the list of the sectors written to FILE\n" \
    "  --moved         the image is in the moved arrangement\n" \
    "  --sectors 9     the image has 9 sectors a track instead of 10\n"

static struct image image;
/* The longest list of the three. */
static uint8_t writes[TANDOS_DELETE_WRITES_SIZE];

static enum status load(const struct arguments *arguments)
{
    return load_image_for_change(&image, arguments->operand[0],
                                 arguments->kind, arguments->command);
}

static enum status store(const struct arguments *arguments,
                         tandos_filled filled)
{
    return store_change(&image, filled, writes, arguments->option[WRITES]);
}

static enum status run_delete(const struct arguments *arguments)
{
    const char *name = arguments->operand[1];

    if (load(arguments) != STATUS_DONE)
        return STATUS_FAILED;
    return store(arguments, tandos_delete(TANDOS_ON(image), TANDOS_TEXT(name),
                                          writes, sizeof writes));
}

static enum status run_rename(const struct arguments *arguments)
{
    const char *old_name = arguments->operand[1];
    const char *new_name = arguments->operand[2];

    if (load(arguments) != STATUS_DONE)
        return STATUS_FAILED;
    return store(arguments,
                 tandos_rename(TANDOS_ON(image), TANDOS_TEXT(old_name),
                               TANDOS_TEXT(new_name), writes, sizeof writes));
}

static enum status run_protect(const struct arguments *arguments)
{
    const char *name = arguments->operand[1];
    bool on = strcmp(arguments->operand[2], "on") == 0;

    if (!on && strcmp(arguments->operand[2], "off") != 0)
        return say_misuse(arguments->command, "'on' or 'off' is wanted, not",
                          arguments->operand[2]);
    if (load(arguments) != STATUS_DONE)
        return STATUS_FAILED;
    return store(arguments,
                 tandos_protect(TANDOS_ON(image), TANDOS_TEXT(name), on,
                                writes, sizeof writes));
}

const struct command delete_command = {
    "delete", "IMAGE NAME " WRITES_SYNOPSIS KIND_SYNOPSIS,
    "Delete a file of a disc.",
    "A protected file is not deleted: lift its protection first.\n\n"
    WRITES_HELP,
    2, 2, { { "--writes", NULL, true } }, run_delete
};

const struct command rename_command = {
    "rename", "IMAGE OLD NEW " WRITES_SYNOPSIS KIND_SYNOPSIS,
    "Give a file of a disc another name.",
    "A protected file is not renamed: lift its protection first.\n\n"
    WRITES_HELP,
    3, 3, { { "--writes", NULL, true } }, run_rename
};

const struct command protect_command = {
    "protect", "IMAGE NAME on|off " WRITES_SYNOPSIS KIND_SYNOPSIS,
    "Protect a file of a disc, or lift its protection.",
    "A protected file can be neither deleted nor renamed.\n\n"
    WRITES_HELP,
    3, 3, { { "--writes", NULL, true } }, run_protect
};
