/* tandos replay: a list of writes, on another copy of the disc. */
#include <stdio.h>

#include "commands.h"
#include "hint.h"
#include "image.h"
#include "kind.h"
#include "message.h"
#include "replace.h"
#include "text.h"
#include "write_list.h"

#define GO_BACK \
    " The list is written all the same: if it was not made from this disc as " \
    "it stood, go back to a copy of it."
#define OR_REPAIR \
    " Without a copy a repair would make the disc sound, but bring back no " \
    "sector that the list has written over."

/* The library replays on any image. But one that is of another kind than stated
 * would have the sectors written to wrong places. */
static uint32_t replay(struct image *image, const struct write_list *list)
{
    if (tandos_check(TANDOS_ON(*image)).number == TANDOS_DONE &&
        kind_meant(image) != KINDS)
        return TANDOS_UNSOUND;
    return tandos_replay(TANDOS_ON(*image), list->bytes, list->length);
}

static enum status store(const struct image *image, unsigned count)
{
    uint32_t rule = tandos_check(TANDOS_ON(*image)).rule;
    enum status status =
        replace_file(image->path, image->bytes, image->length, true);

    if (status != STATUS_DONE)
        return status;
    printf("%s: %u sector%s written.\n", image->path, count, plural(count));
    if (rule == 0)
        return STATUS_DONE;
    return say_broken(image->path, rule,
                      is_repairable(image) ? GO_BACK OR_REPAIR : GO_BACK);
}

static enum status run(const struct arguments *arguments)
{
    static struct image image;
    static struct write_list list;
    uint32_t number;

    /* The list comes first, as it may be long in coming through a pipe. */
    if (read_write_list(&list, arguments->operand[1]) != STATUS_DONE ||
        load_image_for_change(&image, arguments->operand[0], arguments->kind,
                              arguments->command) != STATUS_DONE)
        return STATUS_FAILED;
    number = replay(&image, &list);
    if (number == TANDOS_BAD_LIST)
        return say_bad_list(&list, track_count(&image), image.sectors,
                            "nothing was changed; bring the file over again "
                            "as --writes wrote it, and replay it on a copy of "
                            "the disc that it was made from");
    if (number != TANDOS_DONE)
        return say_image_refused(&image, number);
    return store(&image, write_count(&list));
}

const struct command replay_command = {
    "replay", "IMAGE FILE " KIND_SYNOPSIS,
    "Write the sectors of a list of writes to a copy of the disc.",
    "FILE is a list that --writes wrote. On a copy of the disc as it was\n"
    "before that command, this does what the command did. The image need not\n"
    "be sound; if it is not so afterwards, it is written all the same and the\n"
    "exit status is 1. One that most likely is of another kind than the one\n"
    "stated is refused with 3.\n\n"
    KIND_HELP,
    2, 2, { { 0 } }, run
};
