/* tandos check: whether images are sound. */
#include <stdio.h>
#include <string.h>

#include "commands.h"
#include "hint.h"
#include "image.h"
#include "message.h"

static enum status check_one(const struct arguments *arguments,
                             const char *path)
{
    static struct image image;
    tandos_checked checked;

    if (load_image(&image, path, arguments->kind) != STATUS_DONE)
        return STATUS_FAILED;
    checked = tandos_check(TANDOS_ON(image));
    if (checked.number != TANDOS_DONE) {
        /* On standard output, like the other lines: one for each image. */
        printf("%s: refused with %lu, %s. %s%s\n", input_name(path),
               (unsigned long)checked.number,
               tandos_refusal_name(checked.number),
               tandos_refusal_text(checked.number), image_hint(&image));
        return STATUS_REFUSED;
    }
    printf("%s: %s%s\n", input_name(path), tandos_rule_text(checked.rule),
           image_hint(&image));
    return checked.rule == 0 ? STATUS_DONE : STATUS_REFUSED;
}

static enum status run(const struct arguments *arguments)
{
    return for_each_operand(arguments, check_one);
}

const struct command check_command = {
    "check", "IMAGE.. " KIND_SYNOPSIS, "Check that discs are sound.",
    "Prints one line for each image: that it is sound, or the lowest-numbered\n"
    "rule that is broken, and that a repair would help if it would. Exit\n"
    "status 0 only if all are sound, 1 if one is not, 2 if one could not be\n"
    "read.\n\n"
    "  --moved       the images are in the moved arrangement\n"
    "  --sectors 9   the images have 9 sectors a track instead of 10\n",
    1, ANY_NUMBER, { { 0 } }, run
};
