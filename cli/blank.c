/* tandos blank: a new disc. */
#include <string.h>
#include <sys/stat.h>

#include "commands.h"
#include "image.h"
#include "message.h"
#include "number.h"
#include "replace.h"

enum { FORCE };

/* A number of tracks that no disc has gives a length that no image has, so
 * that the library refuses it. */
static size_t length_of(uint32_t tracks, uint32_t sectors)
{
    return tracks <= TANDOS_MAX_TRACKS ? TANDOS_IMAGE_SIZE(tracks, sectors)
                                       : IMAGE_BUFFER_SIZE;
}

/* Made only where nothing stands, unless it is forced. What comes to stand
 * there after this question is kept too: replace_file does not overwrite it. */
static enum status store(const char *path, const uint8_t *bytes, size_t length,
                         bool is_forced)
{
    struct stat old;

    if (!is_forced && lstat(path, &old) == 0)
        return say_problem(path, "stands already: give another name, "
                                    "or --force to replace it");
    return replace_file(path, bytes, length, is_forced);
}

static enum status run(const struct arguments *arguments)
{
    static struct image image;
    const char *path = arguments->operand[0];
    const char *name = arguments->operand[2];
    uint32_t tracks, number;

    if (strcmp(path, "-") == 0)
        return say_misuse(arguments->command,
                          "an image that is made is a file, not", path);
    if (!parse_number(arguments->operand[1], &tracks))
        return say_misuse(arguments->command,
                          "a number of tracks is wanted, not",
                          arguments->operand[1]);
    state_kind(&image, arguments->kind);
    image.length = length_of(tracks, image.sectors);
    number = tandos_blank(TANDOS_ON(image), TANDOS_TEXT(name));
    if (number != TANDOS_DONE)
        return say_refused(path, number, "");
    return store(path, image.bytes, image.length,
                 arguments->option[FORCE] != NULL);
}

const struct command blank_command = {
    "blank", "IMAGE TRACKS NAME [--force] " KIND_SYNOPSIS, "Make a blank disc.",
    "TRACKS is 1 to 80; NAME is 1 to 9 of A-Z and 0-9.\n"
    "A file that stands already is kept, with exit status 2.\n\n"
    "  --force       replace it\n"
    "  --moved       make the image in the moved arrangement\n"
    "  --sectors 9   make it with 9 sectors a track instead of 10\n",
    3, 3, { { "--force", NULL, false } }, run
};
