/* tandos map: which chain each sector of a disc belongs to. */
#include "map.h"

#include <stdlib.h>
#include <string.h>
#include <unistd.h>

#include "commands.h"
#include "hint.h"
#include "image.h"
#include "message.h"
#include "output.h"

enum { COLOR, SVG };

static bool is_set(const char *variable)
{
    const char *value = getenv(variable);

    return value != NULL && *value != '\0';
}

static bool is_colour_terminal(void)
{
    const char *terminal = getenv("TERM");

    return isatty(STDOUT_FILENO) && !is_set("NO_COLOR") &&
           (terminal == NULL || strcmp(terminal, "dumb") != 0);
}

static enum status parse_colour(const struct arguments *arguments,
                                bool *is_coloured)
{
    const char *when = arguments->option[COLOR];

    *is_coloured = false;
    if (when == NULL || strcmp(when, "auto") == 0)
        *is_coloured = is_colour_terminal();
    else if (strcmp(when, "always") == 0)
        *is_coloured = true;
    else if (strcmp(when, "never") != 0)
        return say_misuse(arguments->command,
                          "--color is always, never or auto, not", when);
    return STATUS_DONE;
}

/* The picture is made in memory, so that its file is written whole. */
static enum status write_svg(const char *path, const struct image *image,
                             const struct chains *chains, uint32_t rule)
{
    char *text = NULL;
    size_t length = 0;
    FILE *memory = open_memstream(&text, &length);
    enum status status;

    if (memory == NULL)
        return say_failed(path, "cannot make the picture");
    print_map_svg(memory, chains, rule);
    if (fclose(memory) != 0)
        status = say_failed(path, "cannot make the picture");
    else
        status = write_output(path, image, (const uint8_t *)text, length);
    free(text);
    if (status == STATUS_DONE && rule != 0)
        status = say_broken(image->path, rule, image_hint(image));
    return status;
}

static enum status run(const struct arguments *arguments)
{
    static struct image image;
    static struct chains chains;
    tandos_checked checked;
    bool is_coloured;
    enum status status = STATUS_DONE;

    if (parse_colour(arguments, &is_coloured) != STATUS_DONE ||
        load_image(&image, arguments->operand[0], arguments->kind) !=
            STATUS_DONE)
        return STATUS_FAILED;
    checked = tandos_check(TANDOS_ON(image));
    if (checked.number != TANDOS_DONE)
        return say_image_refused(&image, checked.number);
    follow_chains(&chains, &image);
    if (arguments->option[SVG])
        status = write_svg(arguments->option[SVG], &image, &chains,
                           checked.rule);
    else
        print_map(stdout, &chains, checked.rule, is_coloured);
    if (status == STATUS_DONE && checked.rule != 0)
        return STATUS_REFUSED;
    return status;
}

const struct command map_command = {
    "map", "IMAGE [--color=WHEN] [--svg FILE] " KIND_SYNOPSIS,
    "Show which file or chain each sector belongs to.",
    "Prints a row for each track, and a legend. Of an unsound image also the\n"
    "broken rule and the sectors that are met more than once, lost, or linked\n"
    "off the disc; the exit status is then 1.\n\n"
    "  --color=WHEN   always, never, or auto: in colour on a terminal unless\n"
    "                 NO_COLOR is set\n"
    "  --svg FILE     write a picture to FILE instead, with each sector's\n"
    "                 order in its chain\n"
    "  --moved        the image is in the moved arrangement\n"
    "  --sectors 9    the image has 9 sectors a track instead of 10\n",
    1, 1, { { "--color", NULL, true }, { "--svg", NULL, true } }, run
};
