/* tandos rearrange: a disc in the other arrangement. */
#include <string.h>

#include "commands.h"
#include "hint.h"
#include "image.h"
#include "kind.h"
#include "message.h"
#include "output.h"
#include "replace.h"

enum { TO, OUTPUT };

static enum kind other_arrangement(enum kind kind)
{
    return kind == TEN_PLAIN ? TEN_MOVED : TEN_PLAIN;
}

static enum status parse_to(const struct arguments *arguments, enum kind *to)
{
    const char *word = arguments->option[TO];

    *to = TEN_MOVED;
    if (word == NULL)
        return say_misuse(arguments->command, "an option is missing: give",
                          "--to moved|plain");
    if (strcmp(word, "plain") == 0)
        *to = TEN_PLAIN;
    else if (strcmp(word, "moved") != 0)
        return say_misuse(arguments->command, "--to is moved or plain, not",
                          word);
    return STATUS_DONE;
}

static enum status parse(const struct arguments *arguments, enum kind *to)
{
    /* With both it would be unclear which arrangement the image is in. */
    if (arguments->kind == TEN_MOVED)
        return say_misuse(arguments->command,
                          "--to states both arrangements: leave out",
                          "--moved");
    if (arguments->kind == NINE_PLAIN)
        return say_misuse(arguments->command,
                          "discs of 9 sectors a track have one arrangement "
                          "alone: use the image as it is, or leave out",
                          "--sectors 9");
    if (arguments->option[OUTPUT] == NULL)
        return say_misuse(arguments->command, "an option is missing: give",
                          "-o FILE");
    return parse_to(arguments, to);
}

/* Not kind_hint: stated as what it is, the disc is not to be rearranged. */
static const char *already_hint(const struct image *image)
{
    switch (kind_sound_as(image)) {
    case TEN_PLAIN:
        return " In the plain arrangement the disc is sound: "
               "it is plain already.";
    case TEN_MOVED:
        return " In the moved arrangement the disc is sound: "
               "it is moved already.";
    case NINE_PLAIN:
        return " With 9 sectors a track the disc is sound: "
               "it has one arrangement alone.";
    default: return repair_hint(image);
    }
}

/* Without this a disc that has been rearranged would be so once more. */
static enum status expect_sound(const struct image *image)
{
    tandos_checked checked = tandos_check(TANDOS_ON(*image));

    if (checked.number == TANDOS_DONE && checked.rule == 0)
        return STATUS_DONE;
    return say_refused(image->path,
                       checked.number != TANDOS_DONE ? checked.number
                                                     : TANDOS_UNSOUND,
                       already_hint(image));
}

static void copy_sectors(struct image *to, const struct image *from)
{
    unsigned tracks = track_count(from);
    unsigned track, sector;

    for (track = 0; track < tracks; track++)
        for (sector = 1; sector <= from->sectors; sector++)
            memcpy(to->bytes + sector_start(to, track, sector),
                   from->bytes + sector_start(from, track, sector),
                   TANDOS_SECTOR_SIZE);
}

/* From the check to the file. An image that is its own output is replaced like
 * any changed one; write_output would keep it. */
static enum status rearrange(const struct image *image, const char *output,
                             bool is_in_place)
{
    static struct image to;
    enum status status = expect_sound(image);

    if (status != STATUS_DONE)
        return status;
    to.length = image->length;
    state_kind(&to, other_arrangement(image->kind));
    copy_sectors(&to, image);
    if (is_in_place)
        return replace_file(output, to.bytes, to.length, true);
    return write_output(output, image, to.bytes, to.length);
}

static enum status run(const struct arguments *arguments)
{
    static struct image image;
    const char *path = arguments->operand[0];
    const char *output = arguments->option[OUTPUT];
    enum kind to, from;
    bool is_in_place;
    enum status status;

    if (parse(arguments, &to) != STATUS_DONE)
        return STATUS_FAILED;
    from = other_arrangement(to);
    is_in_place = is_same_file(path, output);
    status = is_in_place ? load_image_for_change(&image, path, from,
                                                 arguments->command)
                         : load_image(&image, path, from);
    if (status != STATUS_DONE)
        return status;
    return rearrange(&image, output, is_in_place);
}

const struct command rearrange_command = {
    "rearrange", "IMAGE --to moved|plain -o FILE",
    "Write a disc in the other arrangement.",
    "Writes the disc to FILE with its sectors in their places of the other\n"
    "arrangement; no byte of a sector changes. An image that is not sound in\n"
    "the arrangement that it is read in is refused. IMAGE itself stays unless\n"
    "FILE names it as well. A disc of 9 sectors a track has one arrangement\n"
    "alone.\n\n"
    "  --to moved          read a plain image, write a moved one\n"
    "  --to plain          read a moved image, write a plain one\n"
    "  -o, --output FILE   the file to write\n",
    1, 1, { { "--to", NULL, true }, { "--output", "-o", true } }, run
};
