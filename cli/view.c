/* tandos view: the bytes of a sector. */
#include <stdio.h>

#include "commands.h"
#include "hint.h"
#include "image.h"
#include "kind.h"
#include "message.h"
#include "number.h"

#define ROW 16

static bool is_shown(unsigned at)
{
    return at >= TANDOS_LINK_SIZE;
}

/* Rows begin at multiples of 16 of the sector, so that the numbers are those
 * of the format's description. The link's two bytes are no part of the view. */
static void print_row(const uint8_t *view, unsigned row)
{
    unsigned at;

    printf("%02X ", row);
    for (at = row; at < row + ROW; at++) {
        if (at == row + ROW / 2)
            putchar(' ');
        if (is_shown(at))
            printf(" %02X", (unsigned)view[at - TANDOS_LINK_SIZE]);
        else
            printf("   ");
    }
    printf("  |");
    for (at = row; at < row + ROW; at++) {
        int byte = is_shown(at) ? view[at - TANDOS_LINK_SIZE] : ' ';

        putchar(byte >= ' ' && byte <= '~' ? byte : '.');
    }
    puts("|");
}

/* An unsound image is shown too. But what is shown of an image that is sound
 * as another kind is most likely another sector than was meant. */
static void tell_of_kind(const struct image *image)
{
    const char *hint = kind_hint(image);

    if (*hint != '\0')
        say_broken(image->path, tandos_check(TANDOS_ON(*image)).rule, hint);
}

static enum status run(const struct arguments *arguments)
{
    static struct image image;
    uint32_t track, sector, number;
    const uint8_t *view;
    unsigned row;

    if (!parse_place(arguments->operand[1], &track, &sector))
        return say_misuse(arguments->command,
                          "TRACK/SECTOR is wanted, such as 0/7, not",
                          arguments->operand[1]);
    if (load_image(&image, arguments->operand[0], arguments->kind) !=
        STATUS_DONE)
        return STATUS_FAILED;
    number = tandos_view_number(TANDOS_ON(image), track, sector);
    view = tandos_view(TANDOS_ON(image), track, sector);
    if (number != TANDOS_DONE || view == NULL)
        return say_image_refused(&image, number);
    tell_of_kind(&image);
    for (row = 0; row < TANDOS_SECTOR_SIZE; row += ROW)
        print_row(view, row);
    return STATUS_DONE;
}

const struct command view_command = {
    "view", "IMAGE TRACK/SECTOR " KIND_SYNOPSIS, "Show the bytes of a sector.",
    "Prints the 254 bytes after the sector's link, in hexadecimal and ASCII.\n"
    "Each row begins with the number of its first byte in the sector.\n"
    "The image need not be sound.\n\n"
    KIND_HELP,
    2, 2, { { 0 } }, run
};
