/* tandos read: a file's sheet. */
#include <stdio.h>

#include "commands.h"
#include "hint.h"
#include "image.h"
#include "message.h"
#include "output.h"

enum { OUTPUT, INFO };

static void print_info(tandos_reading reading)
{
    printf("page\t%lu\n", (unsigned long)reading.page);
    printf("start\t0x%04lX\n", (unsigned long)reading.start);
    printf("end\t0x%04lX\n", (unsigned long)reading.end);
    printf("transfer\t0x%04lX\n", (unsigned long)reading.transfer);
    printf("length\t%lu\n", (unsigned long)reading.length);
}

static enum status run(const struct arguments *arguments)
{
    static struct image image;
    static uint8_t sheet[TANDOS_SHEET_MAX];
    const char *name = arguments->operand[1];
    tandos_reading reading;

    if (arguments->option[OUTPUT] && arguments->option[INFO])
        return say_misuse(arguments->command, "--output and --info exclude "
                          "each other", NULL);
    if (load_image(&image, arguments->operand[0], arguments->kind) !=
        STATUS_DONE)
        return STATUS_FAILED;
    reading = tandos_read(TANDOS_ON(image), TANDOS_TEXT(name), sheet,
                          sizeof sheet);
    if (reading.number != TANDOS_DONE)
        return say_image_refused(&image, reading.number);
    if (arguments->option[INFO]) {
        print_info(reading);
        return STATUS_DONE;
    }
    return write_output(arguments->option[OUTPUT], &image, sheet,
                        reading.length);
}

const struct command read_command = {
    "read", "IMAGE NAME [-o FILE | --info] " KIND_SYNOPSIS,
    "Read a file of a disc.",
    "Writes the file's bytes to standard output.\n\n"
    "  -o, --output FILE   write them to FILE instead\n"
    "  --info              print page, start, end, transfer and length of the\n"
    "                      load module instead, each after its name and a tab\n"
    "  --moved             the image is in the moved arrangement\n"
    "  --sectors 9         the image has 9 sectors a track instead of 10\n",
    2, 2, { { "--output", "-o", true }, { "--info", NULL, false } }, run
};
