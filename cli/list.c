/* tandos list: the files of a disc. */
#include <stdio.h>
#include <unistd.h>

#include "commands.h"
#include "hint.h"
#include "image.h"
#include "kind.h"
#include "message.h"
#include "records.h"
#include "text.h"

enum { TABLE, JSON };

/* The fields of a list's first record, and what is counted. */
struct disc_record {
    const uint8_t *name;
    unsigned tracks, free_count, used_count, files;
    const struct kind_marks *marks;
};

static struct disc_record disc_record(const struct image *image,
                                      const uint8_t *records, size_t length)
{
    struct disc_record disc;

    disc.name = records + 1;
    disc.tracks = track_count(image);
    disc.free_count = word_at(records + 10);
    disc.used_count = word_at(records + 12);
    disc.files = (unsigned)files_listed(length);
    disc.marks = marks_of(image);
    return disc;
}

static void print_table(struct disc_record disc, const uint8_t *record)
{
    char text[NAME_TEXT_SIZE];
    unsigned i;

    printf("Disc %s: %u track%s%s, %u sector%s free, %u in %u file%s\n",
           disc_name_text(disc.name, text), disc.tracks, plural(disc.tracks),
           disc.marks->heading, disc.free_count, plural(disc.free_count),
           disc.used_count, disc.files, plural(disc.files));
    if (disc.files > 0)
        puts("\nNAME        SECTORS");
    for (i = 0; i < disc.files; i++, record += TANDOS_FILE_RECORD_SIZE) {
        struct file_record file = file_record(record);

        printf("%-10s  %7u%s\n", file_name_text(file.name, text), file.sectors,
               file.is_protected ? "  protected" : "");
    }
}

static void print_rows(struct disc_record disc, const uint8_t *record)
{
    char text[NAME_TEXT_SIZE];
    unsigned i;

    printf("disc\t%s\t%u\t%u\t%u%s\n", disc_name_text(disc.name, text),
           disc.tracks, disc.free_count, disc.used_count,
           disc.marks->field);
    for (i = 0; i < disc.files; i++, record += TANDOS_FILE_RECORD_SIZE) {
        struct file_record file = file_record(record);

        printf("file\t%s\t%u\t%s\n", file_name_text(file.name, text),
               file.sectors, file.is_protected ? "protected" : "-");
    }
}

static void print_json(struct disc_record disc, const uint8_t *record)
{
    char text[NAME_TEXT_SIZE];
    unsigned i;

    printf("{\"disc\": {\"name\": ");
    print_json_string(stdout, disc.name,
                      unpadded_length(disc.name, TANDOS_NAME_SIZE));
    printf(", \"tracks\": %u, \"free\": %u, \"used\": %u%s},\n \"files\": [",
           disc.tracks, disc.free_count, disc.used_count,
           disc.marks->json);
    for (i = 0; i < disc.files; i++, record += TANDOS_FILE_RECORD_SIZE) {
        struct file_record file = file_record(record);

        /* On a disc that can be listed, file names are letters and digits. */
        printf("%s\n  {\"name\": \"%s\", \"sectors\": %u, \"protected\": %s}",
               i == 0 ? "" : ",", file_name_text(file.name, text),
               file.sectors, file.is_protected ? "true" : "false");
    }
    puts("]}");
}

static enum status run(const struct arguments *arguments)
{
    static struct image image;
    static uint8_t records[TANDOS_LIST_MAX];
    const uint8_t *files = records + TANDOS_DISC_RECORD_SIZE;
    struct disc_record disc;
    tandos_filled listed;

    if (arguments->option[TABLE] && arguments->option[JSON])
        return say_misuse(arguments->command, "--table and --json exclude "
                          "each other", NULL);
    if (load_image(&image, arguments->operand[0], arguments->kind) !=
        STATUS_DONE)
        return STATUS_FAILED;
    listed = tandos_list(TANDOS_ON(image), records, sizeof records);
    if (listed.number != TANDOS_DONE)
        return say_image_refused(&image, listed.number);
    disc = disc_record(&image, records, listed.length);
    if (arguments->option[JSON])
        print_json(disc, files);
    else if (arguments->option[TABLE] || isatty(STDOUT_FILENO))
        print_table(disc, files);
    else
        print_rows(disc, files);
    return STATUS_DONE;
}

const struct command list_command = {
    "list", "IMAGE [--table | --json] " KIND_SYNOPSIS,
    "List the files of a disc.",
    "On a terminal a table; otherwise rows of fields parted by tabs:\n"
    "  disc, name, tracks, free sectors, sectors in files; then 'moved' if it\n"
    "      is, 'nine' if it has 9 sectors a track\n"
    "  file, name, sectors, 'protected' or '-'\n"
    "A byte of the disc's name that cannot be printed is shown as \\xHH.\n\n"
    "  --table       a table in any case\n"
    "  --json        JSON; a byte of a name is the character of its number\n"
    KIND_HELP,
    1, 1, { { "--table", NULL, false }, { "--json", NULL, false } }, run
};
