/* tandos writes: what a list of writes has. */
#include <stdio.h>

#include "commands.h"
#include "message.h"
#include "text.h"
#include "write_list.h"

enum { JSON };

/* The library judges, on the largest disc that there is. */
static bool is_list(const struct write_list *list)
{
    static uint8_t largest[TANDOS_IMAGE_MAX];

    return tandos_replay(largest, sizeof largest, TANDOS_TEN, TANDOS_PLAIN,
                         list->bytes, list->length) == TANDOS_DONE;
}

static bool is_system_sector(const uint8_t *record)
{
    return record[1] == 0 && record[2] == 1;
}

static void print_rows(const struct write_list *list)
{
    unsigned count = write_count(list);
    const uint8_t *record = list->bytes;
    unsigned i;

    puts("RECORD      BYTE  SECTOR");
    for (i = 0; i < count; i++, record += TANDOS_WRITE_RECORD_SIZE)
        printf("%6u  %8lu  %u/%u%s\n", i + 1,
               (unsigned long)(record - list->bytes), (unsigned)record[1],
               (unsigned)record[2],
               is_system_sector(record) ? ", the system sector" : "");
    printf("\n%u record%s and the end, %lu byte%s\n", count, plural(count),
           (unsigned long)list->length, plural((unsigned)list->length));
}

static void print_json(const struct write_list *list)
{
    unsigned count = write_count(list);
    const uint8_t *record = list->bytes;
    unsigned i;

    printf("{\"writes\": [");
    for (i = 0; i < count; i++, record += TANDOS_WRITE_RECORD_SIZE)
        printf("%s\n  {\"byte\": %lu, \"track\": %u, \"sector\": %u, "
               "\"system\": %s}", i == 0 ? "" : ",",
               (unsigned long)(record - list->bytes), (unsigned)record[1],
               (unsigned)record[2],
               is_system_sector(record) ? "true" : "false");
    printf("],\n \"records\": %u, \"bytes\": %lu}\n", count,
           (unsigned long)list->length);
}

/* A list tells its sectors in one way for all kinds of disc. */
static enum status expect_no_kind(const struct arguments *arguments)
{
    static const char no_use[] =
        "a list of writes is shown for no kind of disc: leave out";

    if (arguments->kind_option[MOVED_OPTION] != NULL)
        return say_misuse(arguments->command, no_use, "--moved");
    if (arguments->kind_option[SECTORS_OPTION] != NULL)
        return say_misuse(arguments->command, no_use, "--sectors");
    return STATUS_DONE;
}

static enum status run(const struct arguments *arguments)
{
    static struct write_list list;

    if (expect_no_kind(arguments) != STATUS_DONE ||
        read_write_list(&list, arguments->operand[0]) != STATUS_DONE)
        return STATUS_FAILED;
    if (!is_list(&list))
        return say_bad_list(&list, TANDOS_MAX_TRACKS, TANDOS_TEN,
                            "bring the file over again as --writes wrote it");
    if (arguments->option[JSON])
        print_json(&list);
    else
        print_rows(&list);
    return STATUS_DONE;
}

const struct command writes_command = {
    "writes", "FILE [--json]", "Show a list of writes.",
    "Prints each sector that the list writes, in order, with the number of\n"
    "its record and of the record's first byte. No image is looked at: any\n"
    "track from 0 to 79 and sector from 1 to 10 is taken for right.\n\n"
    "  --json   JSON instead of a table\n",
    1, 1, { { "--json", NULL, false } }, run
};
