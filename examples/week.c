/*
 * Adding up a week: reads every sheet of the disc images that are given, plain
 * and of 10 sectors a track, and prints the pieces of each worker.
 *
 *     week IMAGE..
 *
 * Nothing is added from a disc or a file that is refused, which is said. The
 * exit status is 0 if every file of every disc was added.
 */
#include <stdbool.h>
#include <stdio.h>
#include <stdlib.h>

#include "tandos.h"

/* One byte more than any image has, so that a file that is too long is seen. */
static uint8_t bytes[TANDOS_IMAGE_MAX + 1];
static tandos_image disc = { bytes, 0, TANDOS_TEN, TANDOS_PLAIN };

/* totals[0] is worker 1's. */
static uint32_t totals[TANDOS_WORKERS];

static bool read_image(const char *path)
{
    FILE *file = fopen(path, "rb");
    bool is_read;

    if (file == NULL) {
        perror(path);
        return false;
    }
    disc.length = fread(bytes, 1, sizeof bytes, file);
    is_read = !ferror(file);
    if (!is_read)
        perror(path);
    fclose(file);
    return is_read;
}

static bool is_done(const char *path, const char *name, uint32_t number)
{
    if (number != TANDOS_DONE)
        fprintf(stderr, "%s: %s: refused with %lu, %s. %s\n", path, name,
                (unsigned long)number, tandos_refusal_name(number),
                tandos_refusal_text(number));
    return number == TANDOS_DONE;
}

/* A stored name as it is typed: "THU   PCS" is "THU.PCS". */
static const char *type_name(const uint8_t *stored, char name[11])
{
    size_t length = 0;
    int i;

    for (i = 0; i < TANDOS_NAME_SIZE; i++) {
        if (stored[i] == ' ')
            continue;
        if (i == 6)
            name[length++] = '.';
        name[length++] = (char)stored[i];
    }
    name[length] = '\0';
    return name;
}

static bool add_file(const char *path, const char *name)
{
    static uint8_t sheet[TANDOS_SHEET_MAX];
    tandos_reading reading =
        tandos_read(TANDOS_ON(disc), TANDOS_TEXT(name), sheet, sizeof sheet);

    return is_done(path, name, reading.number) &&
           is_done(path, name, tandos_add_sheet(totals, TANDOS_WORKERS, sheet,
                                                reading.length));
}

static bool add_disc(const char *path)
{
    static uint8_t records[TANDOS_LIST_MAX];
    const uint8_t *record = records + TANDOS_DISC_RECORD_SIZE;
    bool is_added = true;
    char name[11];

    if (!read_image(path) ||
        !is_done(path, "the list",
                 tandos_list(TANDOS_ON(disc), records, sizeof records).number))
        return false;
    for (; *record == TANDOS_RECORD_FILE; record += TANDOS_FILE_RECORD_SIZE)
        if (!add_file(path, type_name(record + 1, name)))
            is_added = false;
    return is_added;
}

int main(int argc, char **argv)
{
    bool is_added = true;
    int i;

    for (i = 1; i < argc; i++)
        if (!add_disc(argv[i]))
            is_added = false;
    for (i = 0; i < TANDOS_WORKERS; i++)
        if (totals[i] > 0)
            printf("worker %d: %lu pieces\n", i + 1, (unsigned long)totals[i]);
    return is_added ? EXIT_SUCCESS : EXIT_FAILURE;
}
