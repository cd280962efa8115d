/* The sheets of several images, in memory. */
#ifndef SHEETS_H
#define SHEETS_H

#include <stddef.h>
#include <stdint.h>

#include "arguments.h"
#include "image.h"
#include "text.h"

struct sheet {
    const struct image *image; /* that has it */
    char name[NAME_TEXT_SIZE];
    /* What reading it answered, TANDOS_DONE or TANDOS_NOT_PLAIN; of a sheet
     * that was read, then what adding it answered. */
    uint32_t number;
    uint8_t *bytes; /* NULL if it was not read */
    size_t length;
};

struct sheets {
    struct image *image;
    size_t images;
    struct sheet *sheet; /* in the order of the images, then of their lists */
    size_t count;
};

/* Reads the images that are the operands and their files, or with a pattern
 * those whose names match it. Says which image failed or was refused. */
enum status read_sheets(struct sheets *sheets,
                        const struct arguments *arguments,
                        const char *pattern);

void free_sheets(struct sheets *sheets);

/* Warns of each image that has the bytes of an earlier one, and in the others
 * of each sheet that has the name and the bytes of one of an earlier image.
 * Only of what was added. */
void warn_of_sheets_twice(const struct sheets *sheets);

#endif
