/* A list of writes that somebody hands in, in memory. */
#ifndef WRITE_LIST_H
#define WRITE_LIST_H

#include <stddef.h>
#include <stdint.h>

#include "status.h"
#include "tandos.h"

/* Far more than the command's own lists have, so that lists may be joined; a
 * file that is longer, or has no end, is read no further. */
#define MOST_WRITES 65536

struct write_list {
    const char *path;
    /* One byte more than the longest list, so that a longer file is seen. */
    uint8_t bytes[TANDOS_WRITES_SIZE(MOST_WRITES) + 1];
    size_t length;
};

/* "-" is standard input. Says what failed. */
enum status read_write_list(struct write_list *list, const char *path);

/* The records, without the end, of a list that was not refused. */
unsigned write_count(const struct write_list *list);

/* The library refused the list with TANDOS_BAD_LIST for a disc of so many
 * tracks and sectors a track. `advice` is what to do. */
enum status say_bad_list(const struct write_list *list, unsigned tracks,
                         unsigned sectors, const char *advice);

#endif
