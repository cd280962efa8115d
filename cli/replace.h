/* Files are written whole or not at all. */
#ifndef REPLACE_H
#define REPLACE_H

#include <stdbool.h>
#include <stddef.h>
#include <stdint.h>

#include "status.h"

/* What is said of a file that could not be written. */
#define NOTHING_CHANGED "cannot write, nothing was changed"

/*
 * Makes a file hold these bytes. They go to a temporary file in the same
 * folder, which then takes the file's name in one step: whenever the process
 * or the machine stops, the old or the new file stands whole. The new file has
 * the old one's permissions; a symbolic link stays, and the file that it leads
 * to is replaced. With `may_exist` false an existing file is an error.
 */
enum status replace_file(const char *path, const uint8_t *bytes, size_t length,
                         bool may_exist);

/* The same in two steps. A prepared file is finished or dropped, the one that
 * was prepared last before those prepared earlier. */
struct replacement {
    const char *path;      /* as typed */
    char *target, *folder; /* behind symbolic links */
};

/* The bytes are on the disc, in the temporary file. */
enum status prepare_file(struct replacement *new_file, const char *path,
                         const uint8_t *bytes, size_t length);

/* The temporary file takes the name; `otherwise` is said where it cannot. */
enum status finish_file(struct replacement *new_file, bool may_exist,
                        const char *otherwise);

void drop_file(struct replacement *new_file);

#endif
