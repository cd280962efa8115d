/* Files that are written beside an image: a sheet, a picture, a list. */
#ifndef OUTPUT_H
#define OUTPUT_H

#include <stdbool.h>
#include <stddef.h>
#include <stdint.h>

#include "image.h"
#include "status.h"

/* Writes to a path, or to standard output for NULL or "-". The image's own
 * file is not written over. */
enum status write_output(const char *path, const struct image *image,
                         const uint8_t *bytes, size_t length);

/* Whether two paths lead to one file that stands; "-" leads to none. */
bool is_same_file(const char *path, const char *other);

#endif
