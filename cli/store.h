/* A changed image, and the list of its writes, on their way to their files. */
#ifndef STORE_H
#define STORE_H

#include <stdint.h>

#include "image.h"
#include "status.h"
#include "tandos.h"

/*
 * Of a call that is done, writes the list to `path`, unless that is NULL, and
 * then replaces the image's file; otherwise says what was refused and writes
 * nothing.
 *
 * The new image is on the disc, in its temporary file, before the list is
 * written, and takes its name after that: whatever fails, and whenever the
 * process or the machine stops, no image has a change whose list is missing. A
 * list that is ahead of its image is caught up with by the same command again,
 * or by replaying it.
 */
enum status store_change(const struct image *image, tandos_filled filled,
                         const uint8_t *writes, const char *path);

#endif
