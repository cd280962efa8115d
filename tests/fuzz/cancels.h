/*
 * Commands that cancel. A save that needs no new directory sector, and next the
 * delete of its file: every byte of the image is as before, except bytes 2 to
 * 255 of the sectors that the file took, and the track byte of the old end of
 * the free chain where the save reached it. Two renames of a file, one directly
 * after the other: the image that one rename to the last name gives, lent the
 * same as the first; or, where that is the name of the start, the image of the
 * start.
 *
 * The command that comes next is made on a copy, so that this is asked after
 * each save and each rename, whatever the input goes on with.
 */
#ifndef CANCELS_H
#define CANCELS_H

#include "promises.h"

/* After an accepted save that was lent a buffer of this length, which is enough
 * for the delete's list. */
void require_save_cancels(const struct moment *before,
                          const struct moment *after, struct text name,
                          const struct module *module, size_t buffer_length);

/* The names of two renames, and the buffer's length of the first. */
struct renames {
    struct text first, second, third;
    size_t buffer_length;
};

/* After an accepted rename from the first name to the second. Goes on to the
 * third, and back to the first. */
void require_renames_join(const struct moment *before,
                          const struct moment *after, struct renames renames);

#endif
