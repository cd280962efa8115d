/*
 * A twin is the same disc of ten sectors a track in the other arrangement. A
 * call on it answers the same, writes the same to its buffer, and leaves the
 * twin of what it leaves in the image. Each function makes the call once more,
 * on the twin, and expects this. Discs of nine, which have one arrangement, and
 * images of which something wrong is stated have no twin.
 *
 * It is asked of each call that a command of the input makes, and of the check
 * of an image at the start or after a change that no call made. It is not asked
 * of the calls with which the harness looks at what a command left: these are
 * most of all calls, and their answers have promises of their own in either
 * arrangement.
 */
#ifndef TWINS_H
#define TWINS_H

#include "calls.h"

/* After calls that read. What a list or read gave stands in `answer`, before
 * and after. */
void twin_check(const struct image *image, tandos_checked checked);
void twin_list(const struct image *image, tandos_filled listed,
               size_t buffer_length);
void twin_read(const struct image *image, const tandos_reading *reading,
               struct text name, size_t buffer_length);
void twin_view(const struct image *image, struct viewed viewed, uint32_t track,
               uint32_t sector);

/* After calls that write: the image before and after, and the answer. */
struct change {
    const struct image *before, *after;
    uint32_t number;
};

/* The change of a command that gives its list of writes; none with a refusal.
 * The list is the twin's too, also where it is replayed. */
struct listed_change {
    struct change change;
    struct text writes;
    size_t buffer_length;
};

void twin_save(struct listed_change listed, struct text name,
               const struct module *module);
void twin_delete(struct listed_change listed, struct text name);
void twin_rename(struct listed_change listed, struct text old_name,
                 struct text new_name);
void twin_protect(struct listed_change listed, struct text name, uint32_t on);
void twin_replay(struct change change, struct text writes);
void twin_repair(struct change change);
void twin_blank(struct change change, struct text name);

#endif
