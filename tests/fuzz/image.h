/*
 * An image with what is stated of it, and where its sectors stand. Nothing else
 * in the harness knows the numbers of sectors and the orders. They are written
 * down here once more, so that a wrong place in the library is seen.
 */
#ifndef IMAGE_H
#define IMAGE_H

#include "input.h"
#include "tandos.h"

/* One track more than any disc has, for images that are too long. */
#define IMAGE_MOST TANDOS_IMAGE_SIZE(TANDOS_MAX_TRACKS + 1, TANDOS_TEN)

/* Ten tracks of nine sectors, nine of ten: up to EITHER_MOST times this long,
 * an image may be stated as either. */
#define EITHER_LENGTH TANDOS_IMAGE_SIZE(TANDOS_NINE, TANDOS_TEN)

struct image {
    size_t length;
    struct stated stated;
    uint8_t bytes[IMAGE_MOST];
};

/* What is stated: a kind of disc, or none for one of three reasons. */
enum kind {
    KIND_NINE, KIND_PLAIN, KIND_MOVED, DISC_KINDS,
    KIND_WRONG_SECTORS = DISC_KINDS, KIND_WRONG_ARRANGEMENT, KIND_NINE_MOVED,
    KINDS
};

enum kind kind_of(struct stated stated);

/* The sectors of a track. Where no kind of disc is stated, so that no call
 * looks at the image, everything below is as if ten plain ones were. */
size_t sectors_of(struct stated stated);

/* The number that isn't stated. */
size_t other_sectors(struct stated stated);

/* 0 if no disc with so many sectors a track is this long. */
int is_length(size_t length, size_t sectors);

/* 0 if every call on the image has to answer 1. */
int is_image(const struct image *image);

/* The length of so many tracks, where it can be with the wrong number that is
 * stated: then that number alone is wrong. */
size_t stated_length(struct stated stated, size_t tracks);

size_t tracks_of(const struct image *image);

int is_on_disc(const struct image *image, size_t track, size_t sector);

/* The byte at which a sector, 1 to the last of a track, starts. */
size_t sector_start(struct stated stated, size_t track, size_t sector);

/* The sectors of a track in passing order. */
const uint8_t *passing_order(struct stated stated);

void copy_image(struct image *to, const struct image *from);

/* The same disc of ten sectors a track in the other arrangement. */
void rearrange(struct image *to, const struct image *from);

#endif
