/*
 * Lists of writes, from the rules alone: the list that a command has to give,
 * made from the sound images before and after it, and what a list has to do to
 * any image.
 */
#ifndef WRITES_H
#define WRITES_H

#include "image.h"

/* A list of its own stands until the next one is made. Each is of the file with
 * these nine name bytes; the last one is of rename, which names the new ones,
 * and of protect. */
struct text save_writes(const struct image *before, const struct image *after,
                        const uint8_t *stored);
struct text delete_writes(const struct image *before,
                          const struct image *after, const uint8_t *stored);
struct text entry_writes(const struct image *after, const uint8_t *stored);

/* The answer of a replay; the image becomes what has to stand after it. Counts
 * the occasions. */
uint32_t expected_replay(struct image *image, struct text writes);

#endif
