/*
 * What holds after an accepted command, said of the image and of the
 * library's own answers before it and after it.
 */
#ifndef PROMISES_H
#define PROMISES_H

#include "state.h"

/* A moment of a run: the image and what the library says of it. */
struct moment {
    struct image image;
    struct state state;
};

/* The first four have given this list of writes. */
void require_saved(const struct moment *before, const struct moment *after,
                   struct text name, const struct module *module,
                   struct text writes);
void require_deleted(const struct moment *before, const struct moment *after,
                     struct text name, struct text writes);
void require_renamed(const struct moment *before, const struct moment *after,
                     struct text old_name, struct text new_name,
                     struct text writes);
void require_protected(const struct moment *before, const struct moment *after,
                       struct text name, uint32_t on, struct text writes);

/* The same files, counts and disc name, as after a repair that counts as no
 * change. */
void require_same_state(const struct state *one, const struct state *other);

void require_blank(const struct moment *after, struct text name);

/* The list, replayed on the one image, gives exactly the other. */
void require_replayed(const struct image *before, const struct image *after,
                      struct text writes);

/* The image alone: each byte is that of the blank disc with these nine name
 * bytes. */
void require_blank_bytes(const struct image *image, const uint8_t *stored);

#endif
