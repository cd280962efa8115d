/* All that the library says of an image: its soundness, list and readings. */
#ifndef STATE_H
#define STATE_H

#include "calls.h"

struct file {
    uint8_t name[TANDOS_NAME_SIZE];
    size_t sectors;
    uint8_t attribute;
    tandos_reading reading; /* number 0, or 9 where it is not plain */
    uint64_t hash;          /* of the bytes read */
};

struct state {
    int is_image; /* length and what is stated are right: nothing answers 1 */
    int is_sound;
    tandos_checked checked;
    /* The rest is said of sound images alone. */
    uint8_t disc_name[TANDOS_NAME_SIZE];
    size_t free_sectors, used_sectors, directory_sectors;
    size_t file_count;
    struct file files[TANDOS_MAX_FILES];
};

/* Asks the library, and expects that its answers fit each other. */
void look(const struct image *image, struct state *state);

/* Copies what is said, which is short of the whole struct. */
void copy_state(struct state *to, const struct state *from);

/* The file with these nine name bytes, or NULL. */
const struct file *find(const struct state *state, const uint8_t *stored);

uint64_t hash_of(const uint8_t *bytes, size_t length);

/* The sectors that a module of so many bytes takes. */
size_t module_sectors(size_t length);

/* The typed form of nine stored bytes. */
void type_name(const uint8_t *stored, struct name *name);

#endif
