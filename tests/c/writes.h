/*
 * Lists of writes, worked out by hand from discs and the rules. Nothing here
 * calls the library.
 */
#ifndef WRITES_H
#define WRITES_H

#include "discs.h"

/* One record, and the longest list of a command: 260 sectors of a file, 0/1 and
 * two of the directory, then the end. */
#define WRITE_SIZE 259
#define COMMAND_WRITES_MAX (263 * WRITE_SIZE + 1)

/* A list in the making. It may write every sector of the longest disc. */
#define WRITES_MOST 800

struct writes {
    size_t length;
    uint8_t bytes[WRITES_MOST * WRITE_SIZE + 1];
};

void begin_writes(struct writes *writes);

/* The sector as it stands on this disc. */
void put_write(struct writes *writes, const struct disc *disc,
               struct place place);

/* A record of any kind and place, whose 256 bytes are all the same. */
void put_filled(struct writes *writes, unsigned kind, struct place place,
                unsigned byte);

void end_writes(struct writes *writes);

/* A list of these sectors as they stand on the disc. */
void make_writes(struct writes *writes, const struct disc *disc,
                 const struct place *places, size_t count);

/* Expects a list byte for byte, and no other length. */
void expect_writes(const char *what, const struct writes *expected,
                   const struct writes *found);

/* The list of an accepted command, from the disc before it and the disc that it
 * left. The last one is of a rename, which names its new name, or a protect. 0
 * where the disc has no such file, and so there is no list. */
int make_save_writes(struct writes *writes, const struct disc *before,
                     const struct disc *after, const uint8_t *name,
                     size_t name_len);
int make_delete_writes(struct writes *writes, const struct disc *before,
                       const struct disc *after, const uint8_t *name,
                       size_t name_len);
int make_entry_writes(struct writes *writes, const struct disc *after,
                      const uint8_t *name, size_t name_len);

#endif
