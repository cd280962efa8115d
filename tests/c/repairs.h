/*
 * What a repair leaves, worked out from the disc and the rules. Nothing here
 * calls the library.
 */
#ifndef REPAIRS_H
#define REPAIRS_H

#include "discs.h"

/* Whether a sector, by its number, is 0/1 or met by the directory or a file,
 * and how many sectors the files have. */
struct taken {
    uint8_t marks[DISC_MAX / 256];
    unsigned used_count;
};

void mark(struct taken *taken, struct place place);

/* The marks of a disc on which rules 1 to 5 hold. */
void mark_taken(struct taken *taken, const struct disc *disc);

/* Threads the sectors without a mark, and sets free pointer and counts. */
void put_free_chain(struct disc *disc, const struct taken *taken);

/* Fills what that sets, the links of these sectors and bytes of 0/1, with
 * another byte. */
void spoil_free_chain(struct disc *disc, const struct taken *taken,
                      unsigned byte);

/* The disc repaired. */
void make_repaired(struct disc *disc);

#endif
