/*
 * The small disc of discs.h with bytes changed, so that each rule of the check
 * is broken in several ways, or none is.
 */
#ifndef DAMAGES_H
#define DAMAGES_H

#include "discs.h"

/* Bytes of track 0 changed on the small disc. Those left out have sector 0.
 * Sector and value may also be names, which damages.c has. */
struct change {
    unsigned sector, byte, value;
};

struct damage {
    unsigned rule; /* the lowest that is broken, or 0 */
    struct change changes[4];
};

extern const struct damage damages[];
extern const size_t damage_count;

/* The small disc with the changes made. */
void make_damaged(struct disc *disc, const struct damage *damage);

#endif
