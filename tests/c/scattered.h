/*
 * Discs of any bytes on which directory, files and free chain lie anywhere, the
 * same in every run. Nothing here calls the library.
 */
#ifndef SCATTERED_H
#define SCATTERED_H

#include "repairs.h"

/* Numbers for these discs, and for what is done with them. */
void begin_random(uint32_t state);
unsigned below(unsigned limit);

/* A disc of any bytes, but that rules 1 to 5 hold: directory and files lie
 * anywhere, and at least `spare` sectors are in neither. Which, is known from
 * how the disc is made. */
void make_scattered(struct disc *disc, struct taken *taken, unsigned tracks,
                    unsigned spare);

/* Such a disc that is sound: these sectors are its free chain, in any order and
 * with any track in the end link. Gives their number. */
unsigned make_scattered_sound(struct disc *disc, unsigned tracks,
                              unsigned spare);

#endif
