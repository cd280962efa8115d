/* What is wrong with an unsound disc, piece by piece, in words. */
#ifndef DAMAGE_H
#define DAMAGE_H

#include <stdbool.h>
#include <stdint.h>

#include "chains.h"

/* What the pieces are told under. */
#define MET_AGAIN "Met more than once"
#define LINKED_OFF "Linked off the disc"
#define ENDED_ELSEWHERE "Not ended where the entry says"

/* Room for two names of chains, and places and numbers between them. */
#define DAMAGE_TEXT_SIZE 256

/* A sector that is met more than once, and by what. */
const char *met_again_text(const struct chains *chains, unsigned sector,
                           char text[DAMAGE_TEXT_SIZE]);

/* A chain that leaves the disc: from where, and to where. */
const char *linked_off_text(const struct chains *chains, unsigned number,
                            char text[DAMAGE_TEXT_SIZE]);

/* Whether a file's chain ends, but not where its entry says; and where. */
bool ends_elsewhere(const struct chain *chain);
const char *ended_elsewhere_text(const struct chains *chains, unsigned number,
                                 char text[DAMAGE_TEXT_SIZE]);

/* One piece for which the rule, 1 to 5, is broken, and what it is told under:
 * "Met more than once: 0/7: A (sector 1), B (sector 3)". */
const char *first_damage(const struct chains *chains, uint32_t rule,
                         char text[DAMAGE_TEXT_SIZE]);

#endif
