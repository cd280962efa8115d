/* A map of the chains of a disc, as text and as a picture. */
#ifndef MAP_H
#define MAP_H

#include <stdbool.h>
#include <stdint.h>
#include <stdio.h>

#include "chains.h"

/* `rule` is the broken rule that the check has found, or 0; both maps tell of
 * the kind stated, and of another one where the disc is sound as that. */
void print_map(FILE *to, const struct chains *chains, uint32_t rule,
               bool is_coloured);

/* The sectors that an unsound disc has in two places, in none, or linked to
 * what is not on the disc, and the counts that are wrong. */
void print_damage(FILE *to, const struct chains *chains);

void print_map_svg(FILE *to, const struct chains *chains, uint32_t rule);

/* What is said of a chain in a legend: its name, its length and its place. */
void print_chain(FILE *to, const struct chains *chains, unsigned number,
                 void (*print_text)(FILE *to, const char *text));

#endif
