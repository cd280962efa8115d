/*
 * The eight rules of the check, judged from the image alone. Nothing here asks
 * the library: neither whether a disc is sound nor what its chains meet.
 */
#ifndef RULES_H
#define RULES_H

#include "image.h"

/* The last rule without which a repair refuses. */
#define LAST_STANDING_RULE 5

/* Where a chain met a sector. */
enum place {
    PLACE_NONE, PLACE_SYSTEM, PLACE_DIRECTORY, PLACE_FILE, PLACE_FREE, PLACES
};

struct met {
    size_t counts[PLACES];
    uint8_t places[TANDOS_TEN * TANDOS_MAX_TRACKS]; /* by sector number */
};

/* The lowest-numbered rule that is broken, or 0, and what the chains met until
 * then. The image has the length of a disc as stated. */
unsigned broken_rule(const struct image *image, struct met *met);

/* Where a chain met the sector. */
enum place place_in(const struct met *met, struct stated stated, size_t track,
                    size_t sector);

#endif
