/* The call that repairs, and what has to stand after it, from the rules
 * alone. */
#ifndef REPAIRS_H
#define REPAIRS_H

#include "image.h"

/* Repairs the image, and its twin. Expects the number and every byte; and that
 * a second repair changes nothing. Counts the occasions. */
uint32_t repair(struct image *image);

#endif
