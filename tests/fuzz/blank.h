/* A blank disc, made from the rules alone. */
#ifndef BLANK_H
#define BLANK_H

#include "image.h"

/* Makes the image the blank disc, as stated, with these nine bytes as its
 * name. */
void put_blank(struct image *image, const uint8_t *stored);

#endif
