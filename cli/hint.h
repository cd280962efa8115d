/* What may help with an image that is refused or not sound. A hint is "" or a
 * sentence with a space in front. */
#ifndef HINT_H
#define HINT_H

#include <stdbool.h>
#include <stdint.h>

#include "image.h"
#include "status.h"

/* Whether the command's repair would make an unsound image sound: it leaves one
 * alone for which another kind was meant. */
bool is_repairable(const struct image *image);

/* Where it would, that it would. */
const char *repair_hint(const struct image *image);

/* That another kind was meant, or else what the repair would do. */
const char *image_hint(const struct image *image);

/* A call on the image refused: with the hint, where the refusal may be due to
 * the image and not to what was asked of it. */
enum status say_image_refused(const struct image *image, uint32_t number);

#endif
