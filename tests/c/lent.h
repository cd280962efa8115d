/* Memory lent to one call, with guard bytes before and after it. */
#ifndef LENT_H
#define LENT_H

#include "calls.h"

struct lent {
    uint8_t *bytes;  /* what the call gets; NULL if NULL was asked for */
    size_t length;
    uint8_t *block;  /* guard bytes, the lent bytes, guard bytes */
    uint8_t *before; /* the block as it was before the call */
};

/* A copy of the bytes to lend. NULL stands for itself and has length 0. */
struct lent lend(const uint8_t *bytes, size_t length);

/* Expects every byte as it was, but for the first `written`, and gives back
 * the block. */
void expect_kept_beyond(size_t written, const char *what, struct lent *lent);

/* The disc's image in the arrangement stated. */
struct lent lend_disc(const struct disc *disc);
struct lent lend_text(struct text text);

/* Takes the image over that a call left, and with a refusal expects it kept. */
void take_back(const char *what, struct disc *disc, struct lent *image,
               uint32_t number);

/* What a call takes of a lent image, and of a name, sheet or buffer. */
#define ON(image) (image).bytes, (image).length, STATED
#define WITH(lent) (lent).bytes, (lent).length

#endif
