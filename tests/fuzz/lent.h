/*
 * Memory lent to a call: a heap copy of exactly the lent bytes between guard
 * bytes. The guards are poisoned while they are out on loan, so that the
 * sanitizer sees what instrumented code does there; the archive of the proved
 * calls is not instrumented, so the guards are compared as well.
 */
#ifndef LENT_H
#define LENT_H

#include <stddef.h>
#include <stdint.h>

struct lent {
    uint8_t *bytes; /* what the call gets; NULL if NULL was asked for */
    size_t length;
    uint8_t *block;
};

/* Lends a copy of the bytes. NULL stands for itself and has length 0. */
struct lent lend(const uint8_t *bytes, size_t length);

/* Expects the guards as they were, and every byte but the first `written` as
 * in `original`. */
void require_kept(const struct lent *lent, const uint8_t *original,
                  size_t written, const char *what);

void give_back(struct lent *lent);

/* Memory lent for reading only: expects all of it kept and gives it back. */
void give_back_kept(struct lent *lent, const uint8_t *original,
                    const char *what);

#endif
