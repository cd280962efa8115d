#include "lent.h"

#include <stdio.h>
#include <stdlib.h>
#include <string.h>

#include "report.h"

#define GUARD 64

static uint8_t *allocate(size_t length)
{
    uint8_t *block = malloc(length);

    if (block == NULL) {
        puts("no memory for the tests");
        exit(EXIT_FAILURE);
    }
    return block;
}

struct lent lend(const uint8_t *bytes, size_t length)
{
    struct lent lent;
    size_t whole = length + 2 * GUARD;
    size_t i;

    lent.length = length;
    lent.block = allocate(whole);
    lent.before = allocate(whole);
    /* Neighbours differ, so that bytes moved by one are seen. */
    for (i = 0; i < whole; i++)
        lent.block[i] = (uint8_t)(0xA5 + 7 * i);
    if (length > 0)
        memcpy(lent.block + GUARD, bytes, length);
    memcpy(lent.before, lent.block, whole);
    lent.bytes = bytes == NULL ? NULL : lent.block + GUARD;
    return lent;
}

void expect_kept_beyond(size_t written, const char *what, struct lent *lent)
{
    size_t rest = GUARD + written;

    if (written > lent->length)
        rest = GUARD + lent->length;
    expect_bytes(what, lent->before, lent->block, GUARD);
    expect_bytes(what, lent->before + rest, lent->block + rest,
                 lent->length + 2 * GUARD - rest);
    free(lent->block);
    free(lent->before);
}

struct lent lend_disc(const struct disc *disc)
{
    static uint8_t image[DISC_MAX];

    arrange(image, disc->bytes, disc->length, stated.arrangement);
    return lend(image, disc->length);
}

struct lent lend_text(struct text text)
{
    return lend(text.bytes, text.length);
}

void take_back(const char *what, struct disc *disc, struct lent *image,
               uint32_t number)
{
    arrange_back(disc->bytes, image->bytes, disc->length, stated.arrangement);
    expect_kept_beyond(number == TANDOS_DONE ? disc->length : 0, what, image);
}
