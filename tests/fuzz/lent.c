#include "lent.h"

#include <sanitizer/asan_interface.h>
#include <stdlib.h>
#include <string.h>

#include "finding.h"

/* As long as two sectors: a whole sector written beside the lent bytes is
 * seen. */
#define GUARD 512

static void poison(const struct lent *lent)
{
    ASAN_POISON_MEMORY_REGION(lent->block, GUARD);
    ASAN_POISON_MEMORY_REGION(lent->block + GUARD + lent->length, GUARD);
}

static void unpoison(const struct lent *lent)
{
    ASAN_UNPOISON_MEMORY_REGION(lent->block, GUARD);
    ASAN_UNPOISON_MEMORY_REGION(lent->block + GUARD + lent->length, GUARD);
}

/* Neighbours differ, so that bytes moved by one are seen. */
static const uint8_t *guard(void)
{
    static uint8_t bytes[GUARD];
    size_t i;

    if (bytes[0] == 0)
        for (i = 0; i < GUARD; i++)
            bytes[i] = (uint8_t)(29 + 151 * i);
    return bytes;
}

struct lent lend(const uint8_t *bytes, size_t length)
{
    struct lent lent;

    lent.length = length;
    lent.block = malloc(length + 2 * GUARD);
    REQUIRE(lent.block != NULL, "no memory for the harness");
    memcpy(lent.block, guard(), GUARD);
    if (length > 0)
        memcpy(lent.block + GUARD, bytes, length);
    memcpy(lent.block + GUARD + length, guard(), GUARD);
    lent.bytes = bytes == NULL ? NULL : lent.block + GUARD;
    poison(&lent);
    return lent;
}

void require_kept(const struct lent *lent, const uint8_t *original,
                  size_t written, const char *what)
{
    const uint8_t *middle = lent->block + GUARD;

    REQUIRE(written <= lent->length, what);
    unpoison(lent);
    REQUIRE(memcmp(lent->block, guard(), GUARD) == 0, what);
    REQUIRE(memcmp(middle + lent->length, guard(), GUARD) == 0, what);
    if (lent->length > written)
        REQUIRE(memcmp(middle + written, original + written,
                       lent->length - written) == 0, what);
    poison(lent);
}

void give_back(struct lent *lent)
{
    unpoison(lent);
    free(lent->block);
}

void give_back_kept(struct lent *lent, const uint8_t *original,
                    const char *what)
{
    require_kept(lent, original, 0, what);
    give_back(lent);
}
