/*
 * Each call of the library on guarded copies of all that is lent to it. Each of
 * these expects that the number is one of the call's, that with a refusal the
 * other numbers are 0 and every lent byte stays, and that otherwise only what
 * the call may write is changed.
 */
#ifndef CALLS_H
#define CALLS_H

#include "image.h"
#include "input.h"
#include "lent.h"

/* What a list, a read or a command that writes left at the front of its
 * buffer. */
extern uint8_t answer[BUFFER_MOST];

struct viewed {
    uint32_t number;
    const uint8_t *bytes; /* in the lent image; NULL with a refusal */
};

/* The image is lent for reading: whoever lent it expects it kept. */
tandos_checked call_check(const struct lent *image, struct stated stated);
tandos_filled call_list(const struct lent *image, struct stated stated,
                        size_t buffer_length);
tandos_reading call_read(const struct lent *image, struct stated stated,
                         struct text name, size_t buffer_length);
struct viewed call_view(const struct lent *image, struct stated stated,
                        uint32_t track, uint32_t sector);

struct module {
    uint32_t page;
    uint16_t start, transfer;
    struct text sheet;
};

/* The first four lend a buffer of this length for their list of writes. */
tandos_filled call_save(struct image *image, struct text name,
                        const struct module *module, size_t buffer_length);
tandos_filled call_delete(struct image *image, struct text name,
                          size_t buffer_length);
tandos_filled call_rename(struct image *image, struct text old_name,
                          struct text new_name, size_t buffer_length);
tandos_filled call_protect(struct image *image, struct text name, uint32_t on,
                           size_t buffer_length);
uint32_t call_replay(struct image *image, struct text writes);
uint32_t call_repair(struct image *image);
uint32_t call_blank(struct image *image, struct text name);

/* On no image. */
uint32_t call_add_sheet(struct totals *totals, struct text sheet);

#endif
