/*
 * The number that each command has to answer, in the order of the rules, from
 * its arguments and from what check and list say of the image.
 */
#ifndef EXPECTED_H
#define EXPECTED_H

#include "state.h"

/* The nine bytes of a typed file name or disc name; 0 if it breaks its rule. */
int store_name(struct text typed, uint8_t *stored);
int store_disc_name(struct text typed, uint8_t *stored);

/* 0 if no typed file name is stored as these nine bytes. */
int is_stored_name(const uint8_t *stored);

/* The sectors that a save needs, the directory's counted, and the length of its
 * list of writes. */
size_t need(const struct state *state, size_t sheet_length);
size_t save_writes_length(const struct state *state, size_t sheet_length);

uint32_t expected_list(const struct state *state, size_t buffer_length);
uint32_t expected_read(const struct state *state, struct text name,
                       size_t buffer_length);
uint32_t expected_save(const struct state *state, struct text name,
                       const struct module *module, size_t buffer_length);
uint32_t expected_delete(const struct state *state, struct text name,
                         size_t buffer_length);
uint32_t expected_rename(const struct state *state, struct text old_name,
                         struct text new_name, size_t buffer_length);
uint32_t expected_protect(const struct state *state, struct text name,
                          size_t buffer_length);
uint32_t expected_blank(const struct state *state, struct text name);
uint32_t expected_view(const struct image *image, const struct state *state,
                       uint32_t track, uint32_t sector);

#endif
