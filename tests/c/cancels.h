/*
 * What two commands in a row have to leave: a save and the delete of its file,
 * or two renames of a file.
 */
#ifndef CANCELS_H
#define CANCELS_H

#include "calls.h"

/* The bytes of a list of one record, as a rename gives, and of three, as a
 * delete does. */
#define ENTRY_WRITES_SIZE (WRITE_SIZE + 1)
#define DELETE_WRITES_SIZE (3 * WRITE_SIZE + 1)

/* A save took so many sectors of a disc, none for the directory, and its file
 * was deleted. Puts the bytes that may differ back to what they were: bytes 2
 * to 255 of these sectors, and the track byte of the free chain's end if it is
 * one of them. Which these are is found on the disc before the save. */
void put_back(struct disc *disc, const struct disc *before, unsigned taken);

uint32_t rename_lent(struct disc *disc, const char *old_name,
                     const char *new_name, size_t writes_len);

/* Renames a file from names[0] to names[1] with a buffer of this length, then
 * to names[2] with one that just holds the list. Expects the disc that one
 * rename from names[0] to names[2] leaves, with the first buffer, or, where
 * these are the same, the disc of the start. 0 if a rename was refused. */
int expect_joined(const struct disc *start, const char *const *names,
                  size_t writes_len);

#endif
