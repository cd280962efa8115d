/* Whole reads and writes on file descriptors. */
#ifndef BYTES_H
#define BYTES_H

#include <stdbool.h>
#include <stddef.h>
#include <stdint.h>

#include "status.h"

/* Reads to the end of the file, but at most `size` bytes. False with errno. */
bool read_bytes(int file, uint8_t *buffer, size_t size, size_t *length);

/* False with errno. */
bool write_bytes(int file, const uint8_t *bytes, size_t length);

/* Reads a file, or standard input for "-", as far as `size` bytes. Says what
 * failed. */
enum status read_file(const char *path, uint8_t *buffer, size_t size,
                      size_t *length);

#endif
