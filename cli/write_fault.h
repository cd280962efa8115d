/* Why a list of writes was refused, in words. The verdict is the library's
 * alone; this looks for what it saw, for the message. */
#ifndef WRITE_FAULT_H
#define WRITE_FAULT_H

#include <stddef.h>
#include <stdint.h>

#define WRITE_FAULT_SIZE 120

/* Of a list that was refused with TANDOS_BAD_LIST for a disc of so many tracks
 * and sectors a track, the first thing that is wrong: "record 2, byte 259: kind
 * 7, which is neither 3 nor 0". Records are counted from 1, bytes from 0. */
const char *write_fault(const uint8_t *list, size_t length, unsigned tracks,
                        unsigned sectors, char text[WRITE_FAULT_SIZE]);

#endif
