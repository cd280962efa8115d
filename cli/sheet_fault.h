/* Why a sheet was refused, in words. The verdict is the library's alone; these
 * functions look for what it saw, for the message. */
#ifndef SHEET_FAULT_H
#define SHEET_FAULT_H

#include <stddef.h>
#include <stdint.h>

#define FAULT_TEXT_SIZE 64

/* Of a sheet that was refused with TANDOS_BAD_SHEET, the first thing that is
 * wrong: "byte 15: a record of kind 7". Bytes are counted from 0. */
const char *sheet_fault(const uint8_t *sheet, size_t length,
                        char text[FAULT_TEXT_SIZE]);

/* Of a sheet that was refused with TANDOS_TOTAL, the lowest worker whose total
 * would be too large, and that total. */
const char *total_fault(const uint32_t *pieces, const uint8_t *sheet,
                        size_t length, char text[FAULT_TEXT_SIZE]);

#endif
