/* Numbers as people type them. */
#ifndef NUMBER_H
#define NUMBER_H

#include <stdbool.h>
#include <stddef.h>
#include <stdint.h>

/* Decimal, or hexadecimal after 0x or $. A number of more than 32 bits becomes
 * UINT32_MAX, which is out of every range here. False if it is no number. */
bool parse_number(const char *text, uint32_t *number);

/* Decimal digits and nothing else; otherwise likewise. */
bool parse_decimal(const char *digits, size_t length, uint32_t *number);

/* TRACK/SECTOR, each a number as above. */
bool parse_place(const char *text, uint32_t *track, uint32_t *sector);

#endif
