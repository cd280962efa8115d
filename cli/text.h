/* Stored bytes as text that is safe to print. */
#ifndef TEXT_H
#define TEXT_H

#include <stddef.h>
#include <stdint.h>
#include <stdio.h>

#include "tandos.h"

/* The parts of a file's name, as stored. */
#define NAME_PART 6
#define EXTENSION_PART 3

/* Room for nine bytes, each as four characters, a dot and the end. */
#define NAME_TEXT_SIZE (4 * TANDOS_NAME_SIZE + 2)

/* A file's nine name bytes as it is typed: "THU.PCS". A byte that is not
 * printable ASCII becomes \xHH, a backslash two. */
const char *file_name_text(const uint8_t *stored, char text[NAME_TEXT_SIZE]);

/* A disc's nine name bytes likewise, without the spaces at the end. */
const char *disc_name_text(const uint8_t *stored, char text[NAME_TEXT_SIZE]);

/* A text between quotation marks, for JSON. Each byte becomes the character of
 * its number (Latin-1), so that no two names become the same. */
void print_json_string(FILE *to, const uint8_t *bytes, size_t length);

/* A text for XML. Its characters must be printable ASCII. */
void print_xml_text(FILE *to, const char *text);

/* The length without the spaces at the end. */
size_t unpadded_length(const uint8_t *bytes, size_t length);

/* "" after a count of 1, else "s". */
const char *plural(unsigned count);

/* Low byte first. */
unsigned word_at(const uint8_t *bytes);

#endif
