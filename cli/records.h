/* The records of a list. */
#ifndef RECORDS_H
#define RECORDS_H

#include <stdbool.h>
#include <stddef.h>
#include <stdint.h>

struct file_record {
    const uint8_t *name; /* nine bytes, as stored */
    unsigned sectors;
    bool is_protected;
};

struct file_record file_record(const uint8_t *record);

/* The number of files in a list of this length. */
size_t files_listed(size_t length);

#endif
