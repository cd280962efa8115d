#include "write_fault.h"

#include <stdbool.h>
#include <stdio.h>

#include "tandos.h"
#include "text.h"

struct fault {
    const uint8_t *record; /* the first that is wrong */
    size_t left;           /* bytes from there on */
    unsigned tracks, sectors;
};

static bool is_on_disc(const uint8_t *record, unsigned tracks,
                       unsigned sectors)
{
    return record[1] < tracks && record[2] >= 1 && record[2] <= sectors;
}

/* The first record that no other one may follow, or that is not whole. */
static size_t first_fault(const uint8_t *list, size_t length, unsigned tracks,
                          unsigned sectors)
{
    size_t at = 0;

    while (length - at >= TANDOS_WRITE_RECORD_SIZE &&
           list[at] == TANDOS_WRITE && is_on_disc(list + at, tracks, sectors))
        at += TANDOS_WRITE_RECORD_SIZE;
    return at;
}

static void print_fault(struct fault fault, char *text, size_t size)
{
    unsigned after = (unsigned)fault.left - 1;

    if (fault.left == 0)
        snprintf(text, size, "the list stops without its end");
    else if (fault.record[0] == TANDOS_WRITES_END)
        snprintf(text, size, "the end, with %u byte%s after it", after,
                 plural(after));
    else if (fault.record[0] != TANDOS_WRITE)
        snprintf(text, size, "kind %u, which is neither %u nor %u",
                 (unsigned)fault.record[0], (unsigned)TANDOS_WRITE,
                 (unsigned)TANDOS_WRITES_END);
    else if (fault.left < TANDOS_WRITE_RECORD_SIZE)
        snprintf(text, size, "cut short after %u of its %u bytes",
                 (unsigned)fault.left, (unsigned)TANDOS_WRITE_RECORD_SIZE);
    else
        snprintf(text, size,
                 "sector %u/%u, which is not on a disc of %u track%s of %u "
                 "sectors", (unsigned)fault.record[1],
                 (unsigned)fault.record[2], fault.tracks, plural(fault.tracks),
                 fault.sectors);
}

const char *write_fault(const uint8_t *list, size_t length, unsigned tracks,
                        unsigned sectors, char text[WRITE_FAULT_SIZE])
{
    size_t at = first_fault(list, length, tracks, sectors);
    struct fault fault = { list + at, length - at, tracks, sectors };
    int place = snprintf(text, WRITE_FAULT_SIZE, "record %lu, byte %lu: ",
                         (unsigned long)(at / TANDOS_WRITE_RECORD_SIZE + 1),
                         (unsigned long)at);

    print_fault(fault, text + place, WRITE_FAULT_SIZE - (size_t)place);
    return text;
}
