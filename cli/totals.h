/* The totals of the workers: adding up, printing, keeping in a file. */
#ifndef TOTALS_H
#define TOTALS_H

#include <stdbool.h>
#include <stdint.h>
#include <stdio.h>

#include "status.h"
#include "tandos.h"

/* The first line of a table with commas. */
#define TOTALS_HEADER "worker,pieces"

struct sheets;

struct totals {
    uint32_t pieces[TANDOS_WORKERS]; /* worker 1 first */
    unsigned sheets;                 /* that were added now */
};

/* Adds every sheet that was read, and notes in each what that answered. Each
 * file that is no sheet is named; it is refused unless only the good ones are
 * wanted. A total that would be too large ends the adding. */
enum status add_sheets(struct totals *totals, const struct sheets *sheets,
                       bool only_good);

/* Of the workers who have pieces, in the order of their numbers. On a terminal
 * the table has a bar beside each of them. */
void print_totals_table(const struct totals *totals);
void print_totals_json(const struct totals *totals);
void print_totals_csv(FILE *to, const struct totals *totals);

/* Reads the totals that a file has, as print_totals_csv writes them, and locks
 * it. `*stands` is false where there is no such file: the totals stay as they
 * are. Says what is wrong, and in which line. */
enum status load_totals(const char *path, struct totals *totals, bool *stands);

/* Replaces the file, or makes one where none stood. */
enum status store_totals(const char *path, const struct totals *totals,
                         bool stands);

#endif
