/*
 * What a sheet has to do to totals, from the rules of the sheet alone: sums of
 * 64 bits, which no sheet that is built here can exceed.
 */
#ifndef TOTALS_H
#define TOTALS_H

#include "input.h"

/* The answer; `totals` becomes what has to stand after the call. Counts the
 * occasions. */
uint32_t expected_add_sheet(struct totals *totals, struct text sheet);

#endif
