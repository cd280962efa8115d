/* The command that adds a sheet to totals. */
#ifndef SHEETS_H
#define SHEETS_H

#include "input.h"

/* The first totals of a run: zeros, as at the start of a week. */
void begin_totals(void);

/* The totals are handed on from one such command of a run to the next. */
void run_add_sheet(struct input *input);

#endif
