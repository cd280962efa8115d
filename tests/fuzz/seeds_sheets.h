#ifndef SEEDS_SHEETS_H
#define SEEDS_SHEETS_H

/* Seeds in which sheets are added to totals. */
void write_sheet_seeds(void);

#endif
