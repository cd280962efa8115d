#ifndef SEEDS_CANCELS_H
#define SEEDS_CANCELS_H

/* Seeds of saves that a delete cancels, and of renames in a row. */
void write_cancel_seeds(void);

#endif
