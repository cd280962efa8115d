#ifndef SEEDS_REPAIRS_H
#define SEEDS_REPAIRS_H

/* Seeds of repairs, and of cards that were pulled while a command wrote. */
void write_repair_seeds(void);

#endif
