#ifndef SEEDS_WRITES_H
#define SEEDS_WRITES_H

/* Seeds of lists of writes: the buffers for them, and replays. */
void write_writes_seeds(void);

#endif
