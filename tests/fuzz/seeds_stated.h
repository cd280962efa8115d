#ifndef SEEDS_STATED_H
#define SEEDS_STATED_H

/* Seeds in which single calls state something else than the run of the kind
 * that is chosen. */
void write_stated_seeds(void);

/* Seeds of runs that state wrong numbers from their start on. */
void write_wrong_runs(void);

#endif
