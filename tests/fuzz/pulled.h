/*
 * A card that was pulled while a command wrote: what stands on it, and what a
 * repair has to bring back. From the cut on there is a promise, the state in
 * which the disc is after a repair; it ends with the repair, or where something
 * else than a command of the run changes the disc.
 */
#ifndef PULLED_H
#define PULLED_H

#include "promises.h"

/* An accepted command, whole: the moments before and after it and its list. */
struct cut {
    enum cut_command command;
    const struct moment *before, *after;
    struct text writes;
};

/* The card after the first `count` writes, count modulo one more than there
 * are. It is written by the library's replay and without it. A copy of it is
 * repaired at once and expected to be as promised; the promise stands for the
 * card itself. */
void pull_card(struct image *card, const struct cut *cut, size_t count);

/* Whether a promise stands. */
int is_promised(void);

/* Expects the state that was promised, where a promise stands. */
void require_promised(const struct moment *now);

/* The card itself is repaired: the same, and the promise ends. */
void repair_promised(const struct moment *now);

/* Between the cut and the repair: an accepted command has left this moment, or
 * one is refused with 3 at it. */
void go_on_promised(const struct moment *now);
void refuse_promised(const struct moment *now);

void end_promise(void);

#endif
