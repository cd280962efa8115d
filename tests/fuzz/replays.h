/* Lists of writes for the call that replays them. */
#ifndef REPLAYS_H
#define REPLAYS_H

#include "image.h"

/* Before a run no list is kept: an end alone stands for each. */
void begin_lists(void);

/* Keeps the list of this length that stands in `answer`, as the last one. It
 * stands until KEPT_MOST more are kept. */
struct text keep_list(size_t length);

/* A list that the input tells, for this image. It stands until the next one is
 * taken. */
struct text take_list(struct input *input, const struct image *image);

#endif
