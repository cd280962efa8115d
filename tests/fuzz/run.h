/* One input: an image, and commands run on it one after the other. */
#ifndef RUN_H
#define RUN_H

#include "input.h"

void run_input(struct input *input);

#endif
