/* The temporary files of the process. A signal that ends the process removes
 * them first. Whatever is named or removed is the newest that stands. */
#ifndef TEMPORARY_H
#define TEMPORARY_H

#include <stdbool.h>

/* A new file in a folder (a path that ends with a slash), open for writing.
 * -1 with errno. */
int create_temporary(const char *folder);

/* Gives the newest its name, in one step. False with errno. */
bool name_temporary(const char *target, bool may_exist);

void remove_temporary(void);

#endif
