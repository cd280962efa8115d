/* Files that are read, changed and replaced by one command at a time. */
#ifndef LOCK_H
#define LOCK_H

/*
 * Opens a file that is to be changed and locks it until the process ends: of
 * two commands at once the second one waits, and then reads what the first one
 * wrote. Without that the first one's change would be lost. -1 with errno.
 */
int open_locked(const char *path);

#endif
