#include "lock.h"

#include <errno.h>
#include <fcntl.h>
#include <stdbool.h>
#include <sys/stat.h>
#include <unistd.h>

/* Waits for the lock. A file system without locks is worked on without. */
static void lock_file(int file)
{
    struct flock lock = { 0 };

    lock.l_type = F_WRLCK;
    lock.l_whence = SEEK_SET;
    while (fcntl(file, F_SETLKW, &lock) != 0 && errno == EINTR)
        continue;
}

/* Another command may have replaced the file while this one waited for its
 * lock: the lock is then on a file that no path leads to any more. */
static bool is_still_at(const char *path, int file)
{
    struct stat opened, named;

    return fstat(file, &opened) == 0 && stat(path, &named) == 0 &&
           opened.st_dev == named.st_dev && opened.st_ino == named.st_ino;
}

int open_locked(const char *path)
{
    for (;;) {
        int file = open(path, O_RDWR);

        if (file < 0)
            return -1;
        lock_file(file);
        if (is_still_at(path, file))
            return file;
        close(file);
    }
}
