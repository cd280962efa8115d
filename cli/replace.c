#include "replace.h"

#include <errno.h>
#include <fcntl.h>
#include <stdlib.h>
#include <string.h>
#include <sys/stat.h>
#include <unistd.h>

#include "bytes.h"
#include "message.h"
#include "temporary.h"

/* The file behind symbolic links; the path itself where nothing stands there
 * yet. NULL with errno, also for a link that leads nowhere. */
static char *real_path(const char *path)
{
    char *real = realpath(path, NULL);
    struct stat link;

    if (real != NULL || errno != ENOENT)
        return real;
    if (lstat(path, &link) == 0) {
        errno = ENOENT;
        return NULL;
    }
    return strdup(path);
}

/* The folder of a path, with its last slash; "./" where the path has none. */
static char *folder_of(const char *path)
{
    const char *slash = strrchr(path, '/');

    return slash != NULL ? strndup(path, (size_t)(slash - path) + 1)
                         : strdup("./");
}

static mode_t mode_of_new_file(void)
{
    mode_t mask = umask(0);

    umask(mask);
    return 0666 & ~mask;
}

/* Only the superuser can give a file away; others can give it to a group that
 * they are in. What cannot be kept is not an error. */
static bool take_owner(int file, const struct stat *old)
{
    return fchown(file, old->st_uid, old->st_gid) == 0 ||
           fchown(file, (uid_t)-1, old->st_gid) == 0 || errno == EPERM;
}

/* Owner and permissions of the file that is replaced, if there is one. */
static bool take_permissions(int file, const char *target)
{
    struct stat old;

    if (stat(target, &old) != 0)
        return fchmod(file, mode_of_new_file()) == 0;
    return take_owner(file, &old) && fchmod(file, old.st_mode & 0777) == 0;
}

static bool fill(int file, const char *target, const uint8_t *bytes,
                 size_t length)
{
    bool is_filled = take_permissions(file, target) &&
                     write_bytes(file, bytes, length) && fsync(file) == 0;
    int error = errno;

    if (close(file) != 0 && is_filled)
        return false;
    errno = error;
    return is_filled;
}

/* The new name lasts only once the folder is on the disc too. Some file
 * systems cannot do that for a folder, and say EINVAL. */
static bool sync_folder(const char *folder)
{
    int file = open(folder, O_RDONLY);
    bool is_done;
    int error;

    if (file < 0)
        return false;
    is_done = fsync(file) == 0 || errno == EINVAL;
    error = errno;
    close(file);
    errno = error;
    return is_done;
}

/* Removes the temporary file after an error, which errno tells. */
static enum status give_up(const char *path, const char *what)
{
    int error = errno;

    remove_temporary();
    errno = error;
    return say_failed(path, what);
}

static enum status write_beside(const struct replacement *new_file,
                                const uint8_t *bytes, size_t length)
{
    int file = create_temporary(new_file->folder);

    if (file < 0)
        return say_failed(new_file->path,
                          "cannot make a temporary file beside it");
    if (!fill(file, new_file->target, bytes, length))
        return give_up(new_file->path, NOTHING_CHANGED);
    return STATUS_DONE;
}

/* A device or a pipe cannot be replaced, and must not be. */
static bool is_replaceable(const char *target)
{
    struct stat file;

    return stat(target, &file) != 0 || S_ISREG(file.st_mode);
}

static void forget(struct replacement *new_file)
{
    free(new_file->folder);
    free(new_file->target);
}

enum status prepare_file(struct replacement *new_file, const char *path,
                         const uint8_t *bytes, size_t length)
{
    enum status status;

    new_file->path = path;
    new_file->target = real_path(path);
    new_file->folder =
        new_file->target != NULL ? folder_of(new_file->target) : NULL;
    if (new_file->folder == NULL)
        status = say_failed(path, "cannot write");
    else if (!is_replaceable(new_file->target))
        status = say_problem(path, "cannot write: not a regular file");
    else
        status = write_beside(new_file, bytes, length);
    if (status != STATUS_DONE)
        forget(new_file);
    return status;
}

enum status finish_file(struct replacement *new_file, bool may_exist,
                        const char *otherwise)
{
    enum status status = STATUS_DONE;

    if (!name_temporary(new_file->target, may_exist))
        status = give_up(new_file->path, otherwise);
    else if (!sync_folder(new_file->folder))
        status = say_failed(new_file->path,
                            "written, but the folder could not be synced");
    forget(new_file);
    return status;
}

void drop_file(struct replacement *new_file)
{
    remove_temporary();
    forget(new_file);
}

enum status replace_file(const char *path, const uint8_t *bytes, size_t length,
                         bool may_exist)
{
    struct replacement new_file;
    enum status status = prepare_file(&new_file, path, bytes, length);

    if (status != STATUS_DONE)
        return status;
    return finish_file(&new_file, may_exist, NOTHING_CHANGED);
}
