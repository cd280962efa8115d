#include "output.h"

#include <fcntl.h>
#include <stdio.h>
#include <string.h>
#include <unistd.h>

#include "bytes.h"
#include "message.h"
#include "replace.h"

/* A device or a pipe is written to, not replaced. */
static enum status write_special(const char *path, const uint8_t *bytes,
                                 size_t length)
{
    int file = open(path, O_WRONLY);
    enum status status = STATUS_DONE;

    if (file < 0)
        return say_failed(path, "cannot open");
    if (!write_bytes(file, bytes, length))
        status = say_failed(path, "cannot write");
    if (close(file) != 0 && status == STATUS_DONE)
        status = say_failed(path, "cannot write");
    return status;
}

enum status write_output(const char *path, const struct image *image,
                         const uint8_t *bytes, size_t length)
{
    struct stat file;

    if (path == NULL || strcmp(path, "-") == 0) {
        /* Whether it was written is asked once, at the end of the process. */
        fwrite(bytes, 1, length, stdout);
        return STATUS_DONE;
    }
    if (stat(path, &file) != 0)
        return replace_file(path, bytes, length, true);
    if (is_image_file(image, &file))
        return say_problem(path, "is the image itself: choose another file");
    if (!S_ISREG(file.st_mode) && !S_ISDIR(file.st_mode))
        return write_special(path, bytes, length);
    return replace_file(path, bytes, length, true);
}

bool is_same_file(const char *path, const char *other)
{
    struct stat file, other_file;

    return strcmp(path, "-") != 0 && strcmp(other, "-") != 0 &&
           stat(path, &file) == 0 && stat(other, &other_file) == 0 &&
           file.st_dev == other_file.st_dev && file.st_ino == other_file.st_ino;
}
