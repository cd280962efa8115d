#include "image.h"

#include <fcntl.h>
#include <string.h>
#include <unistd.h>

#include "bytes.h"
#include "lock.h"
#include "message.h"

static enum status read_image(struct image *image, int file)
{
    if (fstat(file, &image->file) != 0 ||
        !read_bytes(file, image->bytes, sizeof image->bytes, &image->length))
        return say_failed(input_name(image->path), "cannot read");
    return STATUS_DONE;
}

enum status load_image(struct image *image, const char *path, enum kind kind)
{
    bool is_standard = strcmp(path, "-") == 0;
    int file = is_standard ? STDIN_FILENO : open(path, O_RDONLY);
    enum status status;

    image->path = path;
    state_kind(image, kind);
    if (file < 0)
        return say_failed(path, "cannot open");
    status = read_image(image, file);
    if (!is_standard)
        close(file);
    return status;
}

enum status load_image_for_change(struct image *image, const char *path,
                                  enum kind kind, const char *command)
{
    struct stat named;
    enum status status;

    image->path = path;
    state_kind(image, kind);
    if (strcmp(path, "-") == 0)
        return say_misuse(command, "an image that is changed is a file, not",
                          path);
    if (stat(path, &named) == 0 && !S_ISREG(named.st_mode))
        return say_problem(path, "cannot change: not a regular file");
    image->locked = open_locked(path);
    if (image->locked < 0)
        return say_failed(path, "cannot open for change");
    status = read_image(image, image->locked);
    if (status != STATUS_DONE)
        unlock_image(image);
    return status;
}

void unlock_image(const struct image *image)
{
    close(image->locked);
}

unsigned track_count(const struct image *image)
{
    return (unsigned)(image->length / TANDOS_IMAGE_SIZE(1, image->sectors));
}

size_t sector_start(const struct image *image, unsigned track, unsigned sector)
{
    return tandos_view_start(TANDOS_ON(*image), track, sector) -
           TANDOS_LINK_SIZE;
}

bool is_image_file(const struct image *image, const struct stat *file)
{
    return image->file.st_dev == file->st_dev &&
           image->file.st_ino == file->st_ino;
}
