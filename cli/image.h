/* An image in memory, and its way from and to its file. */
#ifndef IMAGE_H
#define IMAGE_H

#include <stdbool.h>
#include <stddef.h>
#include <stdint.h>
#include <sys/stat.h>

#include "kind.h"
#include "status.h"
#include "tandos.h"

/* One byte more than any image has: enough for the library to see that a file
 * is too long. */
#define IMAGE_BUFFER_SIZE (TANDOS_IMAGE_MAX + 1)

struct image {
    const char *path;
    struct stat file; /* which file it was read from */
    int locked;       /* that file, open, where it was read for a change */
    enum kind kind;   /* as the command line states it */
    /* Lent to a call by TANDOS_ON; the last two are those of the kind. */
    uint8_t bytes[IMAGE_BUFFER_SIZE];
    size_t length;
    uint32_t sectors;
    uint32_t arrangement;
};

/* For the commands that only read: "-" is standard input. */
enum status load_image(struct image *image, const char *path, enum kind kind);

/* For the commands that change the image: its file is locked until the process
 * ends or, where one image after the other is changed, until it is unlocked. */
enum status load_image_for_change(struct image *image, const char *path,
                                  enum kind kind, const char *command);
void unlock_image(const struct image *image);

/* The image is of a right size. */
unsigned track_count(const struct image *image);

/* Where a sector that is on the disc begins in the image, its link first. The
 * image is of a right size. */
size_t sector_start(const struct image *image, unsigned track,
                    unsigned sector);

/* Whether a path leads to the file that the image was read from. */
bool is_image_file(const struct image *image, const struct stat *file);

#endif
