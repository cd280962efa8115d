#include "store.h"

#include <stdio.h>

#include "hint.h"
#include "output.h"
#include "replace.h"

#define LIST_AHEAD \
    "cannot write, the image stays as it was, but the list of its change is " \
    "written; give the command again, or replay the list"

/* Whether it was printed is asked at once: the image waits for it. That it was
 * not is said at the end of the process. */
static enum status write_list(const char *path, const struct image *image,
                              const uint8_t *writes, size_t length)
{
    enum status status = write_output(path, image, writes, length);

    return status == STATUS_DONE && fflush(stdout) != 0 ? STATUS_FAILED
                                                        : status;
}

static enum status store_both(const struct image *image, const char *path,
                              const uint8_t *writes, size_t length)
{
    struct replacement new_image;
    enum status status = prepare_file(&new_image, image->path, image->bytes,
                                      image->length);

    if (status != STATUS_DONE)
        return status;
    status = write_list(path, image, writes, length);
    if (status == STATUS_DONE)
        return finish_file(&new_image, true, LIST_AHEAD);
    drop_file(&new_image);
    return status;
}

enum status store_change(const struct image *image, tandos_filled filled,
                         const uint8_t *writes, const char *path)
{
    if (filled.number != TANDOS_DONE)
        return say_image_refused(image, filled.number);
    if (path == NULL)
        return replace_file(image->path, image->bytes, image->length, true);
    return store_both(image, path, writes, filled.length);
}
