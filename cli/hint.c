#include "hint.h"

#include "kind.h"
#include "message.h"

/* The library judges, on a copy. */
bool is_repairable(const struct image *image)
{
    static struct image copy;

    copy = *image;
    return kind_meant(image) == KINDS &&
           tandos_check(TANDOS_ON(copy)).rule != 0 &&
           tandos_repair(TANDOS_ON(copy)) == TANDOS_DONE;
}

const char *repair_hint(const struct image *image)
{
    return is_repairable(image)
               ? " A repair would make the disc sound: 'tandos repair "
                 "--dry-run' shows what it would do."
               : "";
}

const char *image_hint(const struct image *image)
{
    const char *hint = kind_hint(image);

    return *hint != '\0' ? hint : repair_hint(image);
}

enum status say_image_refused(const struct image *image, uint32_t number)
{
    const char *hint = "";

    if (number == TANDOS_SIZE || number == TANDOS_UNSOUND)
        hint = image_hint(image);
    else if (number == TANDOS_NO_SECTOR)
        hint = kind_hint(image);
    return say_refused(image->path, number, hint);
}
