/* The sector view: a part of the caller's image. */
#include "tandos.h"

const uint8_t *tandos_view(const uint8_t *image, size_t image_len,
                           uint32_t sectors, uint32_t arrangement,
                           uint32_t track, uint32_t sector)
{
    uint32_t start = tandos_view_start(image, image_len, sectors, arrangement,
                                       track, sector);

    /* A view begins after its sector's link, so never at byte 0. */
    return start == 0 ? NULL : image + start;
}
