#include "blank.h"

#include <string.h>

#include "places.h"

/* The system sector and the directory pass first; the last link is zeros. */
static void put_free_chain(struct image *image)
{
    const uint8_t *order = passing_order(image->stated);
    size_t sectors = sectors_of(image->stated);
    size_t last = image->length / TANDOS_SECTOR_SIZE - 1;
    size_t i;

    for (i = 2; i < last; i++) {
        uint8_t *link = image->bytes + sector_start(image->stated, i / sectors,
                                                    order[i % sectors]);

        link[0] = (uint8_t)((i + 1) / sectors);
        link[1] = order[(i + 1) % sectors];
    }
}

void put_blank(struct image *image, const uint8_t *stored)
{
    static const char version[] = "TANDOS 65 IMAGE 1";
    uint8_t *system = sector_to_write(image, system_link);

    memset(image->bytes, 0, image->length);
    system[SYSTEM_FREE] = 7;
    system[SYSTEM_DIRECTORY] = 4;
    put_word(system + SYSTEM_FREE_COUNT,
             image->length / TANDOS_SECTOR_SIZE - 2);
    memcpy(system + 0x18, stored, TANDOS_NAME_SIZE);
    memcpy(system + 0x40, version, sizeof version - 1);
    put_free_chain(image);
}
