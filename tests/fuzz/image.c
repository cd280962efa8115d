#include "image.h"

#include <string.h>

static const uint8_t nine_passing[TANDOS_NINE] = { 1, 4, 7, 2, 5, 8, 3, 6, 9 };
static const uint8_t ten_passing[TANDOS_TEN] = {
    1, 4, 7, 10, 3, 6, 9, 2, 5, 8
};

enum kind kind_of(struct stated stated)
{
    int is_nine = stated.sectors == TANDOS_NINE;

    if (!is_nine && stated.sectors != TANDOS_TEN)
        return KIND_WRONG_SECTORS;
    switch (stated.arrangement) {
    case TANDOS_PLAIN:
        return is_nine ? KIND_NINE : KIND_PLAIN;
    case TANDOS_MOVED:
        return is_nine ? KIND_NINE_MOVED : KIND_MOVED;
    default:
        return KIND_WRONG_ARRANGEMENT;
    }
}

size_t sectors_of(struct stated stated)
{
    return kind_of(stated) == KIND_NINE ? TANDOS_NINE : TANDOS_TEN;
}

size_t other_sectors(struct stated stated)
{
    return kind_of(stated) == KIND_NINE ? TANDOS_TEN : TANDOS_NINE;
}

int is_length(size_t length, size_t sectors)
{
    size_t track = TANDOS_IMAGE_SIZE(1, sectors);

    return length % track == 0 && length > 0 &&
           length / track <= TANDOS_MAX_TRACKS;
}

int is_image(const struct image *image)
{
    return kind_of(image->stated) < DISC_KINDS &&
           is_length(image->length, sectors_of(image->stated));
}

size_t stated_length(struct stated stated, size_t tracks)
{
    if (stated.sectors == 0 ||
        stated.sectors > IMAGE_MOST / TANDOS_IMAGE_SIZE(tracks, 1))
        return TANDOS_IMAGE_SIZE(tracks, TANDOS_TEN);
    return TANDOS_IMAGE_SIZE(tracks, stated.sectors);
}

size_t tracks_of(const struct image *image)
{
    return image->length / TANDOS_IMAGE_SIZE(1, sectors_of(image->stated));
}

int is_on_disc(const struct image *image, size_t track, size_t sector)
{
    return track < tracks_of(image) && sector >= 1 &&
           sector <= sectors_of(image->stated);
}

/* The place of a sector on its track, counted from 0. */
static size_t place_of(struct stated stated, size_t sector)
{
    size_t place = 0;

    if (kind_of(stated) != KIND_MOVED)
        return sector - 1;
    while (place < TANDOS_TEN && ten_passing[place] != sector)
        place++;
    return place;
}

size_t sector_start(struct stated stated, size_t track, size_t sector)
{
    return TANDOS_IMAGE_SIZE(track, sectors_of(stated)) +
           TANDOS_SECTOR_SIZE * place_of(stated, sector);
}

const uint8_t *passing_order(struct stated stated)
{
    return kind_of(stated) == KIND_NINE ? nine_passing : ten_passing;
}

void copy_image(struct image *to, const struct image *from)
{
    to->length = from->length;
    to->stated = from->stated;
    memcpy(to->bytes, from->bytes, from->length);
}

void rearrange(struct image *to, const struct image *from)
{
    size_t track, sector;

    /* Bytes behind the last whole track, if any, are in no sector. */
    copy_image(to, from);
    to->stated.arrangement = from->stated.arrangement == TANDOS_PLAIN
                                 ? TANDOS_MOVED : TANDOS_PLAIN;
    for (track = 0; track < tracks_of(from); track++)
        for (sector = 1; sector <= TANDOS_TEN; sector++)
            memcpy(to->bytes + sector_start(to->stated, track, sector),
                   from->bytes + sector_start(from->stated, track, sector),
                   TANDOS_SECTOR_SIZE);
}
