#include "discs.h"

#include <stdio.h>
#include <string.h>

unsigned disc_sectors = 10;
uint8_t sheet[SHEET_BYTES];

unsigned of_kind(unsigned ten, unsigned nine)
{
    return disc_sectors == 9 ? nine : ten;
}

size_t track_size(void)
{
    return 256 * (size_t)disc_sectors;
}

void make_sheet(void)
{
    size_t i;

    for (i = 0; i < SHEET_BYTES; i++)
        sheet[i] = (uint8_t)(1 + i % 251);
}

struct place place(unsigned track, unsigned sector)
{
    struct place place;

    place.track = track;
    place.sector = sector;
    return place;
}

/* Where the sectors 1 to 10 of a track stand in a moved image, counted from 0:
 * passing order puts 1, 4, 7, 10, 3, 6, 9, 2, 5, 8 there. */
static const size_t moved_places[] = { 0, 7, 4, 1, 8, 5, 2, 9, 6, 3 };

/* Where the sector of a plain image that begins at a byte begins in an image
 * of the arrangement. Only 1, of ten sectors a track, is not plain. */
static size_t arranged_start(size_t plain_start, uint32_t arrangement)
{
    size_t track = plain_start / 2560;
    size_t place = plain_start % 2560 / 256;

    if (arrangement != 1 || disc_sectors != 10)
        return plain_start;
    return 2560 * track + 256 * moved_places[place];
}

void arrange(uint8_t *image, const uint8_t *plain, size_t length,
             uint32_t arrangement)
{
    size_t whole = length - length % track_size();
    size_t start;

    for (start = 0; start < whole; start += 256)
        memcpy(image + arranged_start(start, arrangement), plain + start, 256);
    memcpy(image + whole, plain + whole, length - whole);
}

void arrange_back(uint8_t *plain, const uint8_t *image, size_t length,
                  uint32_t arrangement)
{
    size_t whole = length - length % track_size();
    size_t start;

    for (start = 0; start < whole; start += 256)
        memcpy(plain + start, image + arranged_start(start, arrangement), 256);
    memcpy(plain + whole, image + whole, length - whole);
}

struct place passed_place(unsigned n)
{
    static const unsigned of_ten[] = { 1, 4, 7, 10, 3, 6, 9, 2, 5, 8 };
    static const unsigned of_nine[] = { 1, 4, 7, 2, 5, 8, 3, 6, 9 };
    const unsigned *passed = disc_sectors == 9 ? of_nine : of_ten;

    return place(n / disc_sectors, passed[n % disc_sectors]);
}

struct place free_place(unsigned k)
{
    /* 0/1 and 0/4 come before the free chain. */
    return passed_place(k + 2);
}

static size_t start_of(struct place place)
{
    return 256 * ((size_t)disc_sectors * place.track + place.sector - 1);
}

uint8_t *at(struct disc *disc, struct place place, unsigned byte)
{
    return disc->bytes + start_of(place) + byte;
}

int is_on_disc(const struct disc *disc, struct place place)
{
    return place.sector >= 1 && place.sector <= disc_sectors &&
           start_of(place) < disc->length;
}

const uint8_t *sector_of(const struct disc *disc, struct place place)
{
    return disc->bytes + start_of(place);
}

struct place link_of(const struct disc *disc, struct place from)
{
    const uint8_t *sector = sector_of(disc, from);

    return place(sector[0], sector[1]);
}

struct place pair_at(const uint8_t *pair)
{
    return place(pair[1], pair[0]);
}

static void put_word(uint8_t *to, unsigned word)
{
    to[0] = (uint8_t)(word % 256);
    to[1] = (uint8_t)(word / 256);
}

/* Sector, then track: the order in the system sector and in entries. */
static void put_pair(uint8_t *to, struct place place)
{
    to[0] = (uint8_t)place.sector;
    to[1] = (uint8_t)place.track;
}

void put_link(struct disc *disc, struct place from, struct place to)
{
    *at(disc, from, 0) = (uint8_t)to.track;
    *at(disc, from, 1) = (uint8_t)to.sector;
}

void put_free_pointer(struct disc *disc, struct place to)
{
    put_pair(disc->bytes + 0x10, to);
}

void put_counts(struct disc *disc, unsigned free_count, unsigned used_count)
{
    put_word(disc->bytes + 0x14, free_count);
    put_word(disc->bytes + 0x16, used_count);
}

void put_entry(struct disc *disc, struct place directory, unsigned slot,
               const char *stored_name, unsigned length, struct place first,
               struct place last)
{
    uint8_t *entry = at(disc, directory, 3 + 16 * slot);

    memcpy(entry, stored_name, 9);
    put_word(entry + 9, length);
    put_pair(entry + 11, first);
    put_pair(entry + 13, last);
    entry[15] = 0x00;
    *at(disc, directory, 2) += 1;
}

struct module module_at_2000(size_t length)
{
    struct module module;

    module.page = 0;
    module.start = 0x2000;
    module.transfer = 0x2000;
    module.length = length;
    return module;
}

static void put_header(uint8_t *to, struct module module)
{
    to[0] = 0xFF;
    to[1] = (uint8_t)module.page;
    put_word(to + 2, module.start);
    put_word(to + 4, module.start + (unsigned)module.length - 1);
    put_word(to + 6, module.transfer);
}

void put_module(struct disc *disc, unsigned k, struct module module)
{
    const uint8_t *left = sheet;
    size_t count = module.length;
    size_t held = count < 245 ? count : 245;
    unsigned length_byte = 10;

    put_header(at(disc, free_place(k), 2), module);
    for (;;) {
        uint8_t *body = at(disc, free_place(k), length_byte);

        memset(body, 0, 256 - length_byte);
        body[0] = (uint8_t)held;
        memcpy(body + 1, left, held);
        left += held;
        count -= held;
        if (count == 0)
            break;
        put_link(disc, free_place(k), free_place(k + 1));
        k++;
        held = count < 253 ? count : 253;
        length_byte = 2;
    }
    put_link(disc, free_place(k), place(0, 0));
}

void make_blank(struct disc *disc, unsigned tracks, const char *name)
{
    unsigned free_count = disc_sectors * tracks - 2;
    unsigned k;

    memset(disc->bytes, 0, sizeof disc->bytes);
    disc->length = track_size() * tracks;
    put_free_pointer(disc, place(0, 7));
    put_pair(disc->bytes + 0x12, place(0, 4));
    put_counts(disc, free_count, 0);
    memcpy(disc->bytes + 0x18, name, 9);
    memcpy(disc->bytes + 0x40, "TANDOS 65 IMAGE 1", 17);
    for (k = 0; k + 1 < free_count; k++)
        put_link(disc, free_place(k), free_place(k + 1));
}

void make_pieces(struct disc *disc)
{
    make_blank(disc, 40, "PIECES   ");
    put_module(disc, 0, module_at_2000(300));
    put_entry(disc, place(0, 4), 0, "THU   PCS", 2, place(0, 7),
              place(0, of_kind(10, 2)));
    put_free_pointer(disc, place(0, of_kind(3, 5)));
    put_counts(disc, of_kind(396, 356), 2);
}

void make_small(struct disc *disc)
{
    make_blank(disc, 1, "SMALL    ");
    put_module(disc, 0, module_at_2000(245));
    put_entry(disc, place(0, 4), 0, "A        ", 1, place(0, 7), place(0, 7));
    put_module(disc, 1, module_at_2000(300));
    put_entry(disc, place(0, 4), 1, "B        ", 2, place(0, of_kind(10, 2)),
              place(0, of_kind(3, 5)));
    put_free_pointer(disc, place(0, of_kind(6, 8)));
    put_counts(disc, of_kind(5, 4), 3);
}

void make_unsound(struct disc *disc)
{
    make_small(disc);
    put_counts(disc, of_kind(5, 4), 4);
}

void make_fifteen(struct disc *disc)
{
    char name[10];
    unsigned i;

    make_blank(disc, of_kind(2, 3), "FIFTEEN  ");
    for (i = 0; i < 15; i++) {
        sprintf(name, "F%02u      ", i % 100);
        put_module(disc, i, module_at_2000(1));
        put_entry(disc, place(0, 4), i, name, 1, free_place(i), free_place(i));
    }
    put_free_pointer(disc, free_place(15));
    put_counts(disc, of_kind(3, 10), 15);
}

void make_sixteen(struct disc *disc)
{
    make_fifteen(disc);
    put_module(disc, 15, module_at_2000(1));
    put_link(disc, place(0, 4), free_place(16));
    put_link(disc, free_place(16), place(0, 0));
    put_entry(disc, free_place(16), 0, "F15      ", 1, free_place(15),
              free_place(15));
    put_free_pointer(disc, free_place(17));
    put_counts(disc, of_kind(1, 8), 16);
}

void make_full(struct disc *disc)
{
    make_blank(disc, 1, "FULL     ");
    put_module(disc, 0, module_at_2000(of_kind(2016, 1763)));
    put_entry(disc, place(0, 4), 0, "X        ", of_kind(8, 7), place(0, 7),
              place(0, of_kind(8, 9)));
    put_free_pointer(disc, place(0, 0));
    put_counts(disc, 0, of_kind(8, 7));
}
