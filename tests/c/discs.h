/*
 * Discs worked out by hand from the rules of the format. Nothing here calls the
 * library: these are the bytes that the tests expect of it.
 */
#ifndef DISCS_H
#define DISCS_H

#include <stddef.h>
#include <stdint.h>

/* One track more than any disc has, for images that are too long. */
#define DISC_MAX (81 * 2560)

/* Sectors a track of all discs below, 9 or 10. */
extern unsigned disc_sectors;

/* What was worked out for ten sectors a track, or for nine. */
unsigned of_kind(unsigned ten, unsigned nine);

/* Bytes of a track. */
size_t track_size(void);

/* A disc by its plain image. */
struct disc {
    size_t length;
    uint8_t bytes[DISC_MAX];
};

/* The image of a disc in an arrangement, and back. Bytes beyond the last whole
 * track stay where they stand, as do all of a disc of nine sectors a track. */
void arrange(uint8_t *image, const uint8_t *plain, size_t length,
             uint32_t arrangement);
void arrange_back(uint8_t *plain, const uint8_t *image, size_t length,
                  uint32_t arrangement);

/* A sector's place on the disc, t/s. */
struct place {
    unsigned track, sector;
};

struct place place(unsigned track, unsigned sector);

/* The n-th sector of a disc in the order in which a blank disc's chain passes
 * them, from 0: 0/1, 0/4, 0/7, .. */
struct place passed_place(unsigned n);

/* The k-th sector of a blank disc's free chain, from 0: 0/7, 0/10, 0/3, .. or
 * 0/7, 0/2, 0/5, .. */
struct place free_place(unsigned k);

/* Byte `byte` of a sector. */
uint8_t *at(struct disc *disc, struct place place, unsigned byte);

/* What stands on a disc, which may be any bytes: a library that goes wrong
 * leaves any place there. No chain of a disc is longer than CHAIN_MOST. */
#define CHAIN_MOST 800

int is_on_disc(const struct disc *disc, struct place place);
const uint8_t *sector_of(const struct disc *disc, struct place place);
struct place link_of(const struct disc *disc, struct place from);

/* The place of a pair in the system sector or in an entry. */
struct place pair_at(const uint8_t *pair);

void put_link(struct disc *disc, struct place from, struct place to);
void put_free_pointer(struct disc *disc, struct place to);
void put_counts(struct disc *disc, unsigned free_count, unsigned used_count);

/* An entry in slot 0 to 14 of a directory sector, its name as stored. The
 * sector's byte 2 goes up by one. */
void put_entry(struct disc *disc, struct place directory, unsigned slot,
               const char *stored_name, unsigned length, struct place first,
               struct place last);

/* A load module of the first `length` bytes of `sheet`. */
struct module {
    unsigned page, start, transfer;
    size_t length;
};

/* Page 0, start and transfer $2000. */
struct module module_at_2000(size_t length);

/* The sectors of a module, taken from the k-th of a blank disc's free chain
 * on. */
void put_module(struct disc *disc, unsigned k, struct module module);

/* A blank disc; `name` is padded to nine characters. */
void make_blank(struct disc *disc, unsigned tracks, const char *name);

/* 40 tracks, PIECES, with THU.PCS of 300 bytes: the rules' worked example. */
void make_pieces(struct disc *disc);

/* One track: A of 245 bytes in the first sector of the blank chain, B of 300
 * bytes in the next two, and the rest free. These are 0/7; 0/10, 0/3; 0/6, 0/9,
 * 0/2, 0/5, 0/8, or of nine 0/7; 0/2, 0/5; 0/8, 0/3, 0/6, 0/9. */
void make_small(struct disc *disc);

/* The small disc with its used count one too high: rule 7 is broken. */
void make_unsound(struct disc *disc);

/* F00 to F14, one sector of 1 byte each, which fill the directory's 15 slots.
 * Of ten two tracks, with three free sectors: 1/2, 1/5, 1/8. Of nine three
 * tracks, with ten: 1/9, 2/1, 2/4 and on. */
void make_fifteen(struct disc *disc);

/* That disc after a 16th file, F15: of the sectors that were free it has the
 * first, the directory the second. */
void make_sixteen(struct disc *disc);

/* One track, full: X of 2,016 bytes in 8 sectors, or of nine 1,763 in 7. */
void make_full(struct disc *disc);

/* 65,537 bytes of sheet, one more than any sheet has. */
#define SHEET_BYTES 65537
extern uint8_t sheet[SHEET_BYTES];
void make_sheet(void);

#endif
