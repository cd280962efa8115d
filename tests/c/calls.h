/*
 * Each call of the library on guarded copies of all that is lent to it. Beside
 * what the tests expect, each of these expects that the guard bytes and all
 * memory that the call may not write stay, with a refusal every lent byte, and
 * that with a refusal the other numbers of the answer are 0.
 */
#ifndef CALLS_H
#define CALLS_H

#include "discs.h"
#include "tandos.h"
#include "writes.h"

/* What these calls state of an image. The image that they lend is the disc in
 * the arrangement stated. */
struct stated {
    uint32_t sectors, arrangement;
};

extern struct stated stated;

/* Both, as a call takes them. */
#define STATED stated.sectors, stated.arrangement

/* From here on discs are made with so many sectors a track, and these calls
 * state them so and in this arrangement. */
void use_kind(uint32_t sectors, uint32_t arrangement);

/* A name, sheet or buffer to lend. */
struct text {
    const uint8_t *bytes;
    size_t length;
};

struct text text(const char *characters);
struct text bytes(const uint8_t *bytes, size_t length);

/* What a list or read left at the front of a buffer. */
#define BUFFER_MAX (TANDOS_SHEET_MAX + 16)
extern uint8_t answer[BUFFER_MAX];

/* The list that a save, delete, rename or protect left at the front of its
 * buffer, of length 0 if it was refused. */
extern struct writes written;

/* One of these four with its arguments, to be given with a buffer of any
 * length. */
enum command_kind { SAVE, DELETE, RENAME, PROTECT };

struct command {
    enum command_kind kind;
    struct text name;
    struct text other; /* the sheet of a save, the new name of a rename */
    uint32_t page, on;
    uint16_t start, transfer;
};

struct command a_save(struct text name, uint32_t page, uint16_t start,
                      uint16_t transfer, struct text sheet);
struct command a_delete(struct text name);
struct command a_rename(struct text old_name, struct text new_name);
struct command a_protect(struct text name, uint32_t on);

/* A buffer that holds more than any list. */
#define WRITES_ROOM (COMMAND_WRITES_MAX + 16)

tandos_filled try_command(struct disc *disc, const struct command *command,
                          size_t writes_len);

tandos_checked try_check(const struct disc *disc);
tandos_filled try_list(const struct disc *disc, size_t buffer_len);
tandos_reading try_read(const struct disc *disc, struct text name,
                        size_t buffer_len);

/* The four with a buffer that is long enough. Where one is refused, so it is
 * with no buffer. Where it is accepted, its list is the one made by hand; a
 * buffer one byte shorter than the list, or none, is refused with 10; one as
 * long as the list is enough; and the list replayed on the disc as it was gives
 * the disc as it is. */
uint32_t try_save(struct disc *disc, struct text name, uint32_t page,
                  uint16_t start, uint16_t transfer, struct text sheet);
uint32_t try_delete(struct disc *disc, struct text name);
uint32_t try_rename(struct disc *disc, struct text old_name,
                    struct text new_name);
uint32_t try_protect(struct disc *disc, struct text name, uint32_t on);

uint32_t try_replay(struct disc *disc, struct text list);

/* Where it is accepted, the disc is the one made by hand, sound, and repaired
 * once more it stays. */
uint32_t try_repair(struct disc *disc);
uint32_t try_blank(struct disc *disc, struct text name);
uint32_t try_view_number(const struct disc *disc, uint32_t track,
                         uint32_t sector);

/* The totals become those that the call left. NULL may be lent with 0. */
uint32_t try_add_sheet(uint32_t *totals, size_t count, struct text sheet);

/* A save on page 0 with start and transfer $2000. */
uint32_t save_at_2000(struct disc *disc, const char *name, struct text sheet);

/* Expects an image byte for byte, and no other length. */
void expect_disc(const char *what, const struct disc *expected,
                 const struct disc *found);

/* The step-th command of a run in which every command comes; its number. */
uint32_t try_step(struct disc *disc, unsigned step);

/* Expects 1 of every call, each of which a disc with A and no C would allow,
 * and the disc as it was. */
void expect_refused_1(struct disc *disc);

/* The same where other refusals hold as well, on an image that is unsound. */
void expect_refused_1_first(struct disc *disc);

#endif
