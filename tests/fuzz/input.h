/*
 * The fuzzer's input, taken apart: one byte for the start, what is stated of
 * the image and what the start takes, then commands, each a byte and its
 * arguments. Behind the end of the input stand zeros. seeds.c writes the same
 * form.
 */
#ifndef INPUT_H
#define INPUT_H

#include <stddef.h>
#include <stdint.h>

/* The first byte of an input. */
enum start {
    START_BLANK, /* stated, tracks (1): a blank disc */
    START_BYTES, /* stated, length (3), then all bytes of the input as the
                    image */
    STARTS
};

/* The first byte of a command. */
enum command {
    COMMAND_CHECK,
    COMMAND_LIST,    /* buffer */
    COMMAND_READ,    /* name, buffer */
    COMMAND_SAVE,    /* name, page, start (2), transfer (2), sheet, buffer */
    COMMAND_SAVES,   /* count (1), name (1), sheet: many files */
    COMMAND_DELETE,  /* name, buffer */
    COMMAND_RENAME,  /* old name, new name, third name, buffer: the third is
                        that of a second rename, made on a copy */
    COMMAND_PROTECT, /* name, number, buffer */
    COMMAND_REPLAY,  /* list of writes */
    COMMAND_REPAIR,
    COMMAND_CUT,     /* writes (2), cut command, its arguments: the card is
                        pulled after so many of the command's writes */
    COMMAND_BLANK,   /* name */
    COMMAND_VIEW,    /* track number, sector number */
    COMMAND_TEXT,    /* number */
    COMMAND_ADD,     /* totals, records: a sheet added to totals */
    COMMAND_SYSTEM,  /* byte (1), value (1): changes the system sector */
    COMMAND_LINK,    /* sector number (2), track (1), sector (1) */
    COMMAND_BYTE,    /* sector number (2), byte (1), value (1) */
    COMMAND_RESIZE,  /* length (3): cuts or prolongs the image */
    COMMAND_STATED,  /* stated, any command above: stated for it alone */
    COMMANDS
};

/* The commands that can be cut, by the remainder: those that give a list. */
enum cut_command {
    CUT_SAVE, CUT_DELETE, CUT_RENAME, CUT_PROTECT, CUT_COMMANDS
};

/* What is stated begins with a byte: one of the kinds of disc, by its
 * remainder, or from STATED_WRONG on something that is wrong. */
enum stated_kind { STATED_NINE, STATED_PLAIN, STATED_MOVED, STATED_KINDS };

#define STATED_WRONG 0xC0 /* plus which of the wrong pairs */
#define WRONG_PAIRS 32
/* One byte more tells a small number, by its remainder, and by its quotient the
 * other number, one of the two that are right. */
#define STATED_SMALL_SECTORS 0xE0
#define STATED_SMALL_ARRANGEMENT 0xF0
#define SMALL_NUMBERS 21
#define STATED_NUMBERS 0xFF /* then two numbers */

/* Images are mostly of few tracks, on which calls take less time. Some lengths
 * fit both numbers of sectors: EITHER_MOST of them. */
#define SMALL_TRACKS 4
#define EITHER_MOST 8

/* The tracks of a blank disc: 1 to SMALL_TRACKS by the byte's remainder, or
 * from here on */
#define TRACKS_EITHER 208 /* a length that fits both, by the remainder */
#define TRACKS_ANY 224    /* any number */

/* A length: any where the highest byte is low, or from here on */
#define LENGTH_EITHER 4 /* one that fits both, by the remainder */
#define LENGTH_WHOLE 8  /* of few tracks, as stated */
#define LENGTH_SMALL 64 /* any that is not above that of few tracks */

/* A name begins with one of NAME_TYPED that are legal, or with its own
 * length. */
#define NAME_TYPED 0xC0 /* plus the length, 0 to 15, then the bytes */
#define NAME_NULL 0xFF

/* A sheet's length begins with one of these, by its remainder, or with
 * SHEET_LENGTH. They lie around what fills one, two, three, seven, eight and
 * seventeen sectors, and around the longest. The sheet's bytes follow from one
 * more byte. */
enum sheet {
    SHEET_1, SHEET_0, SHEET_244, SHEET_245, SHEET_246, SHEET_498, SHEET_499,
    SHEET_751, SHEET_752, SHEET_1763, SHEET_1764, SHEET_2016, SHEET_2017,
    SHEET_4293, SHEET_65535, SHEET_65536, SHEET_65537, SHEET_20000, SHEETS
};

#define SHEET_LENGTH 0x40 /* or above, then the length (2) */

/* A number begins with itself, or with NUMBER_WIDE. */
#define NUMBER_WIDE 0xFF /* then the number (4) */

/* A buffer begins with its length against what the answer takes. */
enum buffer {
    BUFFER_EXACT, BUFFER_ONE_LESS, BUFFER_LONGER, BUFFER_EMPTY, BUFFER_LARGEST,
    BUFFER_LENGTH /* then the length (2) */
};

/* Totals begin with how they differ from those that the last sheet left, by the
 * remainder. From TOTALS_LENGTH on their number (2) comes first. */
enum totals_kind {
    TOTALS_KEPT,
    TOTALS_ZERO,
    TOTALS_NEAR,  /* below (1): all of them, so far below the limit */
    TOTALS_PLACE, /* place (2), total (4): one of them */
    TOTALS_LIMIT, /* place (2), LIMIT_ITSELF and the difference (1): one */
    TOTALS_STEPS, /* step (4): from the limit on, each lower by this */
    TOTALS_KINDS
};

#define TOTALS_LENGTH 0xE0
#define TOTALS_MOST 1001
#define LIMIT_ITSELF 128

/* Records begin with one of these, by the remainder. */
enum records_kind {
    RECORDS_BUILT, /* groups (1), each a record, an end, a damage */
    RECORDS_BYTES, /* length (1), the sheet's bytes; RECORDS_NULL for NULL */
    RECORDS_KINDS
};

#define RECORDS_NULL 0xFF
#define GROUPS_MOST 64

/* A record begins with one of these, by the remainder. From RECORD_MANY on it
 * comes more than once: before it stands how often (3). */
enum record_kind {
    RECORD_PIECES, /* worker (2), by the remainder from 1 on; pieces (2) */
    RECORD_DATE,   /* the body (4) */
    RECORD_BYTES,  /* all five bytes */
    RECORD_KINDS
};

#define RECORD_MANY 0xF0

/* So many of 65,535 pieces are above 32 bits. */
#define RECORDS_MOST 66000

/* What becomes of a sheet that is built; from DAMAGES on, nothing as well. */
enum damage {
    DAMAGE_NONE,
    DAMAGE_CUT,  /* count (1): so many bytes and one less */
    DAMAGE_MORE, /* count (1), byte (1): so many bytes and one more */
    DAMAGE_BYTE, /* place (3), from behind; byte (1) */
    DAMAGES
};

/* A list of writes begins with one of these, by the remainder. All but the last
 * have a damage behind them. */
enum writes_kind {
    WRITES_KEPT,   /* which (1): a list that a command of the run gave */
    WRITES_JOINED, /* end (1), which (1), which (1): two of them; with an even
                      `end` the first one's end is left out */
    WRITES_BUILT,  /* groups (1), each a write, an end */
    WRITES_BYTES,  /* length (2), the list's bytes; WRITES_NULL for NULL */
    WRITES_KINDS
};

/* So many lists are kept; the last one is 0. */
#define KEPT_MOST 4
#define WRITES_NULL 0xFFFF
#define WRITES_BYTES_MOST 600

/* A write begins with one of these, by the remainder. From WRITE_MANY on it
 * comes more than once: before it stands how often (2). */
enum write_kind {
    WRITE_ON_DISC, /* track (1), sector (1), by the remainder; fill (1) */
    WRITE_ANY,     /* kind (1), track (1), sector (1), fill (1) */
    WRITE_KINDS
};

#define WRITE_MANY 0xF0
#define WRITES_MOST 600

/* The bytes of a sector, otherwise made from this byte. */
#define FILL_STANDING 0xFF /* as they stand in the image */

/* What becomes of a list; from WRITES_DAMAGES on, nothing as well. */
enum writes_damage {
    WRITES_WHOLE,
    WRITES_CUT,     /* length (3), by the remainder: so many bytes stay */
    WRITES_SHORTER, /* count (1): so many bytes and one less */
    WRITES_MORE,    /* count (1), byte (1): so many bytes and one more */
    WRITES_BYTE,    /* place (3), byte (1) */
    WRITES_HEAD,    /* record (2), place (1), byte (1): kind, track or sector */
    WRITES_DAMAGES
};

#define SHEET_MOST 65537
#define NAME_MOST 15
/* The longest list of writes that a command can give has 263 records of 259
 * bytes, and one record more where it is for a sheet that is too long. */
#define BUFFER_MOST (259 * 264 + 1 + 16)

struct input {
    const uint8_t *at;
    const uint8_t *end;
};

/* What is stated of an image, right or wrong. */
struct stated {
    uint32_t sectors, arrangement;
};

struct text {
    const uint8_t *bytes; /* NULL only with length 0 */
    size_t length;
};

/* The totals of a call, not always as many as there are workers. */
struct totals {
    size_t count;
    uint32_t each[TOTALS_MOST];
};

struct name {
    uint8_t bytes[NAME_MOST + 1];
    struct text text; /* of `bytes`, or NULL */
};

uint32_t take(struct input *input, unsigned byte_count);
uint32_t take_number(struct input *input);
void take_bytes(struct input *input, uint8_t *to, size_t count);
struct stated take_stated(struct input *input);
void take_name(struct input *input, struct name *name);

/* One of the legal names, by its number. */
void put_legal_name(struct name *name, unsigned which);

/* The sheet stands until the next one is taken. */
struct text take_sheet(struct input *input);

/* The length of a buffer for an answer of `needed` bytes. */
size_t take_buffer_length(struct input *input, size_t needed);

#endif
