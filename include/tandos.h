/*
 * tandos.h: TANDOS 65 disc images, for C99 and C++.
 *
 * The library lists, reads, saves, deletes, renames and protects the files of
 * a disc image, checks it, makes a blank disc and shows a sector, gives the
 * sectors that a command wrote and writes them to a copy of the disc, repairs a
 * disc whose card was pulled, and adds up the pieces of each worker from the
 * sheets. The calls of the first part are written in Rattle and proved: for any
 * bytes handed in, each ends, stays inside the memory lent to it, and answers
 * and leaves exactly what is said below. The few functions of the second part
 * are written in C, tested, not proved.
 *
 * THE DISC. An image is one side of a single density disc: T tracks (1 to 80),
 * numbered from 0, of S sectors, numbered 1 to S, of 256 bytes. Sector s of
 * track t is written t/s. 0/1 is the system sector. On a sound disc every other
 * sector is in exactly one place: in the directory, in one file, or in the free
 * chain.
 *
 * THE SECTORS OF A TRACK. S is TANDOS_TEN, or TANDOS_NINE on the early discs.
 * Every call on an image is told which: its length can't tell (40 tracks of
 * nine sectors are as long as 36 of ten). An image stated wrongly is refused
 * with TANDOS_SIZE where its length is wrong, and is else as a rule not sound,
 * so that calls but tandos_repair answer TANDOS_UNSOUND and change nothing; a
 * check with the other number then tells.
 *
 * THE ARRANGEMENT. The tracks follow one another in the image; the sectors of
 * each track stand in one of two arrangements, and every call on an image is
 * told which:
 *
 *    TANDOS_PLAIN  in the order of their numbers, so that t/s starts at byte
 *                  256 * (S * t + s - 1)
 *    TANDOS_MOVED  in passing order, 1, 4, 7, 10, 3, 6, 9, 2, 5, 8, as the new
 *                  card stores them: of track 0, 0/4 starts at byte 256; only
 *                  with ten sectors a track
 *
 * Only a sector's place in the image moves. Track, sector and every byte on the
 * disc (links, pointers, entries) mean the same in both arrangements: on a
 * moved image each call gives the answer that it gives on the plain one, and
 * leaves the moved form of what it leaves there. No byte of an image tells its
 * arrangement. A disc read in the wrong one is as a rule not sound, so that
 * calls but tandos_repair answer TANDOS_UNSOUND and change nothing; a check in
 * the other one then tells. The caller states the same sectors and the same
 * arrangement in every call on an image.
 *
 * MEMORY. All memory is the caller's. The image is lent for the time of a call
 * and changed in place; calls keep no state, so different images may be used
 * from different threads at once.
 *
 *  - Nothing that a call may write (the image of save, delete, rename, protect,
 *    replay, repair and blank; the writes of the first four; the buffer of list
 *    and read; the totals of add_sheet) may overlap anything else lent to that
 *    call. The caller must see to that: no call can test it.
 *  - Each pointer is followed by the number of bytes lent there, or of totals.
 *    A pointer may be NULL only where that number is 0.
 *
 * ANSWERS. A call answers TANDOS_DONE or the number of a refusal: the first
 * that applies, in the order in which the call's comment has them. With a
 * refusal every other number of the answer is 0 and all lent memory stays as
 * it was. Numbers are never cut to fewer bits: page 256 is out of range, 266
 * sectors a track are neither of the two, protect with 256 is on.
 *
 * NAMES. A file name as typed is 1 to 6 of A-Z and 0-9, then nothing, or a dot
 * and 1 to 3 of the same: "THU.PCS". It is stored as nine bytes, six of name
 * and three of extension, each padded with spaces on the right, without the
 * dot: "THU   PCS". A disc name is 1 to 9 of A-Z and 0-9, stored as nine bytes
 * padded likewise. Names are lent as pointer and length; no zero byte ends
 * them.
 *
 * FILES. A file holds a load module: a page (0 to 7), a start and a transfer
 * address, and a sheet of L bytes, 1 <= L <= 65,536 - start. The end address
 * is start + L - 1. It takes 1 sector for L <= 245, otherwise
 * 1 + (L - 245) / 253 rounded up.
 *
 * RECORDS. A cutting table's sheet is a row of records, each one byte of kind
 * and a body:
 *
 *    TANDOS_SHEET_PIECES  worker (2), pieces (2), low byte first
 *    TANDOS_SHEET_DATE    four bytes of date, which are not looked at
 *    TANDOS_SHEET_END     no body; the last byte of the sheet
 *
 * Only tandos_add_sheet looks at them: any bytes can be saved and read.
 *
 * WRITES. Save, delete, rename and protect change the image, and give besides
 * the list of the sectors that they wrote, in order, at the front of a buffer
 * that the caller lends. The rest of the buffer stays. A list is a row of
 * records, each one byte of kind and a body:
 *
 *    TANDOS_WRITE         track, sector, the 256 bytes that stand there now
 *    TANDOS_WRITES_END    no body; the last byte of the list
 *
 *    save      0/1; the file's sectors in the order of its chain; then the
 *              directory sector with the new entry or, where the directory
 *              grows, the new directory sector and then the one that links to
 *              it
 *    delete    the directory sector that had the entry, the file's last
 *              sector, 0/1
 *    rename,   the directory sector with the entry, also where no byte of it
 *    protect   changes
 *
 * A card reader that takes whole sectors writes each record's bytes to its
 * track and sector, in the order of the list:
 *
 *    for (w = writes; *w == TANDOS_WRITE; w += TANDOS_WRITE_RECORD_SIZE)
 *        put_sector(w[1], w[2], w + 3);
 *
 * Track and sector are the same in both arrangements, and so is the list.
 * tandos_replay writes a list to another copy of the image: on the image as it
 * was before the command it leaves exactly what the command left. A buffer
 * that can't hold the list is refused with TANDOS_SHORT, the last refusal of
 * each; then the command is not done.
 *
 * CORRECTIONS. If a save is done, needs no new directory sector, and the next
 * call deletes the same file, done too, every byte of the image is as before
 * the save except
 *
 *  - bytes 2 to 255 of the sectors that the file took
 *  - the track byte of the link that ended the free chain, where the save took
 *    the sector with that link
 *
 * So the file is gone and tandos_list gives what it gave before, but the bytes
 * of the sheet stay in those sectors, now free, until they are written again.
 * Of a file of n sectors (see FILES) the save's list has the length
 * TANDOS_WRITES_SIZE(n + 2), or TANDOS_WRITES_SIZE(n + 3) if the save needed a
 * new directory sector; that sector stays when the file is deleted.
 *
 * Renaming A to B and directly then B to C, both done, gives the image that
 * renaming A to C, lent the same as A to B, gives if C isn't A; if C is A, it
 * gives the image from before both, byte for byte.
 *
 * A PULLED CARD. A card that is pulled may have only the first writes of a
 * list, none, some or all, each of them whole. Its image is then read back,
 * repaired and written again, and from then on it is the disc:
 *
 *    if (tandos_check(TANDOS_ON(card)).rule != 0)
 *        number = tandos_repair(TANDOS_ON(card));
 *
 * The disc is sound again. Every file that the command doesn't name is as it
 * was before, and the command is done whole or not at all:
 *
 *    save      done exactly if its last write was made
 *    delete,   done exactly if their first write was made
 *    rename,
 *    protect
 *
 * List the disc to see which, and give a command that is not done once more.
 *
 * Such a card breaks rule 7, or none if no write or all were made. Where the
 * check says 6 or 8, see first that sectors and arrangement are stated rightly:
 * a repair believes them. On a sound disc that is stated wrongly rules 1 to 5
 * may happen to hold; then the repair is done, and the files are lost.
 */
#ifndef TANDOS_H
#define TANDOS_H

#include <stddef.h>
#include <stdint.h>
#include <string.h>

#ifdef __cplusplus
extern "C" {
#endif

/* ---- Sizes, in bytes unless said otherwise ---- */

#define TANDOS_SECTOR_SIZE 256
#define TANDOS_MAX_TRACKS 80

/* The length of an image of 1 to TANDOS_MAX_TRACKS tracks, of TANDOS_NINE or
 * TANDOS_TEN sectors each. */
#define TANDOS_IMAGE_SIZE(tracks, sectors) \
    ((size_t)(tracks) * (sectors) * TANDOS_SECTOR_SIZE)

/* The longest image (204,800). */
#define TANDOS_IMAGE_MAX TANDOS_IMAGE_SIZE(TANDOS_MAX_TRACKS, TANDOS_TEN)

/* A stored name, of a file or a disc. */
#define TANDOS_NAME_SIZE 9

/* A link stands in front of the bytes that a sector view shows. */
#define TANDOS_LINK_SIZE 2
#define TANDOS_VIEW_SIZE 254

/* The longest sheet of a file. A read with a buffer of this size never gives
 * SHORT. */
#define TANDOS_SHEET_MAX 65536

/* A record of pieces or of a date in a sheet. Its end is one byte. */
#define TANDOS_SHEET_RECORD_SIZE 5

/* Workers are numbered from 1 to this; each has one running total. */
#define TANDOS_WORKERS 500

/* The most pieces that a running total may have. */
#define TANDOS_TOTAL_MAX 1000000000

/*
 * The most files of a sound disc. Of its at most 800 sectors one is the system
 * sector; F files take at least F sectors, and the directory one for every 15
 * of them. So F + F/15 rounded up is at most 799, which 749 meets (749 + 50)
 * and 750 does not.
 */
#define TANDOS_MAX_FILES 749

/* The records of a list: one of the disc, one for each file, the end. */
#define TANDOS_DISC_RECORD_SIZE 14
#define TANDOS_FILE_RECORD_SIZE 13
#define TANDOS_END_RECORD_SIZE 1

/* The length of the list of a disc with so many files. */
#define TANDOS_LIST_SIZE(files) \
    (TANDOS_DISC_RECORD_SIZE + (size_t)(files) * TANDOS_FILE_RECORD_SIZE + \
     TANDOS_END_RECORD_SIZE)

/* The longest list (9,752). A list with a buffer of this size never gives
 * SHORT. */
#define TANDOS_LIST_MAX TANDOS_LIST_SIZE(TANDOS_MAX_FILES)

/* A record of a list of writes: kind, track, sector, the sector's bytes. Its
 * end is one byte. */
#define TANDOS_WRITE_RECORD_SIZE 259

/* The length of a list of so many writes. */
#define TANDOS_WRITES_SIZE(records) \
    ((size_t)(records) * TANDOS_WRITE_RECORD_SIZE + 1)

/*
 * The longest list of a save (68,118): a file of 260 sectors, the system sector
 * and two of the directory. With a buffer of this size save, delete, rename and
 * protect never give SHORT.
 */
#define TANDOS_SAVE_WRITES_MAX TANDOS_WRITES_SIZE(263)

/* The list of a delete (778), and of a rename or protect (260). */
#define TANDOS_DELETE_WRITES_SIZE TANDOS_WRITES_SIZE(3)
#define TANDOS_ENTRY_WRITES_SIZE TANDOS_WRITES_SIZE(1)

/* ---- Numbers ---- */

/* What a call answers: 0, or the number of a refusal. */
enum tandos_refusal {
    TANDOS_DONE = 0,       /* nothing was refused */
    TANDOS_SIZE = 1,       /* image length isn't 256 times the sectors stated
                              times 1 to 80, or there is no disc as stated */
    TANDOS_NAME = 2,       /* a file or disc name breaks its rule */
    TANDOS_UNSOUND = 3,    /* the check finds a broken rule; of repair, one of
                              the rules 1 to 5 */
    TANDOS_ABSENT = 4,     /* no such file */
    TANDOS_TAKEN = 5,      /* the new name stands already */
    TANDOS_PROTECTED = 6,  /* delete or rename of a protected file */
    TANDOS_MODULE = 7,     /* page or L out of range */
    TANDOS_ROOM = 8,       /* the free chain is shorter than the save needs */
    TANDOS_NOT_PLAIN = 9,  /* links apart, the file's sectors aren't byte for
                              byte those of any load module */
    TANDOS_SHORT = 10,     /* the lent buffer can't hold the answer */
    TANDOS_NO_SECTOR = 11, /* view of a sector not on the disc */
    TANDOS_BAD_SHEET = 12, /* the bytes are no sheet of records, or the table
                              is not one of 500 totals */
    TANDOS_TOTAL = 13,     /* a total is, or would become, more than
                              1,000,000,000 */
    TANDOS_BAD_LIST = 14   /* the bytes are no list of writes to sectors on
                              the disc */
};

/* The number of sectors of each track. */
enum tandos_sectors {
    TANDOS_NINE = 9, /* the early discs */
    TANDOS_TEN = 10
};

/* The order in which an image has the sectors of each track. */
enum tandos_arrangement {
    TANDOS_PLAIN = 0, /* that of their numbers */
    TANDOS_MOVED = 1  /* 1, 4, 7, 10, 3, 6, 9, 2, 5, 8 */
};

/* The first byte of each record of a list. */
enum tandos_record {
    TANDOS_RECORD_END = 0,
    TANDOS_RECORD_DISC = 1,
    TANDOS_RECORD_FILE = 2
};

/* The first byte of each record of a sheet. */
enum tandos_sheet_record {
    TANDOS_SHEET_END = 0,
    TANDOS_SHEET_PIECES = 1,
    TANDOS_SHEET_DATE = 2
};

/* The first byte of each record of a list of writes. */
enum tandos_write_record {
    TANDOS_WRITES_END = 0,
    TANDOS_WRITE = 3
};

/* The last byte of a file's record in a list. */
enum tandos_attribute {
    TANDOS_ATTRIBUTE_NONE = 0x00,
    TANDOS_ATTRIBUTE_PROTECTED = 0x80
};

/* ---- What is lent, written shortly ---- */

/*
 * An image and what is stated of it. A call takes these one by one; TANDOS_ON
 * writes them out, of this struct or of any other with the same members, and
 * TANDOS_TEXT the bytes of a string and their number:
 *
 *    tandos_delete(TANDOS_ON(disc), TANDOS_TEXT("THU.PCS"),
 *                  writes, sizeof writes)
 *
 * Both name their argument more than once.
 */
typedef struct {
    uint8_t *bytes;
    size_t length;
    uint32_t sectors;     /* of each track: TANDOS_NINE or TANDOS_TEN */
    uint32_t arrangement; /* TANDOS_PLAIN or TANDOS_MOVED */
} tandos_image;

#define TANDOS_ON(image) \
    (image).bytes, (image).length, (image).sectors, (image).arrangement
#define TANDOS_TEXT(string) (const uint8_t *)(string), strlen(string)

/* ---- Answers of more than one number ---- */

typedef struct {
    uint32_t number; /* TANDOS_DONE or a refusal */
    uint32_t rule;   /* the lowest broken rule, 1 to 8; 0: the image is sound */
} tandos_checked;

typedef struct {
    uint32_t number; /* TANDOS_DONE or a refusal */
    uint32_t length; /* of the records at the front of the buffer */
} tandos_filled;

typedef struct {
    uint32_t number;   /* TANDOS_DONE or a refusal */
    uint32_t page;     /* 0 to 7 */
    uint32_t start;    /* address of the first byte */
    uint32_t end;      /* address of the last byte, start + length - 1 */
    uint32_t transfer; /* any 16 bits */
    uint32_t length;   /* L, the bytes at the front of the buffer */
} tandos_reading;

/* ---- The proved calls ---- */

/*
 * TANDOS_SIZE is the same refusal everywhere: sectors is neither TANDOS_NINE
 * nor TANDOS_TEN, arrangement is neither TANDOS_PLAIN nor TANDOS_MOVED, it is
 * TANDOS_MOVED with TANDOS_NINE, or image_len isn't 256 times sectors times 1
 * to 80.
 */

/*
 * Checks an image. On an image of a right size the number is TANDOS_DONE, and
 * `rule` is the lowest-numbered rule that is broken, or 0 where the image is
 * sound. "On the disc" means track below T, sector 1 to S.
 *
 *  1. The directory pointer is on the disc and isn't 0/1.
 *  2. The directory chain meets only sectors on the disc, ends, meets none
 *     twice and never 0/1.
 *  3. In each directory sector, byte 2 is the number of slots that aren't
 *     free; each entry has a padded legal name, length at least 1, and the
 *     attribute $00 or $80.
 *  4. No two entries have the same nine name bytes.
 *  5. Each file's chain starts at its first sector, has exactly its length, is
 *     on the disc, has its end link at the entry's last sector and nowhere
 *     before, and meets no sector of 0/1, the directory or another place in
 *     any file.
 *  6. The free chain (none if the pointer's sector byte is 0) is on the disc,
 *     ends, meets no sector twice, nor 0/1, nor one met by the directory or a
 *     file, and has the length in the free count.
 *  7. The used count is the sum of the file lengths.
 *  8. Every sector but 0/1 has been met by the directory, a file or the free
 *     chain.
 *
 * Changes nothing. Refusals:
 *   TANDOS_SIZE      wrong image_len, sectors or arrangement (rule is 0).
 */
tandos_checked tandos_check(const uint8_t *image, size_t image_len,
                            uint32_t sectors, uint32_t arrangement);

/*
 * Lists a disc: writes records to the front of the buffer and gives their
 * length. The rest of the buffer and the image stay. Words stand low byte
 * first.
 *
 *   disc, once: 1, nine bytes of disc name, free count (2), used count (2)
 *   file, for each entry in directory order:
 *               2, nine bytes of stored name, length in sectors (2), attribute
 *   end, once:  0
 *
 * TANDOS_LIST_MAX bytes of buffer are always enough. Refusals:
 *   TANDOS_SIZE      wrong image_len, sectors or arrangement.
 *   TANDOS_UNSOUND   the check finds a broken rule.
 *   TANDOS_SHORT     buffer_len is less than the length of the records.
 */
tandos_filled tandos_list(const uint8_t *image, size_t image_len,
                          uint32_t sectors, uint32_t arrangement,
                          uint8_t *buffer, size_t buffer_len);

/*
 * Reads a file: gives its page, start, end, transfer and length L, and its L
 * bytes at the front of the buffer. The rest of the buffer and the image stay.
 * TANDOS_SHEET_MAX bytes of buffer are always enough. Refusals:
 *   TANDOS_SIZE      wrong image_len, sectors or arrangement.
 *   TANDOS_NAME      the name is no file name as typed.
 *   TANDOS_UNSOUND   the check finds a broken rule.
 *   TANDOS_ABSENT    no file has this name.
 *   TANDOS_NOT_PLAIN links apart, the file's sectors aren't byte for byte
 *                    those of any load module.
 *   TANDOS_SHORT     buffer_len is less than L.
 */
tandos_reading tandos_read(const uint8_t *image, size_t image_len,
                           uint32_t sectors, uint32_t arrangement,
                           const uint8_t *name, size_t name_len,
                           uint8_t *buffer, size_t buffer_len);

/*
 * Saves a sheet as a new, unprotected file. It takes sectors from the head of
 * the free chain, in order, as many as the load module takes, and one more
 * after those for the directory if no slot is free there. The entry goes to
 * the first free slot in directory order. Free pointer and both counts follow.
 * Gives the list of writes at the front of `writes`, and its length: of as many
 * records as sectors taken, and two more. The rest of `writes` stays.
 * TANDOS_SAVE_WRITES_MAX bytes are always enough. Refusals:
 *   TANDOS_SIZE      wrong image_len, sectors or arrangement.
 *   TANDOS_NAME      the name is no file name as typed.
 *   TANDOS_MODULE    page is above 7, or sheet_len is 0 or above
 *                    65,536 - start.
 *   TANDOS_UNSOUND   the check finds a broken rule.
 *   TANDOS_TAKEN     a file has this name already.
 *   TANDOS_ROOM      the free chain is shorter than the save needs, the
 *                    directory's sector counted.
 *   TANDOS_SHORT     writes_len is less than the length of the list.
 */
tandos_filled tandos_save(uint8_t *image, size_t image_len,
                          uint32_t sectors, uint32_t arrangement,
                          const uint8_t *name, size_t name_len,
                          uint32_t page, uint16_t start, uint16_t transfer,
                          const uint8_t *sheet, size_t sheet_len,
                          uint8_t *writes, size_t writes_len);

/*
 * Deletes a file: clears its slot and puts its sectors, in order, in front of
 * the free chain. Both counts follow. The sectors keep their bytes, but for the
 * last one's link; a directory sector that is emptied stays. What a save and
 * its delete leave together stands under CORRECTIONS. Gives the list of writes
 * at the front of `writes`, and its length, TANDOS_DELETE_WRITES_SIZE. The rest
 * of `writes` stays. Refusals:
 *   TANDOS_SIZE      wrong image_len, sectors or arrangement.
 *   TANDOS_NAME      the name is no file name as typed.
 *   TANDOS_UNSOUND   the check finds a broken rule.
 *   TANDOS_ABSENT    no file has this name.
 *   TANDOS_PROTECTED the file is protected.
 *   TANDOS_SHORT     writes_len is less than the length of the list.
 */
tandos_filled tandos_delete(uint8_t *image, size_t image_len,
                            uint32_t sectors, uint32_t arrangement,
                            const uint8_t *name, size_t name_len,
                            uint8_t *writes, size_t writes_len);

/*
 * Renames a file: changes the nine name bytes of its entry. What two renames
 * leave together stands under CORRECTIONS. Gives the list of writes at the
 * front of `writes`, and its length, TANDOS_ENTRY_WRITES_SIZE. The rest of
 * `writes` stays. Refusals:
 *   TANDOS_SIZE      wrong image_len, sectors or arrangement.
 *   TANDOS_NAME      either name is no file name as typed.
 *   TANDOS_UNSOUND   the check finds a broken rule.
 *   TANDOS_ABSENT    no file has the old name.
 *   TANDOS_PROTECTED the file is protected.
 *   TANDOS_TAKEN     a file has the new name, be it the file itself.
 *   TANDOS_SHORT     writes_len is less than the length of the list.
 */
tandos_filled tandos_rename(uint8_t *image, size_t image_len,
                            uint32_t sectors, uint32_t arrangement,
                            const uint8_t *old_name, size_t old_len,
                            const uint8_t *new_name, size_t new_len,
                            uint8_t *writes, size_t writes_len);

/*
 * Protects a file (on is not 0) or lifts its protection (on is 0): writes $80
 * or $00 to the attribute of its entry. Asking for what already stands is done,
 * with no byte of the image changed. Gives the list of writes, then too, at the
 * front of `writes`, and its length, TANDOS_ENTRY_WRITES_SIZE. The rest of
 * `writes` stays. Refusals:
 *   TANDOS_SIZE      wrong image_len, sectors or arrangement.
 *   TANDOS_NAME      the name is no file name as typed.
 *   TANDOS_UNSOUND   the check finds a broken rule.
 *   TANDOS_ABSENT    no file has this name.
 *   TANDOS_SHORT     writes_len is less than the length of the list.
 */
tandos_filled tandos_protect(uint8_t *image, size_t image_len,
                             uint32_t sectors, uint32_t arrangement,
                             const uint8_t *name, size_t name_len, uint32_t on,
                             uint8_t *writes, size_t writes_len);

/*
 * Replays a list of writes: puts the bytes of each record in the sector that it
 * names, one record after the other. Neither image nor list is looked at
 * further: the image need not be sound, before or after; any sector on the disc
 * may be written, 0/1 as well; of several writes to one sector the last
 * remains. A list of an end alone changes nothing. A list from save, delete,
 * rename or protect, replayed on the image as it was before that command,
 * leaves exactly the image that the command left. Refusals:
 *   TANDOS_SIZE      wrong image_len, sectors or arrangement.
 *   TANDOS_BAD_LIST  the list has a record of another kind, a record that is
 *                    cut short, a sector whose track isn't below T or whose
 *                    number isn't 1 to S, no end, or bytes after its first
 *                    record of the kind TANDOS_WRITES_END. A list of no bytes
 *                    has no end.
 */
uint32_t tandos_replay(uint8_t *image, size_t image_len,
                       uint32_t sectors, uint32_t arrangement,
                       const uint8_t *writes, size_t writes_len);

/*
 * Repairs a disc whose card was pulled: makes its free chain anew, and sets
 * both counts. Every sector that is neither 0/1 nor met by the directory or a
 * file goes to the free chain, in the order of tandos_blank with all others
 * left out. The free pointer is the first of them, or zeros where there is
 * none; the link of each is the next one, of the last one zeros. The free count
 * is their number, the used count the sum of the file lengths. No other byte
 * changes: directory and files stay as they are, and of a free sector the bytes
 * after its link.
 *
 * Leaves a sound disc. It is for a disc of which tandos_check says 6, 7 or 8,
 * and may be called on a sound one too: then both counts stay, and the free
 * chain may get another order. What is repaired once more stays as it is.
 * Refusals:
 *   TANDOS_SIZE      wrong image_len, sectors or arrangement.
 *   TANDOS_UNSOUND   the check finds one of the rules 1 to 5 broken.
 */
uint32_t tandos_repair(uint8_t *image, size_t image_len,
                       uint32_t sectors, uint32_t arrangement);

/*
 * Makes the image a blank data disc of this name, whatever it was before: a
 * directory of one sector at 0/4 with no entry, and every sector but that and
 * 0/1 in the free chain, which begins at 0/7 and passes the sectors of each
 * track in the order 1, 4, 7, 10, 3, 6, 9, 2, 5, 8, or of nine in the order 1,
 * 4, 7, 2, 5, 8, 3, 6, 9. Free count S * T - 2, used count 0. Refusals:
 *   TANDOS_SIZE      wrong image_len, sectors or arrangement.
 *   TANDOS_NAME      the name is no disc name.
 */
uint32_t tandos_blank(uint8_t *image, size_t image_len,
                      uint32_t sectors, uint32_t arrangement,
                      const uint8_t *name, size_t name_len);

/*
 * The refusal number of a sector view of the same arguments. The image need
 * not be sound. Changes nothing. Refusals:
 *   TANDOS_SIZE      wrong image_len, sectors or arrangement.
 *   TANDOS_NO_SECTOR track isn't below T, or sector isn't 1 to S.
 */
uint32_t tandos_view_number(const uint8_t *image, size_t image_len,
                            uint32_t sectors, uint32_t arrangement,
                            uint32_t track, uint32_t sector);

/*
 * Where a sector view of the same arguments begins: the number of the image's
 * byte that is the first of its TANDOS_VIEW_SIZE bytes. The sector's link
 * stands in the TANDOS_LINK_SIZE bytes before it. Changes nothing. 0, where no
 * view begins, if tandos_view_number with the same arguments isn't 0.
 */
uint32_t tandos_view_start(const uint8_t *image, size_t image_len,
                           uint32_t sectors, uint32_t arrangement,
                           uint32_t track, uint32_t sector);

/*
 * Adds a sheet's pieces to running totals: totals[w - 1] is worker w's. Each
 * record of pieces adds them to its worker's total. The sheet may be of any
 * length, also longer than a file can hold. Start a week with TANDOS_WORKERS
 * zeros and lend the same totals with one sheet after the other: whatever their
 * order, if all are accepted, the same totals come out. Refusals, with which
 * every total stays as it stood:
 *   TANDOS_BAD_SHEET totals_count isn't TANDOS_WORKERS; or the sheet has a
 *                    record of another kind, a record that is cut short, no
 *                    end, bytes after its end, or a worker who isn't 1 to
 *                    TANDOS_WORKERS. A sheet of no bytes has no end.
 *   TANDOS_TOTAL     one of the totals lent, also of a worker whom the sheet
 *                    does not have, is above TANDOS_TOTAL_MAX, or would be
 *                    after this sheet.
 */
uint32_t tandos_add_sheet(uint32_t *totals, size_t totals_count,
                          const uint8_t *sheet, size_t sheet_len);

/* ---- Written in C, tested, not proved ---- */

/*
 * The sector view: the TANDOS_VIEW_SIZE bytes after a sector's link (bytes 2
 * to 255, for 0/1 as well), where they lie in the image, not a copy: they
 * change with the image and last as long as it does. This is the image's
 * address and tandos_view_start of the same arguments; NULL where
 * tandos_view_number of them isn't 0.
 */
const uint8_t *tandos_view(const uint8_t *image, size_t image_len,
                           uint32_t sectors, uint32_t arrangement,
                           uint32_t track, uint32_t sector);

/* The name of a number that a call answers: "DONE", "SIZE", .. "BAD LIST".
 * "?" for any other number. */
const char *tandos_refusal_name(uint32_t number);

/* One sentence that says what is wrong and what to do. For a number that no
 * call answers it says so. */
const char *tandos_refusal_text(uint32_t number);

/* One sentence on a rule of the check: what is wrong on the disc, or for 0 that
 * it is sound. For a number that is no rule it says so. */
const char *tandos_rule_text(uint32_t rule);

#ifdef __cplusplus
}
#endif

#endif
