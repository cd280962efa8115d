/* One first input of the fuzzer, byte by byte, and the file that it goes to. */
#ifndef SEED_H
#define SEED_H

#include "input.h"

extern const char *seed_folder;

extern const char *const kind_names[STATED_KINDS];

/* What the seeds that are written now state, and its sectors a track. */
extern enum stated_kind seed_kind;
extern int seed_sectors;

void choose_kind(enum stated_kind kind);

/* The sectors 0/4, the directory of a blank disc, and 0/7, its first free one,
 * by their numbers. */
#define SECTOR_DIRECTORY 3
#define SECTOR_FIRST_FREE 6

/* The free sectors of a blank disc. */
int free_of(int tracks);

/* The sector that passes last on a track. */
int last_passing(void);

/* Begins a seed without a byte. */
void begin_empty(void);

/* Begins one with a blank disc; 0 to 3 are one to four tracks. */
void begin(int tracks);

/* Appends bytes, given as int, up to the first that is negative. */
void put(int byte, ...);

/* The commands that give a list of writes, with a buffer that just holds it. */
void save(int name, enum sheet sheet);
void delete(int name);
void rename_to(int old_name, int new_name);
void rename_twice(int old_name, int new_name, int third_name);
void protect(int name, int on);

/* What a rename takes. The third name is one that no seed gives a file. */
void put_renamed(int old_name, int new_name, enum buffer buffer);

/* The same with another buffer. */
void save_lent(int name, enum sheet sheet, enum buffer buffer);
void delete_lent(int name, enum buffer buffer);
void rename_lent(int old_name, int new_name, enum buffer buffer);
void protect_lent(int name, int on, enum buffer buffer);

/* The list that a command gave, 0 for the last one, replayed as it is. */
void replay(int which);

/* The start of a list of so many writes, and one of them: sector 1 is numbered
 * 0 here. */
void put_built(int groups);
void put_write(int track, int sector, int fill);

/* No bytes, which are no list. */
void replay_nothing(void);

void repair(void);

/* One file that fills so many sectors, and `more` bytes. */
void save_sectors(int name, int sectors, int more);

/* Files of one sector. */
void save_many(int first, int count);

/* A byte of the sector of this number becomes another. */
void put_byte(int sector, int byte, int value);

/* An image of so many sectors, and `more` bytes. */
void resize(int sectors, int more);

/* Each call but check, on the file of this name where it takes one. */
void put_calls(int name);

void end(const char *name);

#endif
