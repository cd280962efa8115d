/*
 * The chains of a disc, followed for display alone. The image may be unsound:
 * every walk is bounded by the number of sectors, and only sectors on the disc
 * are looked at.
 */
#ifndef CHAINS_H
#define CHAINS_H

#include <stdbool.h>
#include <stddef.h>
#include <stdint.h>

#include "image.h"
#include "tandos.h"

#define MAX_SECTORS (TANDOS_MAX_TRACKS * TANDOS_TEN)
#define SLOTS_PER_SECTOR 15

/* The numbers of the chains. The system sector counts as one. */
enum {
    SYSTEM_CHAIN,
    DIRECTORY_CHAIN,
    FREE_CHAIN,
    FIRST_FILE_CHAIN,
    MAX_CHAINS = FIRST_FILE_CHAIN + MAX_SECTORS * SLOTS_PER_SECTOR
};

/* Track and sector as they stand on the disc; they need not be on it. */
struct pair {
    unsigned track, sector;
};

enum chain_end {
    CHAIN_ENDS,
    CHAIN_LEAVES, /* goes to a sector that is not on the disc */
    CHAIN_RETURNS /* meets itself or the system sector, and is left there */
};

/* Where a file's entry stands, and its last byte. */
struct entry {
    unsigned sector; /* of the directory, by its number */
    unsigned slot;   /* from 1 */
    unsigned attribute;
};

struct chain {
    const uint8_t *name;   /* nine bytes of a file's entry, else NULL */
    struct entry entry;    /* of a file */
    unsigned said_length;  /* by the entry, or by the free count */
    struct pair said_last; /* by the entry */
    unsigned length;       /* sectors met, each counted once */
    struct pair first, last;
    enum chain_end end;
    struct pair next;      /* where the walk stopped, unless the chain ends */
};

/* How a chain meets a sector. Positions are counted from 1. */
struct meeting {
    unsigned chain, position;
};

struct sector {
    const uint8_t *bytes; /* in the image, its link first */
    unsigned meetings;
    struct meeting first, second;
    bool links_off; /* a chain leaves the disc by its link */
};

struct chains {
    const struct image *image;
    const uint8_t *disc_name; /* nine bytes */
    unsigned tracks, sectors_per_track;
    unsigned sectors;    /* of all tracks */
    unsigned count;      /* of chains */
    unsigned said_used;  /* by the used count */
    unsigned said_files; /* the sum of the entries' lengths */
    struct chain chain[MAX_CHAINS];
    struct sector sector[MAX_SECTORS];
    /* The sectors of the chain that was followed last, in its order. */
    unsigned order[MAX_SECTORS];
    /* For each sector, the last chain that met it. */
    unsigned met_by[MAX_SECTORS];
};

/* Follows every chain of an image of a right size: the directory, the files
 * in directory order, the free chain. The image is lent as long as the answer
 * is used. */
void follow_chains(struct chains *chains, const struct image *image);

/* The place of a sector by its number, and the number of one on the disc. */
struct pair pair_of(const struct chains *chains, unsigned number);
unsigned number_of(const struct chains *chains, struct pair pair);

/* The number of entries that a directory sector says it has. */
unsigned said_entries(const struct sector *sector);

bool is_lost(const struct sector *sector);
bool is_met_again(const struct sector *sector);

/* Room for a label or a name of a chain. */
#define CHAIN_TEXT_SIZE 48

/* A short mark: "sys", "dir", ".", or the number of a file from 1. */
const char *chain_label(unsigned chain, char text[CHAIN_TEXT_SIZE]);

/* "system sector", "directory", "free chain", or the file's name. */
const char *chain_name(const struct chains *chains, unsigned chain,
                       char text[CHAIN_TEXT_SIZE]);

#endif
