/*
 * What the inputs reached: each call's answers, the rules that the check
 * reports, how full the discs were, and some occasions. libFuzzer sees no code
 * of the archive, so these counts are also handed to it: an input that reaches
 * something new is kept.
 */
#ifndef COUNTERS_H
#define COUNTERS_H

#include "image.h"

enum call {
    CALL_CHECK, CALL_LIST, CALL_READ, CALL_SAVE, CALL_DELETE, CALL_RENAME,
    CALL_PROTECT, CALL_REPLAY, CALL_REPAIR, CALL_BLANK, CALL_VIEW, CALLS
};

/* Counts an answer, for each kind of disc and each way to state none; one that
 * the rules do not list for the call is a finding. With a kind of disc 1 is by
 * the length. */
void count_answer(enum call call, struct stated stated, uint32_t number);

/* Counts what the check reports of an image that it does not refuse. */
void count_rule(struct stated stated, uint32_t rule);

/* From here on (or no longer) the calls are on a twin. They are counted by
 * themselves, so that what occurred with a kind of disc occurred in a run with
 * all its promises. */
void count_as_twin(int is_twin);

/* What has to occur with each kind of disc beside answers and rules. */
enum occasion {
    GROWN_DIRECTORY,
    FULL_DISC,
    MOST_TRACKS,
    EITHER_NUMBER, /* a sound disc as long as one with the other number */
    RESTATED,      /* a disc that was sound with the other number */
    OTHERS_LENGTH, /* refused: right for the other number alone */
    SECTOR_ABOVE,  /* a view of the next one after a track's last sector */
    OCCASIONS
};

/* What is stated is a kind of disc. */
void count_occasion(struct stated stated, enum occasion occasion);

/* What has to occur with lists of writes, for each kind of disc: each reason
 * for 14, what is accepted none the less, and buffers and lists of commands. */
enum list_occasion {
    LIST_KIND,       /* 14: a record of another kind */
    LIST_CUT,        /* 14: a record cut short */
    LIST_TRACK,      /* 14: no such track */
    LIST_SECTOR_0,   /* 14: sector 0 */
    LIST_ABOVE,      /* 14: a sector above the last one of a track */
    LIST_NO_END,     /* 14: no end */
    LIST_AFTER_END,  /* 14: bytes after the end */
    LIST_AFTER_LIST, /* 14: these bytes are a list */
    LIST_LATE,       /* 14, where the first record would change the image */
    LIST_ALONE,      /* 0: an end alone */
    LIST_SYSTEM,     /* 0: 0/1 is written */
    LIST_TWICE,      /* 0: a sector is written twice, with other bytes */
    LIST_LONG,       /* 0: more records than any command gives */
    LIST_BREAKS,     /* 0: a sound disc becomes unsound */
    LIST_MENDS,      /* 0: an unsound disc becomes sound */
    SAVE_GROWS,      /* a list of a save that makes the directory grow */
    SAVE_LONGEST,    /* the longest list that a save gives */
    SHORT_BY_ONE,    /* 10: one byte is missing */
    LIST_OCCASIONS
};

/* What is stated is a kind of disc. */
void count_list_occasion(struct stated stated, enum list_occasion occasion);

/* What has to occur with repairs, for each kind of disc. */
enum repair_occasion {
    REPAIR_RULE_1, /* 3: this rule is broken */
    REPAIR_RULE_2,
    REPAIR_RULE_3,
    REPAIR_RULE_4,
    REPAIR_RULE_5,
    REPAIR_RULE_6, /* 0: this rule is broken, and holds afterwards */
    REPAIR_RULE_7,
    REPAIR_RULE_8,
    REPAIR_KEEPS,     /* 0: a sound disc, and nothing changes */
    REPAIR_ORDERS,    /* 0: a sound disc whose free chain is threaded anew */
    REPAIR_NONE,      /* 0: no sector is free */
    REPAIR_ONE,       /* 0: one sector is free */
    REPAIR_FREE_WORD, /* 0: the free count takes two bytes */
    REPAIR_USED_WORD, /* 0: the used count takes two bytes */
    REPAIR_GROWN,     /* 0: a directory of more than one sector */
    REPAIR_OCCASIONS
};

/* What is stated is a kind of disc. */
void count_repair_occasion(struct stated stated,
                           enum repair_occasion occasion);

/* What has to occur with cuts: where the list of a command is cut, and what
 * comes between the cut and the repair. The cuts of a command other than save
 * follow one another by the number of writes made. */
enum cut_occasion {
    CUT_SAVE_NONE,     /* no write is made */
    CUT_SAVE_SYSTEM,   /* that of the system sector alone */
    CUT_SAVE_FILE,     /* some of the file's sectors, or all where two more
                          writes follow */
    CUT_SAVE_NO_ENTRY, /* all but the directory sector's */
    CUT_SAVE_UNLINKED, /* all but that which links to a new directory sector */
    CUT_SAVE_WHOLE,    /* all */
    CUT_DELETE_NONE,
    CUT_DELETE_ENTRY,
    CUT_DELETE_LAST,
    CUT_DELETE_WHOLE,
    CUT_RENAME_NONE,
    CUT_RENAME_WHOLE,
    CUT_PROTECT_NONE,
    CUT_PROTECT_WHOLE,
    CUT_GOES_ON,  /* an accepted command before the repair */
    CUT_REFUSED,  /* a command that is refused with 3 before the repair */
    CUT_REPAIRED, /* the repair of the card itself */
    CUT_OCCASIONS
};

/* What is stated is a kind of disc. */
void count_cut_occasion(struct stated stated, enum cut_occasion occasion);

/* What has to occur with a save and the delete of its file, and with two
 * renames in a row, for each kind of disc. */
enum cancel_occasion {
    CANCEL_STOPS,      /* the free chain goes on behind the file */
    CANCEL_REACHES,    /* the file took all of it */
    CANCEL_ONLY,       /* the same, and it was of one sector */
    CANCEL_KEEPS_END,  /* the end isn't reached; its track byte isn't 0 */
    CANCEL_CLEARS_END, /* the end is reached; its track byte differs */
    CANCEL_BYTE_2,     /* byte 2 of one of the file's sectors differs */
    CANCEL_BYTE_255,   /* byte 255 does */
    CANCEL_SAME,       /* no byte behind the links differs */
    CANCEL_EARLIER,    /* the slot is in a directory sector before the last */
    CANCEL_GROWS,      /* the directory grows, and nothing is asked */
    RENAME_BACK,       /* the third name is the first */
    RENAME_ON,         /* it is another */
    RENAME_ITSELF,     /* 5: it is the second */
    RENAME_TAKEN,      /* 5: it is another file's */
    RENAME_NO_NAME,    /* 2 */
    CANCEL_OCCASIONS
};

/* What is stated is a kind of disc. */
void count_cancel_occasion(struct stated stated,
                           enum cancel_occasion occasion);

/* Counts an answer of the call that adds a sheet up, which is on no disc. */
void count_sheet_answer(uint32_t number);

/* What has to occur with sheets: each reason for 12, each form of 13, both at
 * once, and what is only just accepted. */
enum sheet_occasion {
    SHEET_TABLE,     /* 12: not as many totals as workers */
    SHEET_KIND,      /* 12: a record of another kind */
    SHEET_CUT,       /* 12: a record cut short */
    SHEET_NO_END,    /* 12: no end */
    SHEET_AFTER_END, /* 12: bytes after the end */
    SHEET_WORKER,    /* 12: no such worker */
    SHEET_BOTH,      /* 12, where a total is too high as well */
    TOTAL_LENT,      /* 13: a total of a worker in the sheet is lent too high */
    TOTAL_OTHER,     /* 13: a total of a worker who isn't in the sheet is */
    TOTAL_REACHED,   /* 13: a total becomes too high */
    TOTAL_WIDE,      /* 13: a total would become more than 32 bits hold */
    TOTAL_EXACT,     /* 0: a total is exactly the limit */
    SHEET_LONG,      /* 0: a sheet that no file can hold */
    SHEET_OCCASIONS
};

void count_sheet_occasion(enum sheet_occasion occasion);

/* Counts a sound disc by its files, directory sectors and free sectors. */
void count_disc(size_t files, size_t directory, size_t free_sectors);

/* Prints all counts when the process ends. */
void report_at_exit(void);

#endif
