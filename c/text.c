/* Names and sentences for the numbers that the calls answer. */
#include "tandos.h"

struct refusal {
    const char *name;
    const char *text;
};

static const struct refusal refusals[] = {
    [TANDOS_DONE] = { "DONE", "Done: nothing was refused." },
    [TANDOS_SIZE] = { "SIZE",
        "The image is not as long as 1 to 80 tracks of the sectors stated "
        "(2,304 bytes a track with 9, 2,560 with 10), or no disc is as stated: "
        "open a whole image of one side of a single density disc, and state 10 "
        "sectors a track, plain (0) or moved (1), or 9, plain." },
    [TANDOS_NAME] = { "NAME",
        "The name breaks its rule: give a file name of 1 to 6 of A-Z and 0-9, "
        "then nothing or a dot and 1 to 3 of the same, "
        "or a disc name of 1 to 9 of A-Z and 0-9." },
    [TANDOS_UNSOUND] = { "UNSOUND",
        "The disc is damaged, or its sectors a track or its arrangement are "
        "not the ones stated: check it with the others, and go on with those "
        "that make it sound; if none do, repair it where the check says 6, 7 "
        "or 8, or go on with a sound copy of it." },
    [TANDOS_ABSENT] = { "ABSENT",
        "No file on the disc has this name: "
        "list the disc to see the names that stand." },
    [TANDOS_TAKEN] = { "TAKEN",
        "A file on the disc has the new name already: "
        "choose another name, or delete or rename that file first." },
    [TANDOS_PROTECTED] = { "PROTECTED",
        "The file is protected: "
        "lift its protection before it is deleted or renamed." },
    [TANDOS_MODULE] = { "MODULE",
        "The page is above 7, or the sheet is empty or reaches beyond address "
        "65,535: correct the page, the start address or the sheet." },
    [TANDOS_ROOM] = { "ROOM",
        "The disc has too few free sectors: "
        "delete a file that is no longer needed, or save on another disc." },
    [TANDOS_NOT_PLAIN] = { "NOT PLAIN",
        "The file is not a plain load module: "
        "look at its sectors with the sector view, "
        "or read it with the program that wrote it." },
    [TANDOS_SHORT] = { "SHORT",
        "The buffer cannot hold the answer: lend a longer one; "
        "65,536 bytes are enough for any file, 9,752 for any list of a disc, "
        "68,118 for any list of writes." },
    [TANDOS_NO_SECTOR] = { "NO SECTOR",
        "There is no such sector on the disc: give a track from 0 to the last "
        "one and a sector from 1 to the last of a track." },
    [TANDOS_BAD_SHEET] = { "BAD SHEET",
        "The bytes are not a sheet of records, or there are not 500 totals: "
        "give one whole sheet, with workers from 1 to 500 and its end as the "
        "last byte, and a table of 500 totals." },
    [TANDOS_TOTAL] = { "TOTAL",
        "A worker's total is, or would become, more than 1,000,000,000: "
        "begin new totals from zero, or correct the one that is too large." },
    [TANDOS_BAD_LIST] = { "BAD LIST",
        "The bytes are not a list of writes to sectors of this disc: give one "
        "whole list, as save, delete, rename or protect gave it, and the disc "
        "that it is for." }
};

static const char *const rules[] = {
    "The disc is sound.",
    "Rule 1 is broken: the directory pointer is not on the disc, or is 0/1.",
    "Rule 2 is broken: the directory chain leaves the disc, does not end, "
    "or meets 0/1.",
    "Rule 3 is broken: a directory sector has a wrong number of entries, "
    "or an entry with a wrong name, length or attribute.",
    "Rule 4 is broken: two entries have the same name.",
    "Rule 5 is broken: a file's chain leaves the disc, is not as long or does "
    "not end as its entry says, or meets a sector that is in use elsewhere.",
    "Rule 6 is broken: the free chain leaves the disc, does not end, meets a "
    "sector that is in use, or is not as long as the free count.",
    "Rule 7 is broken: the used count is not the sum of the file lengths.",
    "Rule 8 is broken: a sector is in no file, nor in the directory, "
    "nor in the free chain."
};

const char *tandos_refusal_name(uint32_t number)
{
    if (number >= sizeof refusals / sizeof refusals[0])
        return "?";
    return refusals[number].name;
}

const char *tandos_refusal_text(uint32_t number)
{
    if (number >= sizeof refusals / sizeof refusals[0])
        return "No call answers this number: "
               "give the number that a call answered.";
    return refusals[number].text;
}

const char *tandos_rule_text(uint32_t rule)
{
    if (rule >= sizeof rules / sizeof rules[0])
        return "The check has no rule of this number: "
               "give the rule that a check answered.";
    return rules[rule];
}
