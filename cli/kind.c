#include "kind.h"

#include "image.h"
#include "records.h"

struct statement {
    uint32_t sectors, arrangement;
};

static const struct statement statements[KINDS] = {
    [TEN_PLAIN] = { TANDOS_TEN, TANDOS_PLAIN },
    [TEN_MOVED] = { TANDOS_TEN, TANDOS_MOVED },
    [NINE_PLAIN] = { TANDOS_NINE, TANDOS_PLAIN }
};

static const struct kind_marks marks[KINDS] = {
    [TEN_PLAIN] = { "", "", "" },
    [TEN_MOVED] = { ", moved", "\tmoved", ", \"arrangement\": \"moved\"" },
    [NINE_PLAIN] = { " of 9 sectors", "\tnine", ", \"sectors_per_track\": 9" }
};

/* Where the disc is sound as the kind meant, and where a repair makes it so. */
struct kind_hint {
    const char *sound, *repairable;
};

#define HINT(as, how) \
    { " " as " the disc is sound: " how ".", \
      " " as " a repair would make the disc sound: " how "." }

/* By the kind stated, then by the one that is meant. */
static const struct kind_hint hints[KINDS][KINDS] = {
    [TEN_PLAIN] = {
        [TEN_MOVED] = HINT("In the moved arrangement",
                           "state it with --moved"),
        [NINE_PLAIN] = HINT("With 9 sectors a track",
                            "state it with --sectors 9")
    },
    [TEN_MOVED] = {
        [TEN_PLAIN] = HINT("In the plain arrangement", "leave --moved out"),
        [NINE_PLAIN] = HINT("With 9 sectors a track",
                            "give --sectors 9, not --moved")
    },
    [NINE_PLAIN] = {
        [TEN_PLAIN] = HINT("With 10 sectors a track", "leave --sectors out"),
        [TEN_MOVED] = HINT("In the moved arrangement",
                           "give --moved, not --sectors")
    }
};

/* How many rules of the check hold before one is broken: all of them, and those
 * up to the free chain's. */
enum { RULES_TO_FREE_CHAIN = 6, ALL_RULES = 8 };

void state_kind(struct image *image, enum kind kind)
{
    image->kind = kind;
    image->sectors = statements[kind].sectors;
    image->arrangement = statements[kind].arrangement;
}

/* None where the image is refused as this kind. */
static unsigned rules_held(const struct image *image, enum kind kind)
{
    tandos_checked checked =
        tandos_check(image->bytes, image->length, statements[kind].sectors,
                     statements[kind].arrangement);

    if (checked.number != TANDOS_DONE)
        return 0;
    return checked.rule == 0 ? ALL_RULES : checked.rule - 1;
}

/* A kind as which so many rules hold; KINDS where there is none, and where they
 * hold as stated. */
static enum kind kind_that_holds(const struct image *image, unsigned rules)
{
    enum kind kind = TEN_PLAIN;

    if (rules_held(image, image->kind) >= rules)
        return KINDS;
    while (kind < KINDS && rules_held(image, kind) < rules)
        kind++;
    return kind;
}

enum kind kind_sound_as(const struct image *image)
{
    return kind_that_holds(image, ALL_RULES);
}

/* The files that a repair as this kind would leave; 0 where it is refused. */
static size_t files_as(const struct image *image, enum kind kind)
{
    static struct image copy;
    static uint8_t records[TANDOS_LIST_MAX];

    copy = *image;
    state_kind(&copy, kind);
    if (tandos_repair(TANDOS_ON(copy)) != TANDOS_DONE)
        return 0;
    return files_listed(
        tandos_list(TANDOS_ON(copy), records, sizeof records).length);
}

/* A kind with more files than there are as stated; KINDS where none has. */
static enum kind kind_with_more_files(const struct image *image)
{
    size_t files = files_as(image, image->kind);
    enum kind kind = TEN_PLAIN;

    while (kind < KINDS && files_as(image, kind) <= files)
        kind++;
    return kind;
}

/* A disc that is read as another kind than it is hardly ever has a free chain
 * as long as its count, which a card that was pulled has, and often no file. */
enum kind kind_meant(const struct image *image)
{
    enum kind kind = kind_sound_as(image);

    if (rules_held(image, image->kind) >= RULES_TO_FREE_CHAIN || kind < KINDS)
        return kind;
    kind = kind_that_holds(image, RULES_TO_FREE_CHAIN);
    return kind < KINDS ? kind : kind_with_more_files(image);
}

const char *kind_hint(const struct image *image)
{
    enum kind kind = kind_meant(image);

    if (kind == KINDS)
        return "";
    return kind == kind_sound_as(image) ? hints[image->kind][kind].sound
                                        : hints[image->kind][kind].repairable;
}

const struct kind_marks *marks_of(const struct image *image)
{
    return &marks[image->kind];
}
