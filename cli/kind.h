/* The kinds of disc that there are, and what is said of the one that an image
 * is stated to be. */
#ifndef KIND_H
#define KIND_H

struct image;

enum kind {
    TEN_PLAIN,
    TEN_MOVED,
    NINE_PLAIN,
    KINDS
};

/* States the sectors of a track and the arrangement in which calls are to take
 * the image. */
void state_kind(struct image *image, enum kind kind);

/* Of an image that is refused or unsound as stated, another kind that it is
 * sound as. KINDS where there is none, and of an image that is sound as
 * stated. */
enum kind kind_sound_as(const struct image *image);

/* That kind; or, where there is none, one as which a repair would make the disc
 * sound, and the free chain is right or there are more files, while as stated
 * the free chain or more is wrong: most likely somebody has stated the wrong
 * one. KINDS as above. */
enum kind kind_meant(const struct image *image);

/* Where another kind was meant a sentence, with a space in front, that tells
 * how to state it; otherwise "". */
const char *kind_hint(const struct image *image);

/* What stands for the kind behind the number of tracks in a heading, at the end
 * of a list's row and of its JSON: "" for plain discs of ten sectors. */
struct kind_marks {
    const char *heading, *field, *json;
};

const struct kind_marks *marks_of(const struct image *image);

#endif
