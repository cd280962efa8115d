/*
 * After a card was pulled: checks every image of a card that is given, repairs
 * it where the check says 6, 7 or 8, and lists its files, so that it is seen
 * whether the last command was done.
 *
 *     mend [--sectors 9|10] [--moved] IMAGE..
 *
 * The discs have 10 sectors a track, or the number given. With --moved the
 * images are in the moved arrangement. A repair believes what is stated, and
 * would lose the files of a disc that is stated wrongly; so an image that looks
 * like a disc of another kind is left as it was. So is one that is sound, or
 * cannot be repaired. The exit status is 0 if every disc is sound in the end.
 */
#include <stdbool.h>
#include <stdio.h>
#include <stdlib.h>
#include <string.h>

#include "tandos.h"

/* The rule that a list leaves broken which was cut between its writes. */
#define CUT_RULE 7

/* One byte more than any image has, so that a file that is too long is seen. */
static uint8_t bytes[TANDOS_IMAGE_MAX + 1];
static tandos_image disc = { bytes, 0, TANDOS_TEN, TANDOS_PLAIN };

static bool read_image(const char *path)
{
    FILE *file = fopen(path, "rb");
    bool is_read;

    if (file == NULL) {
        perror(path);
        return false;
    }
    disc.length = fread(bytes, 1, sizeof bytes, file);
    is_read = !ferror(file);
    if (!is_read)
        perror(path);
    fclose(file);
    return is_read;
}

static bool write_new(const char *path)
{
    FILE *file = fopen(path, "wb");
    bool is_written;

    if (file == NULL)
        return false;
    is_written = fwrite(disc.bytes, 1, disc.length, file) == disc.length;
    return fclose(file) == 0 && is_written;
}

/* The new image takes the old one's place only when it stands whole. */
static bool write_image(const char *path)
{
    size_t size = strlen(path) + sizeof ".new";
    char *beside = malloc(size);
    bool is_written;

    if (beside == NULL)
        return false;
    snprintf(beside, size, "%s.new", path);
    is_written = write_new(beside) && rename(beside, path) == 0;
    if (!is_written) {
        perror(path);
        remove(beside);
    }
    free(beside);
    return is_written;
}

static bool is_done(const char *step, uint32_t number)
{
    if (number == TANDOS_DONE)
        return true;
    printf("  %s was refused with %lu, %s. %s\n", step, (unsigned long)number,
           tandos_refusal_name(number), tandos_refusal_text(number));
    return false;
}

/* Whether the image is a likelier disc of another kind than of the one stated:
 * sound, or with rule 7 broken, as a pulled card leaves it, and not here. */
static bool is_of_another_kind(uint32_t stated_rule)
{
    static const struct {
        uint32_t sectors, arrangement;
    } kinds[] = {
        { TANDOS_TEN, TANDOS_PLAIN },
        { TANDOS_TEN, TANDOS_MOVED },
        { TANDOS_NINE, TANDOS_PLAIN }
    };
    size_t i;

    for (i = 0; i < sizeof kinds / sizeof kinds[0]; i++) {
        tandos_checked checked =
            tandos_check(disc.bytes, disc.length, kinds[i].sectors,
                         kinds[i].arrangement);

        if (checked.number != TANDOS_DONE)
            continue;
        if (checked.rule == 0 ||
            (checked.rule == CUT_RULE && stated_rule != CUT_RULE))
            return true;
    }
    return false;
}

static bool repair_image(const char *path, uint32_t rule)
{
    if (is_of_another_kind(rule)) {
        printf("  It looks like a disc of another kind: state its sectors and "
               "its arrangement.\n");
        return false;
    }
    if (!is_done("The repair", tandos_repair(TANDOS_ON(disc))) ||
        !write_image(path))
        return false;
    printf("  Repaired.\n");
    return true;
}

/* A disc that cannot be repaired is told of by the refusal. */
static bool mend_image(const char *path)
{
    tandos_checked checked = tandos_check(TANDOS_ON(disc));

    if (!is_done("The check", checked.number))
        return false;
    printf("  %s\n", tandos_rule_text(checked.rule));
    return checked.rule == 0 || repair_image(path, checked.rule);
}

static unsigned word_at(const uint8_t *word)
{
    return word[0] + 256u * word[1];
}

static bool list_image(void)
{
    static uint8_t records[TANDOS_LIST_MAX];
    const uint8_t *record = records + TANDOS_DISC_RECORD_SIZE;
    tandos_filled listed =
        tandos_list(TANDOS_ON(disc), records, sizeof records);

    if (!is_done("The list", listed.number))
        return false;
    printf("  %u sectors free, %u in files\n", word_at(records + 10),
           word_at(records + 12));
    for (; *record == TANDOS_RECORD_FILE; record += TANDOS_FILE_RECORD_SIZE)
        printf("  %.6s %.3s %3u%s\n", (const char *)record + 1,
               (const char *)record + 7, word_at(record + 10),
               record[12] == TANDOS_ATTRIBUTE_PROTECTED ? " protected" : "");
    return true;
}

static bool visit(const char *path)
{
    printf("%s\n", path);
    if (!read_image(path) || !mend_image(path)) {
        printf("  Left as it was.\n");
        return false;
    }
    return list_image();
}

static bool state_sectors(const char *number)
{
    if (number != NULL && strcmp(number, "9") == 0)
        disc.sectors = TANDOS_NINE;
    else if (number != NULL && strcmp(number, "10") == 0)
        disc.sectors = TANDOS_TEN;
    else
        return false;
    return true;
}

/* States what the options say, and gives the words after them; NULL if one of
 * them is unknown. */
static char **after_options(char **words)
{
    for (; *words != NULL && **words == '-'; words++)
        if (strcmp(*words, "--moved") == 0)
            disc.arrangement = TANDOS_MOVED;
        else if (strcmp(*words, "--sectors") != 0 || !state_sectors(*++words))
            return NULL;
    return words;
}

int main(int argc, char **argv)
{
    char **images = argc == 0 ? NULL : after_options(argv + 1);
    int sound = 0, count = 0;

    if (images == NULL || *images == NULL) {
        fprintf(stderr, "Usage: mend [--sectors 9|10] [--moved] IMAGE..\n");
        return 2;
    }
    for (; images[count] != NULL; count++)
        sound += visit(images[count]);
    printf("%d of %d discs are sound.\n", sound, count);
    return sound == count ? EXIT_SUCCESS : EXIT_FAILURE;
}
