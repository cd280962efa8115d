/*
 * The representative's round: on every disc image that is given, checks it,
 * lists it, saves a correction, deletes last week's sheet, and says what was
 * done.
 *
 *     round [--sectors 9|10] [--moved] CORRECTION FILE LAST-WEEK IMAGE..
 *
 * CORRECTION is the name of the new file on the discs, FILE holds its bytes,
 * LAST-WEEK is the name of the file to be deleted. The discs have 10 sectors a
 * track, or the number given. With --moved the images are in the moved
 * arrangement. Images of 9 never are: given both, the library refuses every
 * disc with 1; leave out the option that does not hold. A disc on which
 * anything is refused stays as it is. The exit status is 0 if every disc was
 * done.
 */
#include <stdbool.h>
#include <stdio.h>
#include <stdlib.h>
#include <string.h>

#include "tandos.h"

struct task {
    const char *correction;
    const char *last_week;
    size_t sheet_length;
    uint8_t sheet[TANDOS_SHEET_MAX + 1];
};

/* One byte more than any image has, so that a file that is too long is seen. */
static uint8_t bytes[TANDOS_IMAGE_MAX + 1];
static tandos_image disc = { bytes, 0, TANDOS_TEN, TANDOS_PLAIN };

/* As many bytes as a file has, at most `size`. */
static bool read_file(const char *path, uint8_t *buffer, size_t size,
                      size_t *length)
{
    FILE *file = fopen(path, "rb");
    bool is_read;

    if (file == NULL) {
        perror(path);
        return false;
    }
    *length = fread(buffer, 1, size, file);
    is_read = !ferror(file);
    if (!is_read)
        perror(path);
    fclose(file);
    return is_read;
}

static bool write_new(const char *path)
{
    FILE *file = fopen(path, "wb");
    bool is_written;

    if (file == NULL)
        return false;
    is_written = fwrite(disc.bytes, 1, disc.length, file) == disc.length;
    return fclose(file) == 0 && is_written;
}

/* The new image takes the old one's place only when it stands whole. */
static bool write_image(const char *path)
{
    size_t size = strlen(path) + sizeof ".new";
    char *beside = malloc(size);
    bool is_written;

    if (beside == NULL)
        return false;
    snprintf(beside, size, "%s.new", path);
    is_written = write_new(beside) && rename(beside, path) == 0;
    if (!is_written) {
        perror(path);
        remove(beside);
    }
    free(beside);
    return is_written;
}

static bool is_done(const char *step, uint32_t number)
{
    if (number == TANDOS_DONE)
        return true;
    printf("  %s was refused with %lu, %s. %s\n", step, (unsigned long)number,
           tandos_refusal_name(number), tandos_refusal_text(number));
    return false;
}

static bool check_image(void)
{
    tandos_checked checked = tandos_check(TANDOS_ON(disc));

    if (!is_done("The check", checked.number))
        return false;
    printf("  %s\n", tandos_rule_text(checked.rule));
    if (checked.rule != 0)
        printf("  %s\n", tandos_refusal_text(TANDOS_UNSOUND));
    return checked.rule == 0;
}

static unsigned word_at(const uint8_t *word)
{
    return word[0] + 256u * word[1];
}

static bool list_image(void)
{
    static uint8_t records[TANDOS_LIST_MAX];
    const uint8_t *record = records + TANDOS_DISC_RECORD_SIZE;
    tandos_filled listed =
        tandos_list(TANDOS_ON(disc), records, sizeof records);

    if (!is_done("The list", listed.number))
        return false;
    printf("  %u sectors free, %u in files\n", word_at(records + 10),
           word_at(records + 12));
    for (; *record == TANDOS_RECORD_FILE; record += TANDOS_FILE_RECORD_SIZE)
        printf("  %.6s %.3s %3u%s\n", (const char *)record + 1,
               (const char *)record + 7, word_at(record + 10),
               record[12] == TANDOS_ATTRIBUTE_PROTECTED ? " protected" : "");
    return true;
}

/* The lists of writes are not used: the image is written whole. */
static bool change_image(const struct task *task)
{
    static uint8_t writes[TANDOS_SAVE_WRITES_MAX];
    tandos_filled filled =
        tandos_save(TANDOS_ON(disc), TANDOS_TEXT(task->correction), 0, 0x2000,
                    0x2000, task->sheet, task->sheet_length, writes,
                    sizeof writes);

    if (!is_done("Saving the correction", filled.number))
        return false;
    filled = tandos_delete(TANDOS_ON(disc), TANDOS_TEXT(task->last_week),
                           writes, sizeof writes);
    return is_done("Deleting last week's sheet", filled.number);
}

static bool visit(const char *path, const struct task *task)
{
    printf("%s\n", path);
    if (!read_file(path, bytes, sizeof bytes, &disc.length) ||
        !check_image() || !list_image() || !change_image(task) ||
        !write_image(path)) {
        printf("  Left as it was.\n");
        return false;
    }
    printf("  Saved %s (%lu bytes) and deleted %s.\n", task->correction,
           (unsigned long)task->sheet_length, task->last_week);
    return true;
}

static bool state_sectors(const char *number)
{
    if (number != NULL && strcmp(number, "9") == 0)
        disc.sectors = TANDOS_NINE;
    else if (number != NULL && strcmp(number, "10") == 0)
        disc.sectors = TANDOS_TEN;
    else
        return false;
    return true;
}

/* States what the options say, and gives the words after them; NULL if one of
 * them is unknown. The name of the correction, which comes first of the other
 * words, begins with no hyphen. */
static char **after_options(char **words)
{
    for (; *words != NULL && **words == '-'; words++)
        if (strcmp(*words, "--moved") == 0)
            disc.arrangement = TANDOS_MOVED;
        else if (strcmp(*words, "--sectors") != 0 || !state_sectors(*++words))
            return NULL;
    return words;
}

int main(int argc, char **argv)
{
    static struct task task;
    char **words = after_options(argv + 1);
    int count = words == NULL ? 0 : argc - (int)(words - argv);
    int done = 0, i;

    if (count < 4) {
        fprintf(stderr, "Usage: round [--sectors 9|10] [--moved] CORRECTION "
                "FILE LAST-WEEK IMAGE..\n");
        return 2;
    }
    task.correction = words[0];
    task.last_week = words[2];
    if (!read_file(words[1], task.sheet, sizeof task.sheet, &task.sheet_length))
        return 2;
    for (i = 3; i < count; i++)
        done += visit(words[i], &task);
    printf("%d of %d discs done.\n", done, count - 3);
    return done == count - 3 ? EXIT_SUCCESS : EXIT_FAILURE;
}
