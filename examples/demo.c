/*
 * The main job on a disc: make a blank one, save a sheet on it, write the same
 * sectors to a copy, list the disc, read the sheet back, check the disc. Every
 * step says what happened; a refused one says why and what to do.
 */
#include <stdio.h>
#include <stdlib.h>
#include <string.h>

#include "tandos.h"

#define TRACKS 40
#define SHEET_LENGTH 300

/* The bytes are the program's own; the library keeps nothing. */
static uint8_t bytes[TANDOS_IMAGE_SIZE(TRACKS, TANDOS_TEN)];
static const tandos_image disc = {
    bytes, sizeof bytes, TANDOS_TEN, TANDOS_PLAIN
};
static const char name[] = "THU.PCS";

/* A copy of the disc as it was before the save. */
static uint8_t copied[sizeof bytes];
static const tandos_image copy = {
    copied, sizeof copied, TANDOS_TEN, TANDOS_PLAIN
};

/* The sectors that the save wrote. */
static uint8_t writes[TANDOS_SAVE_WRITES_MAX];

static void say_refused(const char *step, uint32_t number)
{
    printf("%s was refused with %lu, %s. %s\n", step, (unsigned long)number,
           tandos_refusal_name(number), tandos_refusal_text(number));
}

static void stop_if_refused(const char *step, uint32_t number)
{
    if (number == TANDOS_DONE)
        return;
    say_refused(step, number);
    exit(EXIT_FAILURE);
}

static unsigned word_at(const uint8_t *record, size_t at)
{
    return record[at] + 256u * record[at + 1];
}

static void make_disc(void)
{
    const char *disc_name = "PIECES";

    stop_if_refused("Making a blank disc",
                    tandos_blank(TANDOS_ON(disc), TANDOS_TEXT(disc_name)));
    printf("Made a blank disc of %d tracks, named %s.\n", TRACKS, disc_name);
}

static tandos_filled save_sheet(const uint8_t *sheet)
{
    return tandos_save(TANDOS_ON(disc), TANDOS_TEXT(name), 0, 0x2000, 0x2000,
                       sheet, SHEET_LENGTH, writes, sizeof writes);
}

/* A card reader would write each of these sectors to the card. */
static void print_writes(void)
{
    const uint8_t *record = writes;

    printf("The sectors written, in order:");
    for (; *record == TANDOS_WRITE; record += TANDOS_WRITE_RECORD_SIZE)
        printf(" %d/%d", record[1], record[2]);
    printf(".\n");
}

/* On the disc as it was, the list gives the disc as it is. */
static void replay_on_copy(size_t length)
{
    stop_if_refused("Replaying the list on the copy",
                    tandos_replay(TANDOS_ON(copy), writes, length));
    if (memcmp(copied, bytes, sizeof bytes) != 0) {
        printf("The copy is NOT the same as the disc.\n");
        exit(EXIT_FAILURE);
    }
    printf("Replayed the list on the old copy: it is the same as the disc.\n");
}

static void save_and_replay(const uint8_t *sheet)
{
    tandos_filled saved;

    memcpy(copied, bytes, sizeof bytes);
    saved = save_sheet(sheet);
    stop_if_refused("Saving the sheet", saved.number);
    printf("Saved the sheet %s of %d bytes.\n", name, SHEET_LENGTH);
    print_writes();
    replay_on_copy(saved.length);
}

/* A name that stands already: refused, and the disc stays as it was. */
static void save_again(const uint8_t *sheet)
{
    uint32_t number = save_sheet(sheet).number;

    if (number == TANDOS_DONE) {
        printf("Saving the same name again was NOT refused.\n");
        exit(EXIT_FAILURE);
    }
    say_refused("Saving the same name again", number);
}

/* The six of a stored name, or the three of its extension, without padding. */
static void print_padded(const uint8_t *field, int size)
{
    while (size > 0 && field[size - 1] == ' ')
        size--;
    printf("%.*s", size, (const char *)field);
}

static void print_file(const uint8_t *record)
{
    int is_protected = record[12] == TANDOS_ATTRIBUTE_PROTECTED;

    printf("  ");
    print_padded(record + 1, 6);
    if (record[7] != ' ')
        putchar('.');
    print_padded(record + 7, 3);
    printf(": %u sectors, %s\n", word_at(record, 10),
           is_protected ? "protected" : "not protected");
}

static void list_disc(void)
{
    static uint8_t records[TANDOS_LIST_MAX];
    const uint8_t *record = records + TANDOS_DISC_RECORD_SIZE;
    tandos_filled listed =
        tandos_list(TANDOS_ON(disc), records, sizeof records);

    stop_if_refused("Listing the disc", listed.number);
    printf("The disc ");
    print_padded(records + 1, TANDOS_NAME_SIZE);
    printf(" has %u sectors free and %u in files:\n", word_at(records, 10),
           word_at(records, 12));
    while (*record == TANDOS_RECORD_FILE) {
        print_file(record);
        record += TANDOS_FILE_RECORD_SIZE;
    }
}

static void read_sheet(const uint8_t *sheet)
{
    static uint8_t buffer[TANDOS_SHEET_MAX];
    tandos_reading reading =
        tandos_read(TANDOS_ON(disc), TANDOS_TEXT(name), buffer, sizeof buffer);
    int is_same;

    stop_if_refused("Reading the sheet", reading.number);
    is_same = reading.length == SHEET_LENGTH &&
              memcmp(buffer, sheet, SHEET_LENGTH) == 0;
    printf("Read %s back: %lu bytes for addresses %04lX to %04lX, %s.\n", name,
           (unsigned long)reading.length, (unsigned long)reading.start,
           (unsigned long)reading.end,
           is_same ? "the same as were saved" : "NOT those that were saved");
    if (!is_same)
        exit(EXIT_FAILURE);
}

static void check_disc(void)
{
    tandos_checked checked = tandos_check(TANDOS_ON(disc));

    stop_if_refused("Checking the disc", checked.number);
    printf("Checked the disc. %s\n", tandos_rule_text(checked.rule));
    if (checked.rule != 0)
        exit(EXIT_FAILURE);
}

int main(void)
{
    uint8_t sheet[SHEET_LENGTH];
    size_t i;

    for (i = 0; i < SHEET_LENGTH; i++)
        sheet[i] = (uint8_t)(i % 100);
    make_disc();
    save_and_replay(sheet);
    list_disc();
    read_sheet(sheet);
    check_disc();
    save_again(sheet);
    return EXIT_SUCCESS;
}
