/*
 * A card that was pulled: the list of a command, cut after each of its writes,
 * then a repair. The disc is sound, every file reads as before, and the command
 * is done or not done: a save with its last write, others with their first.
 */
#include <stdio.h>
#include <string.h>

#include "calls.h"
#include "report.h"
#include "tests.h"

/* An accepted command, by the discs before and after it and its list. */
struct accepted {
    struct command command;
    struct disc before, after;
    struct writes list;
};

static size_t write_count(const struct writes *list)
{
    return (list->length - 1) / WRITE_SIZE;
}

/* The first writes of a list, put to the disc by hand. One off the disc is not
 * made: the tests of the lists tell of it. */
static void put_writes(struct disc *disc, const struct writes *list,
                       size_t count)
{
    size_t i;

    for (i = 0; i < count; i++) {
        const uint8_t *record = list->bytes + WRITE_SIZE * i;
        struct place to = place(record[1], record[2]);

        if (is_on_disc(disc, to))
            memcpy(at(disc, to, 0), record + 3, 256);
    }
}

static int is_done(enum command_kind kind, size_t count, size_t all)
{
    return kind == SAVE ? count == all : count >= 1;
}

/* A stored name as it is typed. */
static void put_typed(char *typed, const uint8_t *stored)
{
    int i;

    for (i = 0; i < 9; i++) {
        if (i == 6 && stored[i] != ' ')
            *typed++ = '.';
        if (stored[i] != ' ')
            *typed++ = (char)stored[i];
    }
    *typed = 0;
}

static void expect_same_file(const uint8_t *expected, const uint8_t *found,
                             size_t length, const uint8_t *stored)
{
    static uint8_t expected_sheet[TANDOS_SHEET_MAX];
    static uint8_t sheet_read[TANDOS_SHEET_MAX];
    tandos_reading due, reading;
    char typed[11];

    put_typed(typed, stored);
    due = tandos_read(expected, length, STATED, TANDOS_TEXT(typed),
                      expected_sheet, sizeof expected_sheet);
    reading = tandos_read(found, length, STATED, TANDOS_TEXT(typed),
                          sheet_read, sizeof sheet_read);
    expect_bytes(typed, (const uint8_t *)&due, (const uint8_t *)&reading,
                 sizeof due);
    expect_bytes(typed, expected_sheet, sheet_read, due.length);
}

/* The same list, counts included, and each of its files reads the same. */
static void expect_same_files(const struct disc *expected,
                              const struct disc *found)
{
    static uint8_t due[DISC_MAX], image[DISC_MAX];
    static uint8_t due_list[TANDOS_LIST_MAX], list[TANDOS_LIST_MAX];
    const uint8_t *record = due_list + TANDOS_DISC_RECORD_SIZE;
    size_t length = expected->length;
    tandos_filled filled;

    arrange(due, expected->bytes, length, stated.arrangement);
    arrange(image, found->bytes, length, stated.arrangement);
    filled = tandos_list(due, length, STATED, due_list, sizeof due_list);
    EXPECT_NUMBER(0, filled.number);
    EXPECT_NUMBER(filled.length, tandos_list(image, length, STATED, list,
                                             sizeof list).length);
    expect_bytes("list of the disc", due_list, list, filled.length);
    for (; *record == TANDOS_RECORD_FILE; record += TANDOS_FILE_RECORD_SIZE)
        expect_same_file(due, image, length, record + 1);
}

/* Until it is repaired the disc is refused: 0/1, or the entry, tells of the
 * file and the other does not. */
static void expect_unsound(const struct disc *cut, struct command command)
{
    struct disc disc = *cut;

    EXPECT_NUMBER(7, try_check(&disc).rule);
    EXPECT_NUMBER(3, try_command(&disc, &command, WRITES_ROOM).number);
    EXPECT_NUMBER(3, try_list(&disc, TANDOS_LIST_MAX).number);
}

/* What a command that is done answers if it is given once more. */
static uint32_t when_done(enum command_kind kind)
{
    static const uint32_t numbers[] = { 5, 4, 4, 0 };

    return numbers[kind];
}

/* The card's disc after so many writes: refused, repaired, and the command
 * given once more, after which it is done in any case. */
static void cut(const struct accepted *accepted, size_t count)
{
    enum command_kind kind = accepted->command.kind;
    size_t all = write_count(&accepted->list);
    int is_due = is_done(kind, count, all);
    struct disc disc = accepted->before;

    put_writes(&disc, &accepted->list, count);
    if (count > 0 && count < all)
        expect_unsound(&disc, accepted->command);
    EXPECT_NUMBER(0, try_repair(&disc));
    expect_same_files(is_due ? &accepted->after : &accepted->before, &disc);
    EXPECT_NUMBER(is_due ? when_done(kind) : 0,
                  try_command(&disc, &accepted->command, WRITES_ROOM).number);
    expect_same_files(&accepted->after, &disc);
}

/* Gives the command, and cuts its list after none of its writes, after each and
 * after all. The disc becomes the one after the command. */
static void cut_each(struct disc *disc, struct command command)
{
    static struct accepted accepted;
    size_t count;

    accepted.command = command;
    accepted.before = *disc;
    EXPECT_NUMBER(0, try_command(disc, &command, WRITES_ROOM).number);
    accepted.after = *disc;
    accepted.list = written;
    if (written.length == 0)
        return;
    for (count = 0; count <= write_count(&accepted.list); count++)
        cut(&accepted, count);
}

static struct command save_of(const char *name, size_t length)
{
    return a_save(text(name), 0, 0, 0, bytes(sheet, length));
}

/* 1 to 3 sectors, and all that the disc has. */
static void saves(void)
{
    size_t lengths[] = { 1, 245, 246, 499, 0 };
    struct disc disc;
    size_t i;

    lengths[4] = of_kind(1257, 1004);
    for (i = 0; i < sizeof lengths / sizeof lengths[0]; i++) {
        make_small(&disc);
        cut_each(&disc, save_of("NEW.PCS", lengths[i]));
    }
    make_blank(&disc, 1, "EMPTY    ");
    cut_each(&disc, save_of("X", of_kind(2016, 1763)));
    make_pieces(&disc);
    cut_each(&disc, save_of("FRI.PCS", 2000));
}

/* Where the directory grows, a cut leaves its new sector free; the save may
 * take the last free sectors. */
static void saves_with_growth(void)
{
    struct disc disc;

    make_fifteen(&disc);
    cut_each(&disc, save_of("F15", 1));
    cut_each(&disc, save_of("F16", of_kind(245, 2000)));
    make_fifteen(&disc);
    cut_each(&disc, save_of("BIG", of_kind(498, 2269)));
}

/* A slot that was cleared in the first of two directory sectors, and the one
 * file of the second. */
static void with_two_directory_sectors(void)
{
    struct disc disc;

    make_sixteen(&disc);
    cut_each(&disc, a_delete(text("F03")));
    cut_each(&disc, save_of("NEW", 1));
    cut_each(&disc, a_protect(text("F15"), 1));
    cut_each(&disc, a_protect(text("F15"), 0));
    cut_each(&disc, a_rename(text("F15"), text("F3.X")));
    cut_each(&disc, a_delete(text("F3.X")));
    cut_each(&disc, save_of("F15", 245));
    cut_each(&disc, a_delete(text("F14")));
}

static void other_commands(void)
{
    struct disc disc;

    make_small(&disc);
    cut_each(&disc, a_rename(text("B"), text("B.OLD")));
    cut_each(&disc, a_protect(text("A"), 1));
    cut_each(&disc, a_protect(text("A"), 1));
    cut_each(&disc, a_delete(text("B.OLD")));
    cut_each(&disc, a_protect(text("A"), 0));
    cut_each(&disc, a_delete(text("A")));
    make_full(&disc);
    cut_each(&disc, a_rename(text("X"), text("Y")));
    cut_each(&disc, a_delete(text("Y")));
}

/* A file that is no load module gives 9 before and after. */
static void not_plain(void)
{
    struct disc disc;

    make_small(&disc);
    *at(&disc, place(0, 7), 2) = 0;
    cut_each(&disc, save_of("NEW", 300));
    cut_each(&disc, a_rename(text("A"), text("C")));
    cut_each(&disc, a_delete(text("B")));
    cut_each(&disc, a_delete(text("C")));
}

/* The longest list: 263 writes, and 264 cuts. */
static void longest(void)
{
    struct disc disc;
    char name[] = "A";

    make_blank(&disc, 40, "LONG     ");
    for (; name[0] < 'A' + 15; name[0]++)
        EXPECT_NUMBER(0, save_at_2000(&disc, name, bytes(sheet, 1)));
    cut_each(&disc, save_of("LAST", 65536));
    cut_each(&disc, a_delete(text("LAST")));
}

/* The step-th command of a run. */
static struct command step_command(unsigned step, char *name, char *other)
{
    sprintf(name, "F%u", step * 7 % 23);
    sprintf(other, "F%u", step * 11 % 23);
    switch (step % 7) {
    case 0: case 1: case 2: case 3:
        return save_of(name, 1 + step * 97 % 800);
    case 4: return a_delete(text(name));
    case 5: return a_rename(text(name), text(other));
    default: return a_protect(text(name), step % 14 < 7);
    }
}

/* A card that is pulled at every command and goes on as repaired. A disc on
 * which the same commands are done whole, or not given, has the same files. */
static void run_of_cuts(void)
{
    struct disc card, disc, after;
    char name[8], other[8];
    unsigned step;

    make_blank(&card, 4, "RUN      ");
    disc = card;
    for (step = 0; step < 150; step++) {
        struct command command = step_command(step, name, other);
        size_t all, count;

        after = card;
        if (try_command(&after, &command, WRITES_ROOM).number != TANDOS_DONE)
            continue;
        all = write_count(&written);
        count = step % 3 == 0 ? all : step % all;
        put_writes(&card, &written, count);
        EXPECT_NUMBER(0, try_repair(&card));
        if (is_done(command.kind, count, all))
            EXPECT_NUMBER(0, try_command(&disc, &command, WRITES_ROOM).number);
        expect_same_files(&disc, &card);
    }
}

void test_cuts(void)
{
    saves();
    saves_with_growth();
    with_two_directory_sectors();
    other_commands();
    not_plain();
    longest();
    run_of_cuts();
}
