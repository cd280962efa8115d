/* File names: as stored, and those that break their rule. */
#include <string.h>

#include "calls.h"
#include "report.h"
#include "tests.h"

static void stored_as(const char *typed, const char *stored)
{
    struct disc disc;

    make_blank(&disc, 1, "NAMES    ");
    EXPECT_NUMBER(0, save_at_2000(&disc, typed, bytes(sheet, 1)));
    expect_bytes(typed, (const uint8_t *)stored, disc.bytes + 768 + 3, 9);
    EXPECT_NUMBER(0, try_read(&disc, text(typed), 1).number);
    EXPECT_NUMBER(5, save_at_2000(&disc, typed, bytes(sheet, 1)));
}

/* Every command that takes a file name, with one that breaks the rule. */
static void breaks_the_rule(struct text name)
{
    struct disc disc;

    make_small(&disc);
    EXPECT_NUMBER(2, try_read(&disc, name, 300).number);
    EXPECT_NUMBER(2, try_save(&disc, name, 0, 0, 0, bytes(sheet, 1)));
    EXPECT_NUMBER(2, try_delete(&disc, name));
    EXPECT_NUMBER(2, try_rename(&disc, name, text("NEW")));
    EXPECT_NUMBER(2, try_rename(&disc, text("A"), name));
    EXPECT_NUMBER(2, try_protect(&disc, name, 1));
}

static void bad_names(void)
{
    static const char *const names[] = {
        "", "SEVENCH", "X.", ".A", ".", "..", "A..B", "A.B.C", "A.WXYZ",
        "SEVENCH.A", "ABCDEF.WXYZ", "a", "A.b", "A B", " A", "A ", "A.B ",
        "A. B", "A-B", "A*", "A?"
    };
    size_t i;

    for (i = 0; i < sizeof names / sizeof names[0]; i++)
        breaks_the_rule(text(names[i]));
    breaks_the_rule(bytes(NULL, 0));
    breaks_the_rule(bytes((const uint8_t *)"A\0", 2));
}

static void huge_names(void)
{
    static uint8_t name[100000];

    memset(name, 'A', sizeof name);
    breaks_the_rule(bytes(name, 7));
    breaks_the_rule(bytes(name, 256));
    breaks_the_rule(bytes(name, 257));
    breaks_the_rule(bytes(name, 65537));
    breaks_the_rule(bytes(name, sizeof name));
}

/* A byte is legal in a name exactly if it is A-Z or 0-9. The names below stand
 * in no file, so a legal one is absent. */
static void every_byte(void)
{
    struct disc disc;
    unsigned value;

    make_blank(&disc, 1, "NAMES    ");
    for (value = 0; value < 256; value++) {
        uint8_t name[3] = { 'A', '.', 'A' };
        int is_legal = (value >= 0x41 && value <= 0x5A) ||
                       (value >= 0x30 && value <= 0x39);
        unsigned number = is_legal ? 4 : 2;

        name[2] = (uint8_t)value;
        EXPECT_NUMBER(number, try_delete(&disc, bytes(name, 3)));
        EXPECT_NUMBER(number, try_delete(&disc, bytes(name + 2, 1)));
    }
}

static void same_letters_differ(void)
{
    struct disc disc;

    make_blank(&disc, 1, "NAMES    ");
    EXPECT_NUMBER(0, save_at_2000(&disc, "ABC", bytes(sheet, 1)));
    EXPECT_NUMBER(4, try_delete(&disc, text("A.BC")));
    EXPECT_NUMBER(0, save_at_2000(&disc, "A.BC", bytes(sheet, 2)));
    expect_bytes("ABC", (const uint8_t *)"ABC      ", disc.bytes + 771, 9);
    expect_bytes("A.BC", (const uint8_t *)"A     BC ", disc.bytes + 787, 9);
    EXPECT_NUMBER(1, try_read(&disc, text("ABC"), 9).length);
    EXPECT_NUMBER(2, try_read(&disc, text("A.BC"), 9).length);
}

void test_names(void)
{
    stored_as("X", "X        ");
    stored_as("ABC", "ABC      ");
    stored_as("A.BC", "A     BC ");
    stored_as("THU.PCS", "THU   PCS");
    stored_as("ABCDEF", "ABCDEF   ");
    stored_as("ABCDEF.XYZ", "ABCDEFXYZ");
    stored_as("0.9", "0     9  ");
    same_letters_differ();
    bad_names();
    huge_names();
    every_byte();
}
