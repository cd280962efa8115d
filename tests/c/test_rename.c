/* Renames: nine bytes, and the names that stand. */
#include <string.h>

#include "calls.h"
#include "report.h"
#include "tests.h"

static void nine_bytes(void)
{
    struct disc disc, expected;

    make_small(&disc);
    expected = disc;
    memcpy(at(&expected, place(0, 4), 19), "NEW   XY ", 9);
    EXPECT_NUMBER(0, try_rename(&disc, text("B"), text("NEW.XY")));
    expect_disc("renamed file", &expected, &disc);
    EXPECT_NUMBER(4, try_rename(&disc, text("B"), text("C")));
    EXPECT_NUMBER(0, try_rename(&disc, text("NEW.XY"), text("B")));
    make_small(&expected);
    expect_disc("renamed back", &expected, &disc);
}

static void standing_names(void)
{
    struct disc disc;

    make_small(&disc);
    EXPECT_NUMBER(5, try_rename(&disc, text("A"), text("A")));
    EXPECT_NUMBER(5, try_rename(&disc, text("A"), text("B")));
    EXPECT_NUMBER(4, try_rename(&disc, text("C"), text("D")));
    *at(&disc, place(0, 4), 18) = 0x80;
    EXPECT_NUMBER(6, try_rename(&disc, text("A"), text("A")));
    EXPECT_NUMBER(6, try_rename(&disc, text("A"), text("C")));
    EXPECT_NUMBER(5, try_rename(&disc, text("B"), text("A")));
    EXPECT_NUMBER(0, try_rename(&disc, text("B"), text("C")));
}

/* A file in the second directory sector. */
static void second_directory_sector(void)
{
    struct disc disc, expected;

    make_sixteen(&disc);
    expected = disc;
    memcpy(at(&expected, free_place(16), 3), "LAST     ", 9);
    EXPECT_NUMBER(0, try_rename(&disc, text("F15"), text("LAST")));
    expect_disc("renamed in the second sector", &expected, &disc);
}

void test_rename(void)
{
    nine_bytes();
    standing_names();
    second_directory_sector();
}
