/* The order of refusals: cases where two or more hold at once. Each refusal of
 * a save, delete, rename or protect is tried with no buffer as well, as calls.h
 * says, so that it comes before 10. */
#include "calls.h"
#include "report.h"
#include "tests.h"

/* A disc one byte too short, and unsound but for that. */
static void make_short(struct disc *disc)
{
    make_unsound(disc);
    disc->length = track_size() - 1;
}

/* Save: 1, 2, 7, 3, 5, 8, 10. */
static void order_of_save(void)
{
    struct text none = bytes(sheet, 0), one = bytes(sheet, 1);
    struct disc disc;

    make_short(&disc);
    EXPECT_NUMBER(1, try_save(&disc, text("X."), 8, 0, 0, none));
    EXPECT_NUMBER(1, try_save(&disc, text("A"), 0, 0, 0, one));
    make_unsound(&disc);
    EXPECT_NUMBER(2, try_save(&disc, text("X."), 8, 0, 0, one));
    EXPECT_NUMBER(2, try_save(&disc, text("X."), 0, 0, 0, one));
    EXPECT_NUMBER(7, try_save(&disc, text("A"), 8, 0, 0, one));
    EXPECT_NUMBER(7, try_save(&disc, text("A"), 0, 0, 0, none));
    EXPECT_NUMBER(3, try_save(&disc, text("A"), 0, 0, 0, one));
    EXPECT_NUMBER(3, try_save(&disc, text("C"), 0, 0, 0, bytes(sheet, 2017)));
    make_full(&disc);
    EXPECT_NUMBER(2, try_save(&disc, text("X."), 0, 0, 0, one));
    EXPECT_NUMBER(7, try_save(&disc, text("X"), 256, 0, 0, one));
    EXPECT_NUMBER(7, try_save(&disc, text("Y"), 8, 0, 0, one));
    EXPECT_NUMBER(5, try_save(&disc, text("X"), 0, 0, 0, one));
    EXPECT_NUMBER(8, try_save(&disc, text("Y"), 0, 0, 0, one));
    put_counts(&disc, 0, of_kind(9, 8));
    EXPECT_NUMBER(3, try_save(&disc, text("X"), 0, 0, 0, one));
}

/* Read: 1, 2, 3, 4, 9, 10. */
static void order_of_read(void)
{
    struct disc disc;

    make_short(&disc);
    EXPECT_NUMBER(1, try_read(&disc, text("X."), 0).number);
    make_unsound(&disc);
    EXPECT_NUMBER(2, try_read(&disc, text("X."), 0).number);
    EXPECT_NUMBER(3, try_read(&disc, text("C"), 0).number);
    EXPECT_NUMBER(3, try_read(&disc, text("A"), 0).number);
    *at(&disc, place(0, 7), 2) = 0;
    EXPECT_NUMBER(3, try_read(&disc, text("A"), 245).number);
    make_small(&disc);
    *at(&disc, place(0, 7), 2) = 0;
    EXPECT_NUMBER(2, try_read(&disc, text("A."), 0).number);
    EXPECT_NUMBER(4, try_read(&disc, text("C"), 0).number);
    EXPECT_NUMBER(9, try_read(&disc, text("A"), 0).number);
    EXPECT_NUMBER(9, try_read(&disc, text("A"), 244).number);
    EXPECT_NUMBER(10, try_read(&disc, text("B"), 299).number);
}

/* List: 1, 3, 10. Check: 1. Blank: 1, 2. View: 1, 11. Replay: 1, 14. Repair: 1,
 * 3, and not 3 of rule 7, which is the one broken here. */
static void order_without_files(void)
{
    struct disc disc;

    make_short(&disc);
    EXPECT_NUMBER(1, try_list(&disc, 0).number);
    EXPECT_NUMBER(1, try_check(&disc).number);
    EXPECT_NUMBER(1, try_blank(&disc, text("A.B")));
    EXPECT_NUMBER(1, try_view_number(&disc, 1, 11));
    EXPECT_NUMBER(1, try_replay(&disc, text("X")));
    EXPECT_NUMBER(1, try_repair(&disc));
    *at(&disc, place(0, 4), 2) = 0;
    EXPECT_NUMBER(1, try_repair(&disc));
    make_unsound(&disc);
    EXPECT_NUMBER(3, try_list(&disc, 0).number);
    EXPECT_NUMBER(0, try_check(&disc).number);
    EXPECT_NUMBER(2, try_blank(&disc, text("A.B")));
    EXPECT_NUMBER(11, try_view_number(&disc, 1, 11));
    EXPECT_NUMBER(14, try_replay(&disc, text("X")));
    EXPECT_NUMBER(0, try_repair(&disc));
    *at(&disc, place(0, 4), 2) = 0;
    EXPECT_NUMBER(3, try_repair(&disc));
    EXPECT_NUMBER(0, try_blank(&disc, text("AB")));
}

/* Delete: 1, 2, 3, 4, 6, 10. Protect: 1, 2, 3, 4, 10. */
static void order_of_delete_and_protect(void)
{
    struct disc disc;

    make_short(&disc);
    EXPECT_NUMBER(1, try_delete(&disc, text("X.")));
    EXPECT_NUMBER(1, try_protect(&disc, text("X."), 1));
    make_unsound(&disc);
    *at(&disc, place(0, 4), 18) = 0x80;
    EXPECT_NUMBER(2, try_delete(&disc, text("X.")));
    EXPECT_NUMBER(2, try_protect(&disc, text("X."), 1));
    EXPECT_NUMBER(3, try_delete(&disc, text("C")));
    EXPECT_NUMBER(3, try_delete(&disc, text("A")));
    EXPECT_NUMBER(3, try_protect(&disc, text("C"), 1));
    EXPECT_NUMBER(3, try_protect(&disc, text("A"), 1));
    make_small(&disc);
    *at(&disc, place(0, 4), 18) = 0x80;
    EXPECT_NUMBER(4, try_delete(&disc, text("C")));
    EXPECT_NUMBER(6, try_delete(&disc, text("A")));
    EXPECT_NUMBER(0, try_protect(&disc, text("A"), 1));
}

/* Rename: 1, 2 (either name), 3, 4, 6, 5, 10. */
static void order_of_rename(void)
{
    struct disc disc;

    make_short(&disc);
    EXPECT_NUMBER(1, try_rename(&disc, text("X."), text("A")));
    EXPECT_NUMBER(1, try_rename(&disc, text("A"), text("X.")));
    make_unsound(&disc);
    *at(&disc, place(0, 4), 18) = 0x80;
    EXPECT_NUMBER(2, try_rename(&disc, text("X."), text("A")));
    EXPECT_NUMBER(2, try_rename(&disc, text("A"), text("X.")));
    EXPECT_NUMBER(2, try_rename(&disc, text(""), text("")));
    EXPECT_NUMBER(3, try_rename(&disc, text("C"), text("B")));
    EXPECT_NUMBER(3, try_rename(&disc, text("A"), text("D")));
    EXPECT_NUMBER(3, try_rename(&disc, text("B"), text("B")));
    make_small(&disc);
    *at(&disc, place(0, 4), 18) = 0x80;
    EXPECT_NUMBER(2, try_rename(&disc, text("C"), text("X.")));
    EXPECT_NUMBER(2, try_rename(&disc, text("A"), text("X.")));
    EXPECT_NUMBER(4, try_rename(&disc, text("C"), text("B")));
    EXPECT_NUMBER(4, try_rename(&disc, text("C"), text("C")));
    EXPECT_NUMBER(6, try_rename(&disc, text("A"), text("B")));
    EXPECT_NUMBER(6, try_rename(&disc, text("A"), text("A")));
    EXPECT_NUMBER(5, try_rename(&disc, text("B"), text("A")));
}

/* 10 comes last: with a buffer too short for any list, each of the four is
 * refused for what else holds. */
static void expect_before_10(uint32_t number, struct disc *disc,
                             struct command command)
{
    EXPECT_NUMBER(number, try_command(disc, &command, 259).number);
    EXPECT_NUMBER(number, try_command(disc, &command, 1).number);
    EXPECT_NUMBER(number, try_command(disc, &command, 0).number);
}

static void before_10_of_save(void)
{
    struct text one = bytes(sheet, 1);
    struct disc disc;

    make_short(&disc);
    expect_before_10(1, &disc, a_save(text("C"), 0, 0, 0, one));
    make_small(&disc);
    expect_before_10(2, &disc, a_save(text("C."), 0, 0, 0, one));
    expect_before_10(7, &disc, a_save(text("C"), 8, 0, 0, one));
    expect_before_10(7, &disc, a_save(text("C"), 0, 0, 0, bytes(sheet, 0)));
    expect_before_10(5, &disc, a_save(text("A"), 0, 0, 0, one));
    expect_before_10(8, &disc, a_save(text("C"), 0, 0, 0, bytes(sheet, 2000)));
    expect_before_10(10, &disc, a_save(text("C"), 0, 0, 0, one));
    make_unsound(&disc);
    expect_before_10(3, &disc, a_save(text("C"), 0, 0, 0, one));
    make_full(&disc);
    expect_before_10(8, &disc, a_save(text("Y"), 0, 0, 0, one));
}

/* Room for the file but not for the directory's sector is no room. */
static void before_10_with_the_directory(void)
{
    size_t most = of_kind(498, 2269);
    struct disc disc;

    make_fifteen(&disc);
    expect_before_10(8, &disc, a_save(text("BIG"), 0, 0, 0,
                                      bytes(sheet, most + 1)));
    expect_before_10(10, &disc, a_save(text("BIG"), 0, 0, 0,
                                       bytes(sheet, most)));
}

static void before_10_of_delete_and_protect(void)
{
    struct disc disc;

    make_short(&disc);
    expect_before_10(1, &disc, a_delete(text("A")));
    expect_before_10(1, &disc, a_protect(text("A"), 1));
    make_unsound(&disc);
    expect_before_10(3, &disc, a_delete(text("A")));
    expect_before_10(3, &disc, a_protect(text("A"), 1));
    make_small(&disc);
    *at(&disc, place(0, 4), 18) = 0x80;
    expect_before_10(2, &disc, a_delete(text("A.")));
    expect_before_10(2, &disc, a_protect(text("A."), 1));
    expect_before_10(4, &disc, a_delete(text("C")));
    expect_before_10(4, &disc, a_protect(text("C"), 1));
    expect_before_10(6, &disc, a_delete(text("A")));
    expect_before_10(10, &disc, a_protect(text("A"), 1));
    expect_before_10(10, &disc, a_delete(text("B")));
}

static void before_10_of_rename(void)
{
    struct disc disc;

    make_short(&disc);
    expect_before_10(1, &disc, a_rename(text("A"), text("C")));
    make_unsound(&disc);
    expect_before_10(3, &disc, a_rename(text("A"), text("C")));
    make_small(&disc);
    *at(&disc, place(0, 4), 18) = 0x80;
    expect_before_10(2, &disc, a_rename(text("A."), text("C")));
    expect_before_10(2, &disc, a_rename(text("B"), text("C.")));
    expect_before_10(4, &disc, a_rename(text("C"), text("D")));
    expect_before_10(6, &disc, a_rename(text("A"), text("C")));
    expect_before_10(5, &disc, a_rename(text("B"), text("A")));
    expect_before_10(5, &disc, a_rename(text("B"), text("B")));
    expect_before_10(10, &disc, a_rename(text("B"), text("C")));
}

void test_order(void)
{
    order_of_save();
    order_of_read();
    order_without_files();
    order_of_delete_and_protect();
    order_of_rename();
    before_10_of_save();
    before_10_with_the_directory();
    before_10_of_delete_and_protect();
    before_10_of_rename();
}
