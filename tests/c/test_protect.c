/* Protection: one byte, and numbers that are not cut. */
#include "calls.h"
#include "report.h"
#include "tests.h"

/* Asked for on or off while `before` stands. */
static void protect_with(uint8_t before, uint32_t on, uint8_t after)
{
    struct disc disc, expected;

    make_small(&disc);
    *at(&disc, place(0, 4), 34) = before;
    expected = disc;
    *at(&expected, place(0, 4), 34) = after;
    EXPECT_NUMBER(0, try_protect(&disc, text("B"), on));
    expect_disc("attribute", &expected, &disc);
}

/* Read, protect and save of another file are not refused for it. */
static void what_it_guards(void)
{
    struct disc disc;

    make_small(&disc);
    EXPECT_NUMBER(0, try_protect(&disc, text("A"), 1));
    EXPECT_NUMBER(6, try_delete(&disc, text("A")));
    EXPECT_NUMBER(6, try_rename(&disc, text("A"), text("C")));
    EXPECT_NUMBER(0, try_read(&disc, text("A"), 245).number);
    EXPECT_NUMBER(5, save_at_2000(&disc, "A", bytes(sheet, 1)));
    EXPECT_NUMBER(0, try_protect(&disc, text("A"), 0));
    EXPECT_NUMBER(0, try_delete(&disc, text("A")));
    EXPECT_NUMBER(4, try_protect(&disc, text("A"), 1));
    EXPECT_NUMBER(4, try_protect(&disc, text("A"), 0));
}

void test_protect(void)
{
    protect_with(0x00, 1, 0x80);
    protect_with(0x00, 2, 0x80);
    protect_with(0x00, 128, 0x80);
    protect_with(0x00, 256, 0x80);
    protect_with(0x00, 0x10000, 0x80);
    protect_with(0x00, 0x80000000, 0x80);
    protect_with(0x00, 0xFFFFFFFF, 0x80);
    protect_with(0x80, 0, 0x00);
    protect_with(0x80, 1, 0x80);
    protect_with(0x00, 0, 0x00);
    what_it_guards();
}
