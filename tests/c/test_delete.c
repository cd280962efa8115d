/* Deletes: the free chain afterwards, and what stays. */
#include <string.h>

#include "calls.h"
#include "report.h"
#include "tests.h"

/* B goes: its two sectors come before what was free. A's slot and sectors
 * stay. */
static void second_file(void)
{
    struct disc disc, expected;

    make_small(&disc);
    expected = disc;
    memset(at(&expected, place(0, 4), 19), 0, 16);
    *at(&expected, place(0, 4), 2) = 1;
    put_link(&expected, free_place(2), free_place(3));
    put_free_pointer(&expected, free_place(1));
    put_counts(&expected, of_kind(7, 6), 1);
    EXPECT_NUMBER(0, try_delete(&disc, text("B")));
    expect_disc("disc without B", &expected, &disc);
    EXPECT_NUMBER(0, try_check(&disc).rule);
    EXPECT_NUMBER(4, try_delete(&disc, text("B")));
}

/* By hand: what sectors_come_back leaves, and where the first two links of C
 * stand. */
struct come_back {
    const char *entry, *links, *free_pointer_and_counts;
    unsigned first, second;
};

static const struct come_back of_ten = {
    "C        \x03\0\x0A\0\x07\0", "\0\x03\0\x07",
    "\x06\0\x04\0\x05\0\x03\0", 2304, 512
};

static const struct come_back of_nine = {
    "C        \x03\0\x02\0\x07\0", "\0\x05\0\x07",
    "\x08\0\x04\0\x04\0\x03\0", 256, 1024
};

/* The next save takes what two deletes gave back, in that order: 0/10, 0/3,
 * 0/7, or of nine 0/2, 0/5, 0/7, and goes to the first slot. */
static void sectors_come_back(const struct come_back *left)
{
    struct disc disc;

    make_small(&disc);
    EXPECT_NUMBER(0, try_delete(&disc, text("A")));
    EXPECT_NUMBER(0, try_delete(&disc, text("B")));
    EXPECT_NUMBER(0, save_at_2000(&disc, "C", bytes(sheet, 499)));
    expect_bytes("entry of C", (const uint8_t *)left->entry, disc.bytes + 771,
                 16);
    expect_bytes("first link", (const uint8_t *)left->links,
                 disc.bytes + left->first, 2);
    expect_bytes("second link", (const uint8_t *)left->links + 2,
                 disc.bytes + left->second, 2);
    expect_bytes("link of 0/7", (const uint8_t *)"\0", disc.bytes + 1536, 2);
    expect_bytes("free pointer and counts",
                 (const uint8_t *)left->free_pointer_and_counts,
                 disc.bytes + 0x10, 8);
    EXPECT_NUMBER(0, try_check(&disc).rule);
}

/* With nothing free the last link becomes 00 00, whatever track byte stands
 * in the free pointer and in the end link. */
static void from_a_full_disc(void)
{
    struct place last = place(0, of_kind(8, 9));
    struct disc disc, expected;

    make_full(&disc);
    put_free_pointer(&disc, place(5, 0));
    *at(&disc, last, 0) = 9;
    expected = disc;
    memset(at(&expected, place(0, 4), 2), 0, 17);
    put_link(&expected, last, place(0, 0));
    put_free_pointer(&expected, place(0, 7));
    put_counts(&expected, of_kind(8, 7), 0);
    EXPECT_NUMBER(0, try_check(&disc).rule);
    EXPECT_NUMBER(0, try_delete(&disc, text("X")));
    expect_disc("emptied disc", &expected, &disc);
}

static void protected_file(void)
{
    struct disc disc;

    make_small(&disc);
    *at(&disc, place(0, 4), 18) = 0x80;
    EXPECT_NUMBER(6, try_delete(&disc, text("A")));
    EXPECT_NUMBER(0, try_delete(&disc, text("B")));
}

void test_delete(void)
{
    second_file();
    sectors_come_back(disc_sectors == 9 ? &of_nine : &of_ten);
    from_a_full_disc();
    protected_file();
}
