/* The directory's growth: the 15th file, the 16th, and room for both. */
#include "calls.h"
#include "report.h"
#include "tests.h"

/* The 15th file takes its own sector alone. */
static void fifteenth_file(void)
{
    struct disc disc, expected;

    make_fifteen(&disc);
    expected = disc;
    EXPECT_NUMBER(0, try_delete(&disc, text("F14")));
    EXPECT_NUMBER(of_kind(4, 11), disc.bytes[0x14]);
    EXPECT_NUMBER(14, disc.bytes[770]);
    EXPECT_NUMBER(0, save_at_2000(&disc, "F14", bytes(sheet, 1)));
    expect_disc("15 files", &expected, &disc);
}

static void sixteenth_file(void)
{
    struct place directory = free_place(16);
    struct disc disc, expected;

    make_sixteen(&expected);
    make_fifteen(&disc);
    /* Remains in the sector that the directory takes must go. */
    *at(&disc, directory, 2) = 0xEE;
    *at(&disc, directory, 100) = 0xEE;
    *at(&disc, directory, 255) = 0xEE;
    EXPECT_NUMBER(0, save_at_2000(&disc, "F15", bytes(sheet, 1)));
    expect_disc("16 files", &expected, &disc);
    EXPECT_NUMBER(0, try_check(&disc).rule);
}

/* The cleared slot of the first directory sector is taken, not a new sector
 * nor the second one's next slot. */
static void save_after_delete(void)
{
    struct disc disc, expected;

    make_sixteen(&disc);
    make_sixteen(&expected);
    EXPECT_NUMBER(0, try_delete(&disc, text("F03")));
    EXPECT_NUMBER(0, save_at_2000(&disc, "NEW.FIL", bytes(sheet, 1)));
    *at(&expected, place(0, 4), 2) -= 1;
    put_entry(&expected, place(0, 4), 3, "NEW   FIL", 1, free_place(3),
              free_place(3));
    expect_disc("save into the cleared slot", &expected, &disc);
}

/* On a full first sector the next entry goes to the second one's next slot,
 * and the last free sectors, 1 or of nine 8 (245 + 7 * 253 bytes), are
 * enough. */
static void seventeenth_file(void)
{
    unsigned left = of_kind(1, 8);
    size_t length = of_kind(1, 2016);
    struct disc disc, expected;

    make_sixteen(&disc);
    make_sixteen(&expected);
    put_module(&expected, 17, module_at_2000(length));
    put_entry(&expected, free_place(16), 1, "F16      ", left, free_place(17),
              free_place(16 + left));
    put_free_pointer(&expected, place(0, 0));
    put_counts(&expected, 0, 16 + left);
    EXPECT_NUMBER(0, save_at_2000(&disc, "F16", bytes(sheet, length)));
    expect_disc("17 files", &expected, &disc);
    EXPECT_NUMBER(8, save_at_2000(&disc, "F17", bytes(sheet, 1)));
}

/* Three sectors are free, or of nine ten, and the directory takes one of them:
 * 2 hold 245 + 253 bytes, 9 hold 245 + 8 * 253. */
static void room_with_the_directory(void)
{
    unsigned taken = of_kind(2, 9);
    size_t length = of_kind(498, 2269);
    struct place last = free_place(15 + taken);
    struct disc disc, expected;

    make_fifteen(&disc);
    expected = disc;
    EXPECT_NUMBER(8, save_at_2000(&disc, "BIG", bytes(sheet, length + 1)));
    put_module(&expected, 15, module_at_2000(length));
    put_link(&expected, place(0, 4), last);
    put_link(&expected, last, place(0, 0));
    put_entry(&expected, last, 0, "BIG      ", taken, free_place(15),
              free_place(14 + taken));
    put_free_pointer(&expected, place(0, 0));
    put_counts(&expected, 0, 15 + taken);
    EXPECT_NUMBER(0, save_at_2000(&disc, "BIG", bytes(sheet, length)));
    expect_disc("disc filled with its directory", &expected, &disc);
}

/* An emptied directory sector stays, and its slots are taken before a new
 * sector is. */
static void emptied_sector(void)
{
    struct disc disc, expected;

    make_sixteen(&disc);
    make_sixteen(&expected);
    EXPECT_NUMBER(0, try_delete(&disc, text("F15")));
    EXPECT_NUMBER(0, *at(&disc, free_place(16), 2));
    EXPECT_NUMBER(of_kind(1, 2), *at(&disc, place(0, 4), 0));
    EXPECT_NUMBER(of_kind(5, 1), *at(&disc, place(0, 4), 1));
    EXPECT_NUMBER(0, try_check(&disc).rule);
    EXPECT_NUMBER(0, save_at_2000(&disc, "F15", bytes(sheet, 1)));
    expect_disc("emptied sector filled again", &expected, &disc);
}

void test_directory(void)
{
    fifteenth_file();
    sixteenth_file();
    save_after_delete();
    seventeenth_file();
    room_with_the_directory();
    emptied_sector();
}
