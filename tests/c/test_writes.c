/* Lists of writes: records byte for byte, their order, and buffers. Each
 * command below also passes what calls.h says of all four. */
#include <stdio.h>
#include <string.h>

#include "calls.h"
#include "report.h"
#include "tests.h"

/* The last command's list: these sectors as they stand on the disc. */
static void expect_places(const struct disc *disc, const struct place *places,
                          size_t count)
{
    static struct writes expected;

    make_writes(&expected, disc, places, count);
    expect_writes("list by places", &expected, &written);
}

/* The list of the worked example, 4 records and the end, by positions: 0/1 from
 * byte 0 on, 0/7 from 259 on, 0/10 or of nine 0/2 from 518 on, 0/4 from 777
 * on. */
static void put_example(uint8_t *list)
{
    memset(list, 0, 1037);
    memcpy(list, "\x03\0\x01", 3);
    memcpy(list + 3 + 0x10, "\x03\0\x04\0\x8C\x01\x02\0PIECES   ", 17);
    memcpy(list + 3 + 0x40, "TANDOS 65 IMAGE 1", 17);
    memcpy(list + 259, "\x03\0\x07\0\x0A\xFF\0\0\x20\x2B\x21\0\x20\xF5", 14);
    memcpy(list + 259 + 14, sheet, 245);
    memcpy(list + 518, "\x03\0\x0A\0\0\x37", 6);
    memcpy(list + 518 + 6, sheet + 245, 55);
    memcpy(list + 777, "\x03\0\x04\0\0\x01THU   PCS\x02\0\x07\0\x0A", 20);
}

/* Of nine the second sector is 0/2, the next free one 0/5, and 356 = $0164 are
 * free. */
static void change_to_nine(uint8_t *list)
{
    list[3 + 0x10] = 5;
    list[3 + 0x14] = 0x64;
    list[259 + 4] = 2;
    list[518 + 2] = 2;
    list[777 + 3 + 3 + 13] = 2;
}

static void worked_example(void)
{
    uint8_t list[1037];
    struct disc disc;

    put_example(list);
    if (disc_sectors == 9)
        change_to_nine(list);
    make_blank(&disc, 40, "PIECES   ");
    EXPECT_NUMBER(0, save_at_2000(&disc, "THU.PCS", bytes(sheet, 300)));
    EXPECT_NUMBER(1037, written.length);
    expect_bytes("whole list", list, written.bytes, sizeof list);
}

/* The last free sectors go, and the free pointer in 0/1 becomes zeros. */
static void last_free_sectors(void)
{
    static const struct place of_ten[] = {
        { 0, 1 }, { 0, 7 }, { 0, 10 }, { 0, 3 }, { 0, 6 }, { 0, 9 }, { 0, 2 },
        { 0, 5 }, { 0, 8 }, { 0, 4 }
    };
    static const struct place of_nine[] = {
        { 0, 1 }, { 0, 7 }, { 0, 2 }, { 0, 5 }, { 0, 8 }, { 0, 3 }, { 0, 6 },
        { 0, 9 }, { 0, 4 }
    };
    struct disc disc, full;

    make_blank(&disc, 1, "FULL     ");
    make_full(&full);
    EXPECT_NUMBER(0, save_at_2000(&disc, "X",
                                  bytes(sheet, of_kind(2016, 1763))));
    expect_places(&full, disc_sectors == 9 ? of_nine : of_ten, of_kind(10, 9));
}

/* The order is that of the chain: 0/10, 0/3, 0/7, or of nine 0/2, 0/5, 0/7. */
static void chain_order(void)
{
    struct place places[] = {
        { 0, 1 }, { 0, 10 }, { 0, 3 }, { 0, 7 }, { 0, 4 }
    };
    struct disc disc;

    places[1].sector = of_kind(10, 2);
    places[2].sector = of_kind(3, 5);
    make_small(&disc);
    EXPECT_NUMBER(0, try_delete(&disc, text("A")));
    EXPECT_NUMBER(0, try_delete(&disc, text("B")));
    EXPECT_NUMBER(0, save_at_2000(&disc, "C", bytes(sheet, 499)));
    expect_places(&disc, places, 5);
}

/* The 16th file: the file, the new directory sector, then the one before it. Of
 * ten these are 1/2, 1/5 and 0/4, of nine 1/9, 2/1 and 0/4. */
static void growth(void)
{
    static const struct place of_ten[] = {
        { 0, 1 }, { 1, 2 }, { 1, 5 }, { 0, 4 }
    };
    static const struct place of_nine[] = {
        { 0, 1 }, { 1, 9 }, { 2, 1 }, { 0, 4 }
    };
    struct disc disc, sixteen;

    make_fifteen(&disc);
    make_sixteen(&sixteen);
    EXPECT_NUMBER(0, save_at_2000(&disc, "F15", bytes(sheet, 1)));
    expect_places(&sixteen, disc_sectors == 9 ? of_nine : of_ten, 4);
}

/* Without growth one directory sector is written: the second for the 17th file,
 * the first for one that goes to a slot cleared there. */
static void without_growth(void)
{
    struct place places[] = { { 0, 1 }, { 0, 0 }, { 0, 0 } };
    struct disc disc;

    places[1] = free_place(17);
    places[2] = free_place(16);
    make_sixteen(&disc);
    EXPECT_NUMBER(0, save_at_2000(&disc, "F16", bytes(sheet, 1)));
    expect_places(&disc, places, 3);
    EXPECT_NUMBER(0, try_delete(&disc, text("F03")));
    EXPECT_NUMBER(0, save_at_2000(&disc, "NEW", bytes(sheet, 1)));
    places[1] = free_place(3);
    places[2] = place(0, 4);
    expect_places(&disc, places, 3);
}

/* The 31st file's directory sector is linked from the second one. File 16 took
 * the 16th free sector, the directory the next; file 31 the 32nd. */
static void second_growth(void)
{
    struct place places[] = { { 0, 1 }, { 0, 0 }, { 0, 0 }, { 0, 0 } };
    struct disc disc;
    char name[10];
    unsigned i;

    make_blank(&disc, 5, "MANY     ");
    for (i = 0; i < 31; i++) {
        sprintf(name, "F%u", i);
        EXPECT_NUMBER(0, save_at_2000(&disc, name, bytes(sheet, 1)));
    }
    places[1] = free_place(31);
    places[2] = free_place(32);
    places[3] = free_place(16);
    expect_places(&disc, places, 4);
}

/* 260 sectors of a file, 0/1 and two of the directory: no list is longer. */
static void longest(void)
{
    struct disc disc;
    char name[] = "A";
    unsigned k;

    make_blank(&disc, 40, "LONG     ");
    for (; name[0] < 'A' + 15; name[0]++)
        EXPECT_NUMBER(0, save_at_2000(&disc, name, bytes(sheet, 1)));
    EXPECT_NUMBER(0, try_save(&disc, text("LAST"), 0, 0, 0,
                              bytes(sheet, 65536)));
    EXPECT_NUMBER(68118, written.length);
    for (k = 0; k < 260; k++) {
        const uint8_t *record = written.bytes + 259 * (k + 1);

        EXPECT_NUMBER(free_place(15 + k).track, record[1]);
        EXPECT_NUMBER(free_place(15 + k).sector, record[2]);
    }
    EXPECT_NUMBER(free_place(275).track, written.bytes[259 * 261 + 1]);
    EXPECT_NUMBER(free_place(275).sector, written.bytes[259 * 261 + 2]);
    EXPECT_NUMBER(4, written.bytes[259 * 262 + 2]);
}

/* Directory sector, last sector, 0/1; of a file of one sector that is its
 * first, and of F15 all are others than of F14. */
static void deletes(void)
{
    struct place places[] = { { 0, 4 }, { 0, 3 }, { 0, 1 } };
    struct disc disc;

    make_small(&disc);
    places[1].sector = of_kind(3, 5);
    EXPECT_NUMBER(0, try_delete(&disc, text("B")));
    expect_places(&disc, places, 3);
    places[1].sector = 7;
    EXPECT_NUMBER(0, try_delete(&disc, text("A")));
    expect_places(&disc, places, 3);
    make_sixteen(&disc);
    places[1] = free_place(14);
    EXPECT_NUMBER(0, try_delete(&disc, text("F14")));
    expect_places(&disc, places, 3);
    places[0] = free_place(16);
    places[1] = free_place(15);
    EXPECT_NUMBER(0, try_delete(&disc, text("F15")));
    expect_places(&disc, places, 3);
}

/* Rename and protect write the sector of the entry alone. */
static void entries(void)
{
    struct place first = { 0, 4 }, second = free_place(16);
    struct disc disc;

    make_sixteen(&disc);
    EXPECT_NUMBER(0, try_rename(&disc, text("F00"), text("NEW")));
    expect_places(&disc, &first, 1);
    EXPECT_NUMBER(0, try_rename(&disc, text("F15"), text("F00")));
    expect_places(&disc, &second, 1);
    EXPECT_NUMBER(0, try_protect(&disc, text("NEW"), 1));
    expect_places(&disc, &first, 1);
    EXPECT_NUMBER(0, try_protect(&disc, text("F00"), 1));
    expect_places(&disc, &second, 1);
}

/* What stands already is written as well. */
static void unchanged(uint8_t attribute, uint32_t on)
{
    struct place directory = { 0, 4 };
    struct disc disc, before;

    make_small(&disc);
    *at(&disc, directory, 34) = attribute;
    before = disc;
    EXPECT_NUMBER(0, try_protect(&disc, text("B"), on));
    expect_disc("disc that stays", &before, &disc);
    expect_places(&before, &directory, 1);
}

/* With a buffer of any length: 10 up to the list's, and done from there on. */
static void any_buffer(struct command command, size_t list_len)
{
    struct disc disc;
    size_t length;

    for (length = 0; length <= list_len + 2; length++) {
        make_small(&disc);
        EXPECT_NUMBER(length < list_len ? 10 : 0,
                      try_command(&disc, &command, length).number);
        EXPECT_NUMBER(length < list_len ? 0 : list_len, written.length);
    }
}

static void buffers(void)
{
    struct text name = text("A"), new_name = text("C");

    any_buffer(a_save(new_name, 0, 0, 0, bytes(sheet, 1)), 778);
    any_buffer(a_delete(name), 778);
    any_buffer(a_rename(name, new_name), 260);
    any_buffer(a_protect(name, 0), 260);
}

void test_writes(void)
{
    worked_example();
    last_free_sectors();
    chain_order();
    growth();
    without_growth();
    second_growth();
    longest();
    deletes();
    entries();
    unchanged(0x00, 0);
    unchanged(0x80, 1);
    buffers();
}
