/* Saves: sectors taken, bytes written, room, and modules out of range. */
#include <string.h>

#include "calls.h"
#include "report.h"
#include "tests.h"

/* A module of L bytes as the only file of a disc of 40 tracks. */
static void takes(size_t length, unsigned start, unsigned sectors)
{
    struct disc disc, expected;
    struct module module;

    module.page = 7;
    module.start = start;
    module.transfer = 0xFEDC;
    module.length = length;
    make_blank(&expected, 40, "PIECES   ");
    disc = expected;
    put_module(&expected, 0, module);
    put_entry(&expected, place(0, 4), 0, "X        ", sectors, place(0, 7),
              free_place(sectors - 1));
    put_free_pointer(&expected, free_place(sectors));
    put_counts(&expected, of_kind(398, 358) - sectors, sectors);
    EXPECT_NUMBER(0, try_save(&disc, text("X"), 7, (uint16_t)start, 0xFEDC,
                              bytes(sheet, length)));
    expect_disc("saved module", &expected, &disc);
    EXPECT_NUMBER(0, try_check(&disc).rule);
}

/* The worked example, from its own bytes. Of nine the second sector is 0/2, the
 * next free one 0/5, and 356 = $0164 are free. */
static void worked_example(void)
{
    uint8_t entry[] =
        "\x54\x48\x55\x20\x20\x20\x50\x43\x53\x02\0\x07\0\x0A\0";
    uint8_t first[] = "\0\x0A\xFF\0\0\x20\x2B\x21\x34\x12\xF5\x01\x02";
    static const uint8_t second[] = "\0\0\x37";
    const char *pointer_and_counts = disc_sectors == 9
                                         ? "\x05\0\x04\0\x64\x01\x02\0"
                                         : "\x03\0\x04\0\x8C\x01\x02\0";
    unsigned second_at = of_kind(2304, 256);
    struct disc disc;

    entry[13] = (uint8_t)of_kind(10, 2);
    first[1] = (uint8_t)of_kind(10, 2);
    make_blank(&disc, 40, "PIECES   ");
    EXPECT_NUMBER(0, try_save(&disc, text("THU.PCS"), 0, 0x2000, 0x1234,
                              bytes(sheet, 300)));
    expect_bytes("entry", entry, disc.bytes + 771, 16);
    EXPECT_NUMBER(1, disc.bytes[770]);
    expect_bytes("free pointer", (const uint8_t *)pointer_and_counts,
                 disc.bytes + 0x10, 8);
    expect_bytes("0/7", first, disc.bytes + 1536, 13);
    expect_bytes("sheet in 0/7", sheet, disc.bytes + 1536 + 11, 245);
    expect_bytes("second sector", second, disc.bytes + second_at, 3);
    expect_bytes("sheet in it", sheet + 245, disc.bytes + second_at + 3, 55);
    EXPECT_NUMBER(0, disc.bytes[second_at + 58]);
}

/* One track: 8 sectors are free, 245 + 7 * 253 = 2,016; of nine 7, 245 + 6 *
 * 253 = 1,763. */
static void room_of_one_track(void)
{
    size_t most = of_kind(2016, 1763);
    struct disc disc, expected;

    make_blank(&disc, 1, "FULL     ");
    make_full(&expected);
    EXPECT_NUMBER(8, save_at_2000(&disc, "X", bytes(sheet, most + 1)));
    EXPECT_NUMBER(0, save_at_2000(&disc, "X", bytes(sheet, most)));
    expect_disc("full disc", &expected, &disc);
    EXPECT_NUMBER(8, save_at_2000(&disc, "Y", bytes(sheet, 1)));
    EXPECT_NUMBER(0, try_check(&disc).rule);
}

/* What stood in the sectors taken is gone, and an end link of 05 00 becomes a
 * free pointer of 00 00. */
static void sectors_with_remains(void)
{
    unsigned taken = of_kind(8, 7);
    size_t length = of_kind(1800, 1600);
    struct place last = place(0, of_kind(8, 9));
    struct disc disc, expected;
    unsigned k;

    make_blank(&disc, 1, "ONE      ");
    expected = disc;
    *at(&disc, last, 0) = 5;
    for (k = 0; k < taken; k++)
        memset(at(&disc, free_place(k), 2), 0xEE, 254);
    put_module(&expected, 0, module_at_2000(length));
    put_entry(&expected, place(0, 4), 0, "X        ", taken, place(0, 7), last);
    put_free_pointer(&expected, place(0, 0));
    put_counts(&expected, 0, taken);
    EXPECT_NUMBER(0, save_at_2000(&disc, "X", bytes(sheet, length)));
    expect_disc("disc with remains", &expected, &disc);
}

static uint32_t save_of(uint32_t page, uint16_t start, struct text module)
{
    struct disc disc;

    make_blank(&disc, 40, "PIECES   ");
    return try_save(&disc, text("X"), page, start, 0, module);
}

static void modules_out_of_range(void)
{
    EXPECT_NUMBER(7, save_of(8, 0, bytes(sheet, 1)));
    EXPECT_NUMBER(7, save_of(255, 0, bytes(sheet, 1)));
    EXPECT_NUMBER(7, save_of(256, 0, bytes(sheet, 1)));
    EXPECT_NUMBER(7, save_of(0x10000, 0, bytes(sheet, 1)));
    EXPECT_NUMBER(7, save_of(0x80000000, 0, bytes(sheet, 1)));
    EXPECT_NUMBER(7, save_of(0xFFFFFFFF, 0, bytes(sheet, 1)));
    EXPECT_NUMBER(0, save_of(7, 0, bytes(sheet, 1)));
    EXPECT_NUMBER(7, save_of(0, 0, bytes(NULL, 0)));
    EXPECT_NUMBER(7, save_of(0, 0, bytes(sheet, 0)));
    EXPECT_NUMBER(7, save_of(0, 0, bytes(sheet, 65537)));
    EXPECT_NUMBER(0, save_of(0, 1, bytes(sheet, 65535)));
    EXPECT_NUMBER(7, save_of(0, 1, bytes(sheet, 65536)));
    EXPECT_NUMBER(0, save_of(0, 0x2000, bytes(sheet, 0xE000)));
    EXPECT_NUMBER(7, save_of(0, 0x2000, bytes(sheet, 0xE001)));
    EXPECT_NUMBER(0, save_of(0, 0xFFFF, bytes(sheet, 1)));
    EXPECT_NUMBER(7, save_of(0, 0xFFFF, bytes(sheet, 2)));
}

void test_save(void)
{
    worked_example();
    takes(1, 0x2000, 1);
    takes(1, 0xFFFF, 1);
    takes(245, 0x2000, 1);
    takes(246, 0x2000, 2);
    takes(498, 0x2000, 2);
    takes(499, 0x2000, 3);
    takes(65536, 0, 260);
    room_of_one_track();
    sectors_with_remains();
    modules_out_of_range();
}
