/* Reads: what was saved, buffers, and files that are no load module. */
#include "calls.h"
#include "report.h"
#include "tests.h"

static void reads_as(const struct disc *disc, const char *name,
                     struct module module)
{
    tandos_reading reading = try_read(disc, text(name), module.length);

    EXPECT_NUMBER(0, reading.number);
    EXPECT_NUMBER(module.page, reading.page);
    EXPECT_NUMBER(module.start, reading.start);
    EXPECT_NUMBER(module.start + module.length - 1, reading.end);
    EXPECT_NUMBER(module.transfer, reading.transfer);
    EXPECT_NUMBER(module.length, reading.length);
    expect_bytes("bytes read", sheet, answer, module.length);
    EXPECT_NUMBER(0, try_read(disc, text(name), BUFFER_MAX).number);
    EXPECT_NUMBER(10, try_read(disc, text(name), module.length - 1).number);
    EXPECT_NUMBER(10, try_read(disc, text(name), 0).number);
}

/* The file is put on the disc by hand, not by a save. */
static void module_of(size_t length, unsigned start, unsigned page,
                      unsigned sectors)
{
    struct disc disc;
    struct module module;

    module.page = page;
    module.start = start;
    module.transfer = 0xABCD;
    module.length = length;
    make_blank(&disc, 40, "PIECES   ");
    put_module(&disc, 0, module);
    put_entry(&disc, place(0, 4), 0, "X        ", sectors, place(0, 7),
              free_place(sectors - 1));
    put_free_pointer(&disc, free_place(sectors));
    put_counts(&disc, of_kind(398, 358) - sectors, sectors);
    reads_as(&disc, "X", module);
}

static void worked_example(void)
{
    struct disc disc;

    make_pieces(&disc);
    reads_as(&disc, "THU.PCS", module_at_2000(300));
    EXPECT_NUMBER(0x212B, try_read(&disc, text("THU.PCS"), 300).end);
    EXPECT_NUMBER(4, try_read(&disc, text("THU"), 300).number);
    EXPECT_NUMBER(4, try_read(&disc, text("FRI.PCS"), 300).number);
}

/* THU.PCS with one byte of its sectors, the 1st and the 2nd, changed. */
static tandos_reading read_changed(unsigned sector, unsigned byte,
                                   unsigned value)
{
    struct disc disc;

    make_pieces(&disc);
    *at(&disc, free_place(sector - 1), byte) = (uint8_t)value;
    EXPECT_NUMBER(0, try_check(&disc).rule);
    return try_read(&disc, text("THU.PCS"), 65536);
}

static void no_load_module(void)
{
    EXPECT_NUMBER(9, read_changed(1, 2, 0xFE).number);
    EXPECT_NUMBER(9, read_changed(1, 3, 8).number);
    EXPECT_NUMBER(9, read_changed(1, 3, 0x80).number);
    EXPECT_NUMBER(9, read_changed(1, 4, 1).number);
    EXPECT_NUMBER(9, read_changed(1, 5, 0x21).number);
    EXPECT_NUMBER(9, read_changed(1, 5, 0x22).number);
    EXPECT_NUMBER(9, read_changed(1, 6, 0x2C).number);
    EXPECT_NUMBER(9, read_changed(1, 7, 0x1F).number);
    EXPECT_NUMBER(9, read_changed(1, 7, 0xFF).number);
    EXPECT_NUMBER(9, read_changed(1, 10, 0xF4).number);
    EXPECT_NUMBER(9, read_changed(1, 10, 0xF6).number);
    EXPECT_NUMBER(9, read_changed(2, 2, 54).number);
    EXPECT_NUMBER(9, read_changed(2, 2, 56).number);
    EXPECT_NUMBER(9, read_changed(2, 2, 253).number);
    EXPECT_NUMBER(9, read_changed(2, 3 + 55, 1).number);
    EXPECT_NUMBER(9, read_changed(2, 255, 1).number);
}

/* Bytes that may be anything, and a track byte beside an end link. */
static void still_a_load_module(void)
{
    EXPECT_NUMBER(7, read_changed(1, 3, 7).page);
    EXPECT_NUMBER(0x20FF, read_changed(1, 8, 0xFF).transfer);
    EXPECT_NUMBER(0xFF00, read_changed(1, 9, 0xFF).transfer);
    EXPECT_NUMBER(300, read_changed(1, 11, 0xEE).length);
    EXPECT_NUMBER(0xEE, answer[0]);
    EXPECT_NUMBER(0, read_changed(2, 3 + 54, 0xEE).number);
    EXPECT_NUMBER(0xEE, answer[299]);
    EXPECT_NUMBER(0, read_changed(2, 0, 77).number);
}

/* A file that holds zeros only is sound, but no load module. */
static void file_of_zeros(void)
{
    struct disc disc;

    make_blank(&disc, 1, "ZEROS    ");
    put_entry(&disc, place(0, 4), 0, "X        ", 1, place(0, 7), place(0, 7));
    put_link(&disc, place(0, 7), place(0, 0));
    put_free_pointer(&disc, free_place(1));
    put_counts(&disc, of_kind(7, 6), 1);
    EXPECT_NUMBER(0, try_check(&disc).rule);
    EXPECT_NUMBER(9, try_read(&disc, text("X"), 65536).number);
    EXPECT_NUMBER(9, try_read(&disc, text("X"), 0).number);
}

void test_read(void)
{
    worked_example();
    module_of(1, 0xFFFF, 7, 1);
    module_of(245, 0x2000, 3, 1);
    module_of(246, 0x2000, 0, 2);
    module_of(498, 0x2000, 0, 2);
    module_of(499, 0x2000, 0, 3);
    module_of(65536, 0, 5, 260);
    no_load_module();
    still_a_load_module();
    file_of_zeros();
}
