/* The arrangement stated: numbers that are none, the moved form of a disc, and
 * a run of commands on both forms at once. */
#include <string.h>

#include "calls.h"
#include "report.h"
#include "tests.h"

/* Cut to fewer bits, some of these would be 0 or 1. */
static void no_arrangement(void)
{
    static const uint32_t numbers[] = {
        2, 3, 10, 255, 256, 257, 0x10000, 0x10001, 0x80000000, 0x80000001,
        0xFFFFFFFE, 0xFFFFFFFF
    };
    struct disc disc;
    size_t i;

    for (i = 0; i < sizeof numbers / sizeof numbers[0]; i++) {
        stated.arrangement = numbers[i];
        make_small(&disc);
        expect_refused_1(&disc);
        make_unsound(&disc);
        expect_refused_1_first(&disc);
    }
}

/* The blank disc of two tracks, moved: position for position, by hand. 0/4, the
 * directory, and every other byte but these are zeros. Without its links a
 * repair makes it again. */
static void moved_blank(void)
{
    static const struct {
        unsigned position;
        uint8_t link[2];
    } links[] = {
        { 512, { 0, 10 } }, { 768, { 0, 3 } }, { 1024, { 0, 6 } },
        { 1280, { 0, 9 } }, { 1536, { 0, 2 } }, { 1792, { 0, 5 } },
        { 2048, { 0, 8 } }, { 2304, { 1, 1 } }, { 2560, { 1, 4 } },
        { 2816, { 1, 7 } }, { 3072, { 1, 10 } }, { 3328, { 1, 3 } },
        { 3584, { 1, 6 } }, { 3840, { 1, 9 } }, { 4096, { 1, 2 } },
        { 4352, { 1, 5 } }, { 4608, { 1, 8 } }
    };
    static uint8_t expected[5120], image[5120];
    size_t i;

    memcpy(expected + 0x10, "\x07\0\x04\0\x12\0\0\0PIECES   ", 17);
    memcpy(expected + 0x40, "TANDOS 65 IMAGE 1", 17);
    for (i = 0; i < sizeof links / sizeof links[0]; i++)
        memcpy(expected + links[i].position, links[i].link, 2);
    memset(image, 0xEE, sizeof image);
    EXPECT_NUMBER(0, tandos_blank(image, sizeof image, TANDOS_TEN,
                                  TANDOS_MOVED, TANDOS_TEXT("PIECES")));
    expect_bytes("moved blank disc", expected, image, sizeof image);
    for (i = 0; i < sizeof links / sizeof links[0]; i++)
        memset(image + links[i].position, 0xEE, 2);
    EXPECT_NUMBER(0, tandos_repair(image, sizeof image, TANDOS_TEN,
                                   TANDOS_MOVED));
    expect_bytes("moved blank disc repaired", expected, image, sizeof image);
}

/* A disc lent in the arrangement in which it is not. */
static void misstated(void)
{
    static uint8_t image[40 * 2560], before[40 * 2560];
    uint32_t other =
        stated.arrangement == TANDOS_PLAIN ? TANDOS_MOVED : TANDOS_PLAIN;
    uint8_t writes[TANDOS_DELETE_WRITES_SIZE];
    struct text name = text("THU.PCS");
    struct disc disc;

    make_pieces(&disc);
    arrange(before, disc.bytes, sizeof before, other);
    memcpy(image, before, sizeof image);
    EXPECT_NUMBER(0, tandos_check(image, sizeof image, TANDOS_TEN, other).rule);
    EXPECT_NUMBER(0, tandos_check(image, sizeof image, STATED).number);
    EXPECT_NUMBER(1, tandos_check(image, sizeof image, STATED).rule != 0);
    EXPECT_NUMBER(3, tandos_delete(image, sizeof image, STATED, name.bytes,
                                   name.length, writes, sizeof writes).number);
    expect_bytes("image after the refusal", before, image, sizeof image);
    EXPECT_NUMBER(0, tandos_delete(image, sizeof image, TANDOS_TEN, other,
                                   name.bytes, name.length, writes,
                                   sizeof writes).number);
}

/* A repair believes what is stated. The moved disc stated as plain breaks rule
 * 3. The plain one stated as moved has an empty directory there, so that rules
 * 1 to 5 hold: the repair is done, and the file is lost. */
static void misstated_repair(void)
{
    static uint8_t image[40 * 2560];
    int is_plain = stated.arrangement == TANDOS_PLAIN;
    struct disc disc;

    make_pieces(&disc);
    arrange(image, disc.bytes, sizeof image,
            is_plain ? TANDOS_MOVED : TANDOS_PLAIN);
    arrange_back(disc.bytes, image, sizeof image, stated.arrangement);
    EXPECT_NUMBER(is_plain ? 3 : 6, try_check(&disc).rule);
    EXPECT_NUMBER(is_plain ? 3 : 0, try_repair(&disc));
    EXPECT_NUMBER(is_plain ? 3 : 4,
                  try_read(&disc, text("THU.PCS"), 300).number);
}

/* Number, image, list of writes, and what a read or list left in its buffer. */
static void compare_step(struct disc *plain, struct disc *moved, unsigned step)
{
    static uint8_t plain_answer[BUFFER_MAX];
    static struct writes plain_writes;
    uint32_t number;

    stated.arrangement = TANDOS_PLAIN;
    number = try_step(plain, step);
    memcpy(plain_answer, answer, sizeof answer);
    plain_writes = written;
    stated.arrangement = TANDOS_MOVED;
    EXPECT_NUMBER(number, try_step(moved, step));
    expect_bytes("answer of the run", plain_answer, answer, sizeof answer);
    expect_writes("list of the run", &plain_writes, &written);
    expect_disc("disc of the run", plain, moved);
    EXPECT_NUMBER(0, try_check(moved).rule);
}

static void run_on_both(void)
{
    struct disc plain, moved;
    unsigned step;

    make_blank(&plain, 4, "RUN      ");
    moved = plain;
    for (step = 0; step < 200; step++)
        compare_step(&plain, &moved, step);
}

void test_arrangement(void)
{
    /* Only discs of ten sectors a track have a moved form. */
    if (disc_sectors == TANDOS_TEN) {
        misstated();
        misstated_repair();
        moved_blank();
        run_on_both();
    }
    no_arrangement();
}
