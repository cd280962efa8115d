/* Commands that cancel, byte for byte: a save and next the delete of its file,
 * and two renames of a file in a row. */
#include <string.h>

#include "cancels.h"
#include "report.h"
#include "tests.h"

/* The disc with the file saved and deleted is `expected`, and `before` but for
 * what may differ. */
static void expect_cancelled(const struct disc *expected,
                             const struct disc *before, size_t length,
                             unsigned taken)
{
    struct disc disc = *before;

    EXPECT_NUMBER(0, save_at_2000(&disc, "NEW", bytes(sheet, length)));
    EXPECT_NUMBER(0, try_delete(&disc, text("NEW")));
    expect_disc("saved and deleted", expected, &disc);
    put_back(&disc, before, taken);
    expect_disc("saved and deleted, but for what may differ", before, &disc);
}

/* Bytes 2 to 255 of the sectors of a module at $2000. */
static void put_bodies(struct disc *disc, const struct place *places,
                       unsigned count, size_t length)
{
    struct disc source;
    unsigned i;

    make_blank(&source, 2, "SOURCE   ");
    put_module(&source, 0, module_at_2000(length));
    for (i = 0; i < count; i++)
        memcpy(at(disc, places[i], 2), at(&source, free_place(i), 2), 254);
}

/* Bytes that no command writes: in 0/1, behind the slots of 0/4, and the track
 * of its end link. */
static void put_marks(struct disc *disc)
{
    memset(disc->bytes, 0xA0, 0x10);
    memset(disc->bytes + 0x21, 0xA1, 0x1F);
    memset(disc->bytes + 0x60, 0xA2, 0xA0);
    memset(at(disc, place(0, 4), 243), 0xB0, 13);
    if (*at(disc, place(0, 4), 1) == 0)
        *at(disc, place(0, 4), 0) = 7;
}

/* The small disc with marks. Its free sectors, 5 or of nine 4 from the fourth
 * of the blank chain on, hold EE, and the end's track byte is 9. */
static unsigned make_marked(struct disc *disc, struct place *free_places)
{
    unsigned i, count = of_kind(5, 4);

    make_small(disc);
    put_marks(disc);
    for (i = 0; i < count; i++) {
        free_places[i] = free_place(3 + i);
        memset(at(disc, free_places[i], 2), 0xEE, 254);
    }
    *at(disc, free_places[count - 1], 0) = 9;
    return count;
}

/* All that is free. Each byte that may differ at the limits of what may does:
 * these are the module's $FF, its 245th byte, the last sector's length byte and
 * last byte, and the zero in the old end's link. */
static void to_the_end(void)
{
    struct place places[5];
    struct disc before, expected;
    unsigned count = make_marked(&before, places);
    size_t length = of_kind(1257, 1004);
    struct place last = places[count - 1];

    expected = before;
    put_bodies(&expected, places, count, length);
    *at(&expected, last, 0) = 0;
    EXPECT_NUMBER(0xFF, *at(&expected, places[0], 2));
    EXPECT_NUMBER(245, *at(&expected, places[0], 255));
    EXPECT_NUMBER(253, *at(&expected, last, 2));
    EXPECT_NUMBER(of_kind(2, 251), *at(&expected, last, 255));
    expect_cancelled(&expected, &before, length, count);
}

/* Not as far as the end, whose track byte stays. The file's last sector ends in
 * a zero. */
static void short_of_the_end(void)
{
    struct place places[5];
    struct disc before, expected;
    unsigned taken, count = make_marked(&before, places);

    for (taken = 1; taken < count; taken++) {
        size_t length = taken == 1 ? 1 : 245 + 253 * (taken - 2) + 1;

        expected = before;
        put_bodies(&expected, places, taken, length);
        EXPECT_NUMBER(0, *at(&expected, places[taken - 1], 255));
        EXPECT_NUMBER(9, *at(&expected, places[count - 1], 0));
        expect_cancelled(&expected, &before, length, taken);
    }
}

/* A blank disc that the file fills whole, the end with any track; then the only
 * free sector. */
static void full_discs(void)
{
    unsigned count = of_kind(8, 7);
    size_t length = of_kind(2016, 1763);
    struct place last = place(0, of_kind(8, 9));
    struct disc before, expected;

    make_blank(&before, 1, "FULL     ");
    *at(&before, last, 0) = 200;
    make_full(&expected);
    memset(at(&expected, place(0, 4), 2), 0, 17);
    put_free_pointer(&expected, place(0, 7));
    put_counts(&expected, count, 0);
    expect_cancelled(&expected, &before, length, count);
    EXPECT_NUMBER(0, save_at_2000(&before, "X", bytes(sheet, length - 253)));
    *at(&before, last, 0) = 1;
    expected = before;
    put_bodies(&expected, &last, 1, 245);
    *at(&expected, last, 0) = 0;
    expect_cancelled(&expected, &before, 245, 1);
}

/* The free chain of a blank disc the other way round: its sectors lie on two
 * tracks, and the file's first one behind its last. */
static void other_order(void)
{
    unsigned i, count = 2 * disc_sectors - 2;
    struct place places[18];
    struct disc before, expected;

    make_blank(&before, 2, "ORDER    ");
    put_marks(&before);
    for (i = 0; i < count; i++)
        places[i] = free_place(count - 1 - i);
    for (i = 0; i + 1 < count; i++)
        put_link(&before, places[i], places[i + 1]);
    put_link(&before, places[count - 1], place(77, 0));
    put_free_pointer(&before, places[0]);
    expected = before;
    put_bodies(&expected, places, 11, 245 + 9 * 253 + 1);
    expect_cancelled(&expected, &before, 245 + 9 * 253 + 1, 11);
    expected = before;
    put_bodies(&expected, places, count, 245 + 253 * ((size_t)count - 1));
    *at(&expected, places[count - 1], 0) = 0;
    expect_cancelled(&expected, &before, 245 + 253 * ((size_t)count - 1),
                     count);
}

/* A slot that was cleared in the first of two directory sectors is taken and
 * cleared again; with the first one full, the second one's next slot. */
static void slots(void)
{
    struct place taken = free_place(3), next = free_place(17);
    struct disc before, expected, disc;

    make_sixteen(&before);
    put_marks(&before);
    memset(at(&before, free_place(16), 243), 0xB1, 13);
    expected = before;
    put_bodies(&expected, &next, 1, 245);
    expect_cancelled(&expected, &before, 245, 1);
    EXPECT_NUMBER(0, try_delete(&before, text("F03")));
    disc = before;
    EXPECT_NUMBER(0, save_at_2000(&disc, "NEW", bytes(sheet, 245)));
    expect_bytes("slot", (const uint8_t *)"NEW      ",
                 at(&disc, place(0, 4), 3 + 16 * 3), 9);
    expected = before;
    put_bodies(&expected, &taken, 1, 245);
    expect_cancelled(&expected, &before, 245, 1);
}

/* Where the directory grows they do not cancel: it stays grown, and so 0/4's
 * link, the new sector, its place in the free chain and the free count
 * differ. */
static void growth(void)
{
    struct disc before, expected, disc;

    make_fifteen(&before);
    disc = before;
    make_sixteen(&expected);
    memset(at(&expected, free_place(16), 2), 0, 17);
    put_link(&expected, free_place(15), free_place(17));
    put_free_pointer(&expected, free_place(15));
    put_counts(&expected, of_kind(2, 9), 15);
    EXPECT_NUMBER(0, save_at_2000(&disc, "F15", bytes(sheet, 1)));
    EXPECT_NUMBER(0, try_delete(&disc, text("F15")));
    expect_disc("16th file saved and deleted", &expected, &disc);
    put_back(&disc, &before, 2);
    EXPECT_NUMBER(of_kind(3, 10), before.bytes[0x14]);
    EXPECT_NUMBER(of_kind(2, 9), disc.bytes[0x14]);
    EXPECT_NUMBER(0, *at(&before, place(0, 4), 1));
    EXPECT_NUMBER(of_kind(5, 1), *at(&disc, place(0, 4), 1));
}

/* A file in each of two directory sectors; names with and without an extension,
 * shorter and longer. By hand the nine bytes of the last. */
static void renames(void)
{
    static const char *const names[][3] = {
        { "F00", "LONGER.EXT", "X" }, { "F00", "X.Y", "LONGER.EXT" },
        { "F00", "LONGER.EXT", "F00" }, { "F00", "F0", "F00.X" },
        { "F15", "LONGER.EXT", "X" }, { "F15", "X.Y", "LONGER.EXT" },
        { "F15", "LONGER.EXT", "F15" }, { "F15", "F1", "F15.X" }
    };
    static const char *const stored[] = {
        "X        ", "LONGEREXT", "F00      ", "F00   X  ",
        "X        ", "LONGEREXT", "F15      ", "F15   X  "
    };
    struct disc start, disc, expected;
    size_t i;

    make_sixteen(&start);
    put_marks(&start);
    for (i = 0; i < sizeof names / sizeof names[0]; i++) {
        struct place directory = i < 4 ? place(0, 4) : free_place(16);

        expect_joined(&start, names[i], ENTRY_WRITES_SIZE);
        expect_joined(&start, names[i], WRITES_ROOM);
        disc = expected = start;
        memcpy(at(&expected, directory, 3), stored[i], 9);
        EXPECT_NUMBER(0, try_rename(&disc, text(names[i][0]),
                                    text(names[i][1])));
        EXPECT_NUMBER(0, try_rename(&disc, text(names[i][1]),
                                    text(names[i][2])));
        expect_disc("renamed twice", &expected, &disc);
    }
}

/* The second rename is refused, and the first one stands: the last name is the
 * file's own, or another's. A protected file is renamed neither time. */
static void refused_renames(void)
{
    struct disc disc, renamed;

    make_small(&disc);
    EXPECT_NUMBER(0, rename_lent(&disc, "A", "C", ENTRY_WRITES_SIZE));
    renamed = disc;
    EXPECT_NUMBER(5, rename_lent(&disc, "C", "C", ENTRY_WRITES_SIZE));
    EXPECT_NUMBER(5, rename_lent(&disc, "C", "B", ENTRY_WRITES_SIZE));
    EXPECT_NUMBER(10, rename_lent(&disc, "C", "A", ENTRY_WRITES_SIZE - 1));
    expect_disc("after a second rename that is refused", &renamed, &disc);
    make_small(&disc);
    *at(&disc, place(0, 4), 18) = 0x80;
    EXPECT_NUMBER(6, rename_lent(&disc, "A", "C", ENTRY_WRITES_SIZE));
    EXPECT_NUMBER(4, rename_lent(&disc, "C", "A", ENTRY_WRITES_SIZE));
}

void test_cancels(void)
{
    to_the_end();
    short_of_the_end();
    full_discs();
    other_order();
    slots();
    growth();
    renames();
    refused_renames();
}
