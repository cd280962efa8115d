#include "calls.h"

#include <stdio.h>
#include <string.h>

#include "lent.h"
#include "repairs.h"
#include "report.h"

struct stated stated = { TANDOS_TEN, TANDOS_PLAIN };
uint8_t answer[BUFFER_MAX];

void use_kind(uint32_t sectors, uint32_t arrangement)
{
    disc_sectors = sectors;
    stated.sectors = sectors;
    stated.arrangement = arrangement;
}

struct text text(const char *characters)
{
    return bytes((const uint8_t *)characters, strlen(characters));
}

struct text bytes(const uint8_t *bytes, size_t length)
{
    struct text text;

    text.bytes = bytes;
    text.length = length;
    return text;
}

/* The buffer's bytes before the call: neither zeros nor what a call writes. */
static struct lent lend_buffer(size_t length)
{
    size_t i;

    for (i = 0; i < BUFFER_MAX; i++)
        answer[i] = (uint8_t)(0x5A + 3 * i);
    return lend(answer, length);
}

static void take_buffer(const char *what, struct lent *buffer, size_t written)
{
    memcpy(answer, buffer->bytes, buffer->length);
    expect_kept_beyond(written, what, buffer);
}

tandos_checked try_check(const struct disc *disc)
{
    struct lent image = lend_disc(disc);
    tandos_checked checked = tandos_check(ON(image));

    expect_kept_beyond(0, "image after check", &image);
    if (checked.number != TANDOS_DONE)
        EXPECT_NUMBER(0, checked.rule);
    return checked;
}

tandos_filled try_list(const struct disc *disc, size_t buffer_len)
{
    struct lent image = lend_disc(disc);
    struct lent buffer = lend_buffer(buffer_len);
    tandos_filled listed = tandos_list(ON(image), buffer.bytes, buffer.length);

    expect_kept_beyond(0, "image after list", &image);
    take_buffer("buffer after list", &buffer,
                listed.number == TANDOS_DONE ? listed.length : 0);
    if (listed.number != TANDOS_DONE)
        EXPECT_NUMBER(0, listed.length);
    return listed;
}

static void expect_zeros(const tandos_reading *reading)
{
    EXPECT_NUMBER(0, reading->page);
    EXPECT_NUMBER(0, reading->start);
    EXPECT_NUMBER(0, reading->end);
    EXPECT_NUMBER(0, reading->transfer);
    EXPECT_NUMBER(0, reading->length);
}

tandos_reading try_read(const struct disc *disc, struct text name,
                        size_t buffer_len)
{
    struct lent image = lend_disc(disc);
    struct lent typed = lend_text(name);
    struct lent buffer = lend_buffer(buffer_len);
    tandos_reading reading =
        tandos_read(ON(image), typed.bytes, typed.length, buffer.bytes,
                    buffer.length);

    expect_kept_beyond(0, "image after read", &image);
    expect_kept_beyond(0, "name after read", &typed);
    take_buffer("buffer after read", &buffer,
                reading.number == TANDOS_DONE ? reading.length : 0);
    if (reading.number != TANDOS_DONE)
        expect_zeros(&reading);
    return reading;
}

static uint32_t repair_once(struct disc *disc)
{
    struct lent image = lend_disc(disc);
    uint32_t number = tandos_repair(ON(image));

    take_back("image after repair", disc, &image, number);
    return number;
}

uint32_t try_repair(struct disc *disc)
{
    struct disc expected = *disc;
    uint32_t number = repair_once(disc);

    if (number != TANDOS_DONE)
        return number;
    make_repaired(&expected);
    expect_disc("disc after repair", &expected, disc);
    EXPECT_NUMBER(0, try_check(disc).rule);
    EXPECT_NUMBER(0, repair_once(disc));
    expect_disc("disc repaired twice", &expected, disc);
    return number;
}

uint32_t try_blank(struct disc *disc, struct text name)
{
    struct lent image = lend_disc(disc);
    struct lent typed = lend_text(name);
    uint32_t number = tandos_blank(ON(image), typed.bytes, typed.length);

    take_back("image after blank", disc, &image, number);
    expect_kept_beyond(0, "name after blank", &typed);
    return number;
}

uint32_t try_view_number(const struct disc *disc, uint32_t track,
                         uint32_t sector)
{
    struct lent image = lend_disc(disc);
    uint32_t number = tandos_view_number(ON(image), track, sector);
    uint32_t start = tandos_view_start(ON(image), track, sector);
    const uint8_t *view = tandos_view(ON(image), track, sector);

    EXPECT_NUMBER(number == TANDOS_DONE, start != 0);
    EXPECT_NUMBER(number == TANDOS_DONE, view != NULL);
    if (view != NULL)
        EXPECT_NUMBER(start, (size_t)(view - image.bytes));
    expect_kept_beyond(0, "image after view", &image);
    return number;
}

uint32_t try_add_sheet(uint32_t *totals, size_t count, struct text sheet)
{
    struct lent table = lend((uint8_t *)totals, count * sizeof totals[0]);
    struct lent records = lend_text(sheet);
    uint32_t number =
        tandos_add_sheet((uint32_t *)(void *)table.bytes, count, records.bytes,
                         records.length);

    if (count > 0)
        memcpy(totals, table.bytes, table.length);
    expect_kept_beyond(number == TANDOS_DONE ? table.length : 0,
                       "totals after add_sheet", &table);
    expect_kept_beyond(0, "sheet after add_sheet", &records);
    return number;
}

uint32_t save_at_2000(struct disc *disc, const char *name, struct text sheet)
{
    return try_save(disc, text(name), 0, 0x2000, 0x2000, sheet);
}

void expect_disc(const char *what, const struct disc *expected,
                 const struct disc *found)
{
    EXPECT_NUMBER(expected->length, found->length);
    expect_bytes(what, expected->bytes, found->bytes, expected->length);
}

uint32_t try_step(struct disc *disc, unsigned step)
{
    char name[8], other[8];

    sprintf(name, "F%u", step * 7 % 23);
    sprintf(other, "F%u", step * 11 % 23);
    switch (step % 9) {
    case 0: case 1: case 2: case 3:
        return save_at_2000(disc, name, bytes(sheet, 1 + step * 97 % 800));
    case 4: return try_delete(disc, text(name));
    case 5: return try_rename(disc, text(name), text(other));
    case 6: return try_protect(disc, text(name), step % 18 < 9);
    case 7: return try_read(disc, text(name), BUFFER_MAX).number;
    default: return try_list(disc, 9752).number;
    }
}

/* The arguments of one call each, of every call. */
struct arguments {
    const char *name, *new_name, *disc_name;
    uint32_t page, track, sector;
    size_t sheet_len, list_len, read_len;
    struct text writes;
};

/* 0/1 becomes zeros, then the end; without its last byte no list. */
static const uint8_t write_of_0_1[260] = { 3, 0, 1 };

static void expect_1_of_all(struct disc *disc, const struct arguments *given)
{
    struct disc expected = *disc;
    struct text name = text(given->name), new_name = text(given->new_name);

    EXPECT_NUMBER(1, try_check(disc).number);
    EXPECT_NUMBER(1, try_list(disc, given->list_len).number);
    EXPECT_NUMBER(1, try_read(disc, name, given->read_len).number);
    EXPECT_NUMBER(1, try_save(disc, new_name, given->page, 0, 0,
                              bytes(sheet, given->sheet_len)));
    EXPECT_NUMBER(1, try_delete(disc, name));
    EXPECT_NUMBER(1, try_rename(disc, name, new_name));
    EXPECT_NUMBER(1, try_protect(disc, name, 1));
    EXPECT_NUMBER(1, try_replay(disc, given->writes));
    EXPECT_NUMBER(1, try_repair(disc));
    EXPECT_NUMBER(1, try_blank(disc, text(given->disc_name)));
    EXPECT_NUMBER(1, try_view_number(disc, given->track, given->sector));
    expect_disc("disc after refusals", &expected, disc);
}

void expect_refused_1(struct disc *disc)
{
    static const struct arguments right = {
        .name = "A", .new_name = "C", .disc_name = "DISC", .sector = 1,
        .sheet_len = 1, .list_len = 9752, .read_len = 245,
        .writes = { write_of_0_1, sizeof write_of_0_1 }
    };

    expect_1_of_all(disc, &right);
}

void expect_refused_1_first(struct disc *disc)
{
    static const struct arguments wrong = {
        .name = "X.", .new_name = "X.", .disc_name = "A.B", .page = 8,
        .track = 255, .sector = 11, .writes = { write_of_0_1, 259 }
    };

    expect_1_of_all(disc, &wrong);
}
