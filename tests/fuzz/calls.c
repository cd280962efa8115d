#include "calls.h"

#include <string.h>

#include "counters.h"
#include "finding.h"

uint8_t answer[BUFFER_MOST];

/* A buffer's bytes before a call: neither zeros nor what a call writes, and
 * others where the buffer is longer or shorter. */
static const uint8_t *unwritten(size_t length)
{
    static uint8_t bytes[BUFFER_MOST + 256];
    size_t i;

    if (bytes[0] == 0)
        for (i = 0; i < sizeof bytes; i++)
            bytes[i] = (uint8_t)(0x5B + 3 * i);
    return bytes + length % 256;
}

static struct lent lend_buffer(size_t length)
{
    /* An empty buffer may be lent as NULL. */
    return lend(length == 0 ? NULL : unwritten(length), length);
}

static struct lent lend_text(struct text text)
{
    return lend(text.bytes, text.length);
}

static tandos_image disc_on(const struct lent *lent, struct stated stated)
{
    tandos_image image;

    image.bytes = lent->bytes;
    image.length = lent->length;
    image.sectors = stated.sectors;
    image.arrangement = stated.arrangement;
    return image;
}

static void take_buffer(struct lent *buffer, size_t written, const char *what)
{
    require_kept(buffer, unwritten(buffer->length), written, what);
    if (written > 0)
        memcpy(answer, buffer->bytes, written);
    give_back(buffer);
}

/* Takes the image over that an accepted call left; a refused one leaves all. */
static void take_image(struct image *image, struct lent *lent, uint32_t number,
                       const char *what)
{
    int is_done = number == TANDOS_DONE;

    require_kept(lent, image->bytes, is_done ? image->length : 0, what);
    if (is_done)
        memcpy(image->bytes, lent->bytes, image->length);
    give_back(lent);
}

/* Records in their buffer; none with a refusal. */
static void take_filled(struct lent *buffer, tandos_filled filled,
                        const char *what)
{
    if (filled.number != TANDOS_DONE)
        REQUIRE_EQUAL(0, filled.length, "length with a refusal");
    take_buffer(buffer, filled.length, what);
}

tandos_checked call_check(const struct lent *image, struct stated stated)
{
    tandos_image disc = disc_on(image, stated);
    tandos_checked checked = tandos_check(TANDOS_ON(disc));

    count_answer(CALL_CHECK, stated, checked.number);
    if (checked.number == TANDOS_DONE)
        count_rule(stated, checked.rule);
    else
        REQUIRE_EQUAL(0, checked.rule, "rule of a refused check");
    return checked;
}

tandos_filled call_list(const struct lent *image, struct stated stated,
                        size_t buffer_length)
{
    tandos_image disc = disc_on(image, stated);
    struct lent buffer = lend_buffer(buffer_length);
    tandos_filled listed = tandos_list(TANDOS_ON(disc), buffer.bytes,
                                       buffer.length);

    count_answer(CALL_LIST, stated, listed.number);
    take_filled(&buffer, listed, "list writes beside its records");
    return listed;
}

tandos_reading call_read(const struct lent *image, struct stated stated,
                         struct text name, size_t buffer_length)
{
    tandos_image disc = disc_on(image, stated);
    struct lent typed = lend_text(name);
    struct lent buffer = lend_buffer(buffer_length);
    tandos_reading reading =
        tandos_read(TANDOS_ON(disc), typed.bytes, typed.length, buffer.bytes,
                    buffer.length);

    count_answer(CALL_READ, stated, reading.number);
    if (reading.number != TANDOS_DONE)
        REQUIRE((reading.page | reading.start | reading.end |
                 reading.transfer | reading.length) == 0,
                "a refused read has a number that isn't 0");
    give_back_kept(&typed, name.bytes, "read changes the name");
    take_buffer(&buffer, reading.length, "read writes beside its bytes");
    return reading;
}

struct viewed call_view(const struct lent *image, struct stated stated,
                        uint32_t track, uint32_t sector)
{
    tandos_image disc = disc_on(image, stated);
    struct viewed viewed;
    uint32_t start = tandos_view_start(TANDOS_ON(disc), track, sector);

    viewed.number = tandos_view_number(TANDOS_ON(disc), track, sector);
    viewed.bytes = tandos_view(TANDOS_ON(disc), track, sector);
    count_answer(CALL_VIEW, stated, viewed.number);
    if (viewed.number != TANDOS_DONE) {
        REQUIRE(viewed.bytes == NULL, "a refused view isn't empty");
        REQUIRE_EQUAL(0, start, "start of a refused view");
    } else {
        REQUIRE_EQUAL(sector_start(stated, track, sector) + TANDOS_LINK_SIZE,
                      start, "start of a view");
        REQUIRE(viewed.bytes == image->bytes + start,
                "the view isn't where the sector's bytes lie");
    }
    return viewed;
}

tandos_filled call_save(struct image *image, struct text name,
                        const struct module *module, size_t buffer_length)
{
    struct lent lent = lend(image->bytes, image->length);
    tandos_image disc = disc_on(&lent, image->stated);
    struct lent typed = lend_text(name);
    struct lent sheet = lend_text(module->sheet);
    struct lent buffer = lend_buffer(buffer_length);
    tandos_filled filled =
        tandos_save(TANDOS_ON(disc), typed.bytes, typed.length, module->page,
                    module->start, module->transfer, sheet.bytes,
                    sheet.length, buffer.bytes, buffer.length);

    count_answer(CALL_SAVE, image->stated, filled.number);
    take_image(image, &lent, filled.number, "image after a refused save");
    take_filled(&buffer, filled, "save writes beside its list");
    give_back_kept(&typed, name.bytes, "save changes the name");
    give_back_kept(&sheet, module->sheet.bytes, "save changes the sheet");
    return filled;
}

tandos_filled call_delete(struct image *image, struct text name,
                          size_t buffer_length)
{
    struct lent lent = lend(image->bytes, image->length);
    tandos_image disc = disc_on(&lent, image->stated);
    struct lent typed = lend_text(name);
    struct lent buffer = lend_buffer(buffer_length);
    tandos_filled filled = tandos_delete(TANDOS_ON(disc), typed.bytes,
                                         typed.length, buffer.bytes,
                                         buffer.length);

    count_answer(CALL_DELETE, image->stated, filled.number);
    take_image(image, &lent, filled.number, "image after a refused delete");
    take_filled(&buffer, filled, "delete writes beside its list");
    give_back_kept(&typed, name.bytes, "delete changes the name");
    return filled;
}

tandos_filled call_rename(struct image *image, struct text old_name,
                          struct text new_name, size_t buffer_length)
{
    struct lent lent = lend(image->bytes, image->length);
    tandos_image disc = disc_on(&lent, image->stated);
    struct lent old_typed = lend_text(old_name);
    struct lent new_typed = lend_text(new_name);
    struct lent buffer = lend_buffer(buffer_length);
    tandos_filled filled =
        tandos_rename(TANDOS_ON(disc), old_typed.bytes, old_typed.length,
                      new_typed.bytes, new_typed.length, buffer.bytes,
                      buffer.length);

    count_answer(CALL_RENAME, image->stated, filled.number);
    take_image(image, &lent, filled.number, "image after a refused rename");
    take_filled(&buffer, filled, "rename writes beside its list");
    give_back_kept(&old_typed, old_name.bytes, "rename changes the old name");
    give_back_kept(&new_typed, new_name.bytes, "rename changes the new name");
    return filled;
}

tandos_filled call_protect(struct image *image, struct text name, uint32_t on,
                           size_t buffer_length)
{
    struct lent lent = lend(image->bytes, image->length);
    tandos_image disc = disc_on(&lent, image->stated);
    struct lent typed = lend_text(name);
    struct lent buffer = lend_buffer(buffer_length);
    tandos_filled filled = tandos_protect(TANDOS_ON(disc), typed.bytes,
                                          typed.length, on, buffer.bytes,
                                          buffer.length);

    count_answer(CALL_PROTECT, image->stated, filled.number);
    take_image(image, &lent, filled.number, "image after a refused protect");
    take_filled(&buffer, filled, "protect writes beside its list");
    give_back_kept(&typed, name.bytes, "protect changes the name");
    return filled;
}

uint32_t call_replay(struct image *image, struct text writes)
{
    struct lent lent = lend(image->bytes, image->length);
    tandos_image disc = disc_on(&lent, image->stated);
    struct lent list = lend_text(writes);
    uint32_t number = tandos_replay(TANDOS_ON(disc), list.bytes, list.length);

    count_answer(CALL_REPLAY, image->stated, number);
    take_image(image, &lent, number, "image after a refused replay");
    give_back_kept(&list, writes.bytes, "replay changes the list");
    return number;
}

uint32_t call_repair(struct image *image)
{
    struct lent lent = lend(image->bytes, image->length);
    tandos_image disc = disc_on(&lent, image->stated);
    uint32_t number = tandos_repair(TANDOS_ON(disc));

    count_answer(CALL_REPAIR, image->stated, number);
    take_image(image, &lent, number, "image after a refused repair");
    return number;
}

uint32_t call_blank(struct image *image, struct text name)
{
    struct lent lent = lend(image->bytes, image->length);
    tandos_image disc = disc_on(&lent, image->stated);
    struct lent typed = lend_text(name);
    uint32_t number = tandos_blank(TANDOS_ON(disc), typed.bytes, typed.length);

    count_answer(CALL_BLANK, image->stated, number);
    take_image(image, &lent, number, "image after a refused blank");
    give_back_kept(&typed, name.bytes, "blank changes the name");
    return number;
}

uint32_t call_add_sheet(struct totals *totals, struct text sheet)
{
    const uint8_t *each = (const uint8_t *)totals->each;
    size_t length = totals->count * sizeof totals->each[0];
    /* An empty table may be lent as NULL. */
    struct lent table = lend(length == 0 ? NULL : each, length);
    struct lent records = lend_text(sheet);
    uint32_t number =
        tandos_add_sheet((uint32_t *)(void *)table.bytes, totals->count,
                         records.bytes, records.length);
    int is_done = number == TANDOS_DONE;

    count_sheet_answer(number);
    require_kept(&table, each, is_done ? length : 0,
                 "totals after a refused sheet");
    if (is_done && length > 0)
        memcpy(totals->each, table.bytes, length);
    give_back(&table);
    give_back_kept(&records, sheet.bytes, "adding up changes the sheet");
    return number;
}
