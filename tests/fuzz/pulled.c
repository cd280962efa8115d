#include "pulled.h"

#include <string.h>

#include "counters.h"
#include "finding.h"
#include "repairs.h"
#include "twins.h"
#include "writes.h"

static struct state promised;
static int is_promise;

/* The first writes of the list, and an end. */
static struct text first_writes(struct text writes, size_t count)
{
    static uint8_t bytes[BUFFER_MOST];
    struct text list = { bytes, TANDOS_WRITES_SIZE(count) };

    memcpy(bytes, writes.bytes, list.length - 1);
    bytes[list.length - 1] = TANDOS_WRITES_END;
    return list;
}

/* By hand; a replay has to leave the same. */
static void write_card(struct image *card, const struct image *before,
                       struct text writes)
{
    struct change change = { before, card, TANDOS_DONE };

    copy_image(card, before);
    REQUIRE_EQUAL(TANDOS_DONE, expected_replay(card, writes),
                  "the first writes of a command are no list");
    require_replayed(before, card, writes);
    twin_replay(change, writes);
}

static int is_done(const struct cut *cut, size_t count, size_t records)
{
    return cut->command == CUT_SAVE ? count == records : count > 0;
}

static enum cut_occasion save_occasion(const struct cut *cut, size_t count,
                                       size_t records)
{
    if (count == 0)
        return CUT_SAVE_NONE;
    if (count == records)
        return CUT_SAVE_WHOLE;
    if (count == 1)
        return CUT_SAVE_SYSTEM;
    if (count < records - 1)
        return CUT_SAVE_FILE;
    return cut->before->state.directory_sectors <
                   cut->after->state.directory_sectors
               ? CUT_SAVE_UNLINKED : CUT_SAVE_NO_ENTRY;
}

static void count_cut(const struct cut *cut, size_t count, size_t records)
{
    static const enum cut_occasion none[CUT_COMMANDS] = {
        [CUT_DELETE] = CUT_DELETE_NONE, [CUT_RENAME] = CUT_RENAME_NONE,
        [CUT_PROTECT] = CUT_PROTECT_NONE
    };
    enum cut_occasion occasion =
        cut->command == CUT_SAVE
            ? save_occasion(cut, count, records)
            : (enum cut_occasion)(none[cut->command] + count);

    count_cut_occasion(cut->before->image.stated, occasion);
}

/* The state of a copy of the card that is repaired. */
static void require_repaired(const struct image *card)
{
    static struct moment repaired;

    copy_image(&repaired.image, card);
    REQUIRE_EQUAL(TANDOS_DONE, repair(&repaired.image),
                  "repair of a card that was pulled");
    look(&repaired.image, &repaired.state);
    require_promised(&repaired);
}

void pull_card(struct image *card, const struct cut *cut, size_t count)
{
    size_t records = cut->writes.length / TANDOS_WRITE_RECORD_SIZE;

    count %= records + 1;
    copy_state(&promised, is_done(cut, count, records) ? &cut->after->state
                                                       : &cut->before->state);
    is_promise = 1;
    count_cut(cut, count, records);
    write_card(card, &cut->before->image, first_writes(cut->writes, count));
    require_repaired(card);
}

int is_promised(void)
{
    return is_promise;
}

void require_promised(const struct moment *now)
{
    if (!is_promise)
        return;
    REQUIRE(now->state.is_sound, "a repaired card isn't sound");
    require_same_state(&promised, &now->state);
}

void repair_promised(const struct moment *now)
{
    require_promised(now);
    if (is_promise)
        count_cut_occasion(now->image.stated, CUT_REPAIRED);
    end_promise();
}

void go_on_promised(const struct moment *now)
{
    if (!is_promise)
        return;
    copy_state(&promised, &now->state);
    count_cut_occasion(now->image.stated, CUT_GOES_ON);
}

void refuse_promised(const struct moment *now)
{
    if (is_promise)
        count_cut_occasion(now->image.stated, CUT_REFUSED);
}

void end_promise(void)
{
    is_promise = 0;
}
