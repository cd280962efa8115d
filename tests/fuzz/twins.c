#include "twins.h"

#include <string.h>

#include "counters.h"
#include "finding.h"
#include "promises.h"

static struct image twin;

/* What stood in `answer` before the twin's answer. */
static uint8_t first_answer[BUFFER_MOST];

/* 0 if there is no twin. */
static int begin_twin(const struct image *image)
{
    enum kind kind = kind_of(image->stated);

    if (kind != KIND_PLAIN && kind != KIND_MOVED)
        return 0;
    rearrange(&twin, image);
    count_as_twin(1);
    return 1;
}

static struct lent lend_twin(void)
{
    return lend(twin.bytes, twin.length);
}

static void end_reading(struct lent *lent)
{
    give_back_kept(lent, twin.bytes, "a call that reads changes the twin");
    count_as_twin(0);
}

static void require_same_answer(size_t length)
{
    REQUIRE(memcmp(first_answer, answer, length) == 0,
            "the twin's buffer differs");
}

void twin_check(const struct image *image, tandos_checked checked)
{
    struct lent lent;
    tandos_checked found;

    if (!begin_twin(image))
        return;
    lent = lend_twin();
    found = call_check(&lent, twin.stated);
    REQUIRE_EQUAL(checked.number, found.number, "check of the twin");
    REQUIRE_EQUAL(checked.rule, found.rule, "rule of the twin");
    end_reading(&lent);
}

void twin_list(const struct image *image, tandos_filled listed,
               size_t buffer_length)
{
    struct lent lent;
    tandos_filled found;

    if (!begin_twin(image))
        return;
    memcpy(first_answer, answer, listed.length);
    lent = lend_twin();
    found = call_list(&lent, twin.stated, buffer_length);
    REQUIRE_EQUAL(listed.number, found.number, "list of the twin");
    REQUIRE_EQUAL(listed.length, found.length, "length of the twin's list");
    require_same_answer(listed.length);
    end_reading(&lent);
}

void twin_read(const struct image *image, const tandos_reading *reading,
               struct text name, size_t buffer_length)
{
    struct lent lent;
    tandos_reading found;

    if (!begin_twin(image))
        return;
    memcpy(first_answer, answer, reading->length);
    lent = lend_twin();
    found = call_read(&lent, twin.stated, name, buffer_length);
    REQUIRE(memcmp(reading, &found, sizeof found) == 0,
            "the twin's reading differs");
    require_same_answer(reading->length);
    end_reading(&lent);
}

void twin_view(const struct image *image, struct viewed viewed, uint32_t track,
               uint32_t sector)
{
    struct lent lent;
    struct viewed found;

    if (!begin_twin(image))
        return;
    lent = lend_twin();
    found = call_view(&lent, twin.stated, track, sector);
    REQUIRE_EQUAL(viewed.number, found.number, "view of the twin");
    if (viewed.number == TANDOS_DONE)
        REQUIRE(memcmp(viewed.bytes, found.bytes, TANDOS_VIEW_SIZE) == 0,
                "the twin's view differs");
    end_reading(&lent);
}

/* A refused call left the twin as it was: that is expected of each call. */
static void end_writing(struct change change, uint32_t found)
{
    static struct image expected;

    count_as_twin(0);
    REQUIRE_EQUAL(change.number, found, "number of the twin");
    if (found != TANDOS_DONE)
        return;
    rearrange(&expected, change.after);
    REQUIRE(memcmp(expected.bytes, twin.bytes, twin.length) == 0,
            "a call leaves another disc in the other arrangement");
}

static void end_listed(const struct listed_change *listed, tandos_filled found)
{
    static struct image old_twin;

    REQUIRE_EQUAL(listed->change.number, found.number, "number of the twin");
    REQUIRE_EQUAL(listed->writes.length, found.length,
                  "length of the twin's list of writes");
    if (found.number == TANDOS_DONE) {
        REQUIRE(memcmp(listed->writes.bytes, answer, found.length) == 0,
                "the twin's list of writes differs");
        rearrange(&old_twin, listed->change.before);
        require_replayed(&old_twin, &twin, listed->writes);
    }
    end_writing(listed->change, found.number);
}

void twin_save(struct listed_change listed, struct text name,
               const struct module *module)
{
    if (begin_twin(listed.change.before))
        end_listed(&listed,
                   call_save(&twin, name, module, listed.buffer_length));
}

void twin_delete(struct listed_change listed, struct text name)
{
    if (begin_twin(listed.change.before))
        end_listed(&listed, call_delete(&twin, name, listed.buffer_length));
}

void twin_rename(struct listed_change listed, struct text old_name,
                 struct text new_name)
{
    if (begin_twin(listed.change.before))
        end_listed(&listed, call_rename(&twin, old_name, new_name,
                                        listed.buffer_length));
}

void twin_protect(struct listed_change listed, struct text name, uint32_t on)
{
    if (begin_twin(listed.change.before))
        end_listed(&listed,
                   call_protect(&twin, name, on, listed.buffer_length));
}

void twin_replay(struct change change, struct text writes)
{
    if (begin_twin(change.before))
        end_writing(change, call_replay(&twin, writes));
}

void twin_repair(struct change change)
{
    if (begin_twin(change.before))
        end_writing(change, call_repair(&twin));
}

void twin_blank(struct change change, struct text name)
{
    if (begin_twin(change.before))
        end_writing(change, call_blank(&twin, name));
}
