#include "run.h"

#include <string.h>

#include "cancels.h"
#include "counters.h"
#include "expected.h"
#include "finding.h"
#include "promises.h"
#include "pulled.h"
#include "repairs.h"
#include "replays.h"
#include "sheets.h"
#include "twins.h"
#include "writes.h"

/* More would slow each execution down and reach little that is new. */
#define COMMANDS_MOST 100
#define SAVES_MOST 20

/* Two moments, so that the one before a command is kept; too large for the
 * stack. */
static struct moment moments[2];
static struct moment *const now = &moments[0];
static struct moment *const before = &moments[1];
static int is_state_known;

/* The list that the last command gave; none if it was refused. */
static struct text given;

static void know_state(void)
{
    if (is_state_known)
        return;
    look(&now->image, &now->state);
    twin_check(&now->image, now->state.checked);
    is_state_known = 1;
}

/* Keeps the image, which a command may change. */
static void begin_command(void)
{
    know_state();
    copy_image(&before->image, &now->image);
}

/* What a command has done to the image, for its twin. */
static struct change change_by(uint32_t number)
{
    struct change change;

    change.before = &before->image;
    change.after = &now->image;
    change.number = number;
    return change;
}

/* The same for a command that gives its list of writes, which stands in
 * `answer` and is kept. `needed` is the list's length. */
static struct listed_change listed_by(tandos_filled filled,
                                      size_t buffer_length, size_t needed)
{
    struct listed_change listed = { change_by(filled.number), { NULL, 0 },
                                    buffer_length };

    if (filled.number == TANDOS_DONE)
        listed.writes = keep_list(filled.length);
    else if (filled.number == TANDOS_SHORT && buffer_length + 1 == needed)
        count_list_occasion(now->image.stated, SHORT_BY_ONE);
    if (filled.number == TANDOS_UNSOUND)
        refuse_promised(now);
    given = listed.writes;
    return listed;
}

/* Looks at the image that an accepted command left. */
static void end_command(void)
{
    copy_state(&before->state, &now->state);
    look(&now->image, &now->state);
    REQUIRE(now->state.is_sound, "an accepted command leaves no sound image");
    go_on_promised(now);
}

static void run_list(struct input *input)
{
    size_t files = now->state.file_count;
    size_t length = take_buffer_length(input, TANDOS_LIST_SIZE(files));
    struct lent lent = lend(now->image.bytes, now->image.length);
    tandos_filled listed = call_list(&lent, now->image.stated, length);

    REQUIRE_EQUAL(expected_list(&now->state, length), listed.number, "list");
    if (listed.number == TANDOS_DONE)
        REQUIRE_EQUAL(TANDOS_LIST_SIZE(files), listed.length, "length of list");
    give_back_kept(&lent, now->image.bytes, "list changes the image");
    twin_list(&now->image, listed, length);
}

static void run_read(struct input *input)
{
    uint8_t stored[TANDOS_NAME_SIZE];
    struct name name;
    const struct file *file = NULL;
    size_t length;
    struct lent lent = lend(now->image.bytes, now->image.length);
    tandos_reading reading;

    take_name(input, &name);
    if (store_name(name.text, stored))
        file = find(&now->state, stored);
    length = take_buffer_length(input, file == NULL ? 0 : file->reading.length);
    reading = call_read(&lent, now->image.stated, name.text, length);
    REQUIRE_EQUAL(expected_read(&now->state, name.text, length),
                  reading.number, "read");
    if (reading.number == TANDOS_DONE) {
        REQUIRE(memcmp(&file->reading, &reading, sizeof reading) == 0,
                "a file reads otherwise with another buffer");
        REQUIRE(file->hash == hash_of(answer, reading.length),
                "a file's bytes differ with another buffer");
    }
    give_back_kept(&lent, now->image.bytes, "read changes the image");
    twin_read(&now->image, &reading, name.text, length);
}

static void save(struct text name, const struct module *module,
                 size_t buffer_length)
{
    size_t needed = save_writes_length(&now->state, module->sheet.length);
    tandos_filled filled = call_save(&now->image, name, module, buffer_length);
    struct listed_change listed = listed_by(filled, buffer_length, needed);

    REQUIRE_EQUAL(expected_save(&now->state, name, module, buffer_length),
                  filled.number, "save");
    twin_save(listed, name, module);
    if (filled.number == TANDOS_DONE) {
        end_command();
        require_saved(before, now, name, module, listed.writes);
        require_save_cancels(before, now, name, module, buffer_length);
    }
}

static void run_save(struct input *input)
{
    struct name name;
    struct module module;

    take_name(input, &name);
    module.page = take_number(input);
    module.start = (uint16_t)take(input, 2);
    module.transfer = (uint16_t)take(input, 2);
    module.sheet = take_sheet(input);
    save(name.text, &module,
         take_buffer_length(input, save_writes_length(&now->state,
                                                      module.sheet.length)));
}

/* Few bytes of input for many files, so that directories of many sectors are
 * reached. Each buffer is just long enough. */
static void run_saves(struct input *input)
{
    unsigned count = take(input, 1) % SAVES_MOST;
    unsigned which = take(input, 1);
    struct module module = { 0, 0, 0, take_sheet(input) };

    for (; count > 0; count--) {
        struct name name;

        put_legal_name(&name, which++ % NAME_TYPED);
        begin_command();
        save(name.text, &module,
             save_writes_length(&now->state, module.sheet.length));
    }
}

static void run_delete(struct input *input)
{
    struct name name;
    size_t length;
    tandos_filled filled;
    struct listed_change listed;

    take_name(input, &name);
    length = take_buffer_length(input, TANDOS_DELETE_WRITES_SIZE);
    filled = call_delete(&now->image, name.text, length);
    listed = listed_by(filled, length, TANDOS_DELETE_WRITES_SIZE);
    REQUIRE_EQUAL(expected_delete(&now->state, name.text, length),
                  filled.number, "delete");
    twin_delete(listed, name.text);
    if (filled.number == TANDOS_DONE) {
        end_command();
        require_deleted(before, now, name.text, listed.writes);
    }
}

static void run_rename(struct input *input)
{
    struct name old_name, new_name, third_name;
    struct renames renames;
    size_t length;
    tandos_filled filled;
    struct listed_change listed;

    take_name(input, &old_name);
    take_name(input, &new_name);
    take_name(input, &third_name);
    length = take_buffer_length(input, TANDOS_ENTRY_WRITES_SIZE);
    filled = call_rename(&now->image, old_name.text, new_name.text, length);
    listed = listed_by(filled, length, TANDOS_ENTRY_WRITES_SIZE);
    REQUIRE_EQUAL(expected_rename(&now->state, old_name.text, new_name.text,
                                  length),
                  filled.number, "rename");
    twin_rename(listed, old_name.text, new_name.text);
    if (filled.number == TANDOS_DONE) {
        end_command();
        require_renamed(before, now, old_name.text, new_name.text,
                        listed.writes);
        renames.first = old_name.text;
        renames.second = new_name.text;
        renames.third = third_name.text;
        renames.buffer_length = length;
        require_renames_join(before, now, renames);
    }
}

static void run_protect(struct input *input)
{
    struct name name;
    uint32_t on;
    size_t length;
    tandos_filled filled;
    struct listed_change listed;

    take_name(input, &name);
    on = take_number(input);
    length = take_buffer_length(input, TANDOS_ENTRY_WRITES_SIZE);
    filled = call_protect(&now->image, name.text, on, length);
    listed = listed_by(filled, length, TANDOS_ENTRY_WRITES_SIZE);
    REQUIRE_EQUAL(expected_protect(&now->state, name.text, length),
                  filled.number, "protect");
    twin_protect(listed, name.text, on);
    if (filled.number == TANDOS_DONE) {
        end_command();
        require_protected(before, now, name.text, on, listed.writes);
    }
}

/* The disc is from here on whatever the list made of it. */
static void end_replay(void)
{
    int was_sound = now->state.is_sound;

    is_state_known = 0;
    know_state();
    if (was_sound && !now->state.is_sound)
        count_list_occasion(now->image.stated, LIST_BREAKS);
    if (!was_sound && now->state.is_sound)
        count_list_occasion(now->image.stated, LIST_MENDS);
}

static void run_replay(struct input *input)
{
    static struct image expected;
    struct text writes = take_list(input, &now->image);
    uint32_t number;

    copy_image(&expected, &now->image);
    number = expected_replay(&expected, writes);
    REQUIRE_EQUAL(number, call_replay(&now->image, writes), "replay");
    REQUIRE(memcmp(expected.bytes, now->image.bytes, expected.length) == 0,
            "a replay leaves another image");
    twin_replay(change_by(number), writes);
    if (number == TANDOS_DONE) {
        end_promise();
        end_replay();
    }
}

/* A repair counts as no change, and keeps what a cut promised. */
static void run_repair(struct input *input)
{
    (void)input;
    if (repair(&now->image) != TANDOS_DONE) {
        REQUIRE(!is_promised(), "the repair of a pulled card is refused");
        return;
    }
    copy_state(&before->state, &now->state);
    look(&now->image, &now->state);
    REQUIRE(now->state.is_sound, "a repair leaves no sound image");
    if (before->state.is_sound)
        require_same_state(&before->state, &now->state);
    repair_promised(now);
}

/* The command is done on the image, with all that is expected of it. Then the
 * card, which has its first writes alone, is the image. */
static void run_cut(struct input *input)
{
    static void (*const commands[CUT_COMMANDS])(struct input *) = {
        [CUT_SAVE] = run_save,
        [CUT_DELETE] = run_delete,
        [CUT_RENAME] = run_rename,
        [CUT_PROTECT] = run_protect
    };
    size_t writes = take(input, 2);
    struct cut cut = { (enum cut_command)(take(input, 1) % CUT_COMMANDS),
                       before, now, { NULL, 0 } };

    commands[cut.command](input);
    cut.writes = given;
    if (cut.writes.length == 0)
        return;
    pull_card(&now->image, &cut, writes);
    is_state_known = 0;
    know_state();
    if (now->state.is_sound)
        require_promised(now);
}

static void run_blank(struct input *input)
{
    struct name name;
    uint32_t number;

    take_name(input, &name);
    number = call_blank(&now->image, name.text);
    REQUIRE_EQUAL(expected_blank(&now->state, name.text), number, "blank");
    twin_blank(change_by(number), name.text);
    if (number == TANDOS_DONE) {
        end_promise();
        end_command();
        require_blank(now, name.text);
    }
}

static void run_view(struct input *input)
{
    uint32_t track = take_number(input);
    uint32_t sector = take_number(input);
    struct lent lent = lend(now->image.bytes, now->image.length);
    struct viewed viewed = call_view(&lent, now->image.stated, track, sector);

    REQUIRE_EQUAL(expected_view(&now->image, &now->state, track, sector),
                  viewed.number, "view");
    twin_view(&now->image, viewed, track, sector);
    give_back_kept(&lent, now->image.bytes, "view changes the image");
    if (now->state.is_image && track < tracks_of(&now->image) &&
        sector == sectors_of(now->image.stated) + 1)
        count_occasion(now->image.stated, SECTOR_ABOVE);
}

static void run_text(struct input *input)
{
    uint32_t number = take_number(input);
    int is_unknown = strcmp(tandos_refusal_name(number), "?") == 0;

    REQUIRE(is_unknown == (number > TANDOS_BAD_LIST), "name of a number");
    REQUIRE(strlen(tandos_refusal_text(number)) > 0, "text of a number");
    REQUIRE(strlen(tandos_rule_text(number)) > 0, "text of a rule");
}

/* Changes bytes of the sector of this number, as no command would. */
static void change_sector(size_t number, size_t byte, const uint8_t *values,
                          size_t count)
{
    size_t sectors = sectors_of(now->image.stated);
    size_t at = byte + sector_start(now->image.stated, number / sectors,
                                    number % sectors + 1);

    if (at + count <= now->image.length)
        memcpy(now->image.bytes + at, values, count);
    is_state_known = 0;
    end_promise();
}

static void change_system(struct input *input)
{
    size_t byte = take(input, 1);
    uint8_t value = (uint8_t)take(input, 1);

    /* The free pointer, the directory pointer and both counts. */
    change_sector(0, 0x10 + byte % 8, &value, 1);
}

static void change_link(struct input *input)
{
    size_t sectors = now->image.length / TANDOS_SECTOR_SIZE + 1;
    size_t sector = take(input, 2) % sectors;
    uint8_t link[TANDOS_LINK_SIZE];

    link[0] = (uint8_t)take(input, 1);
    link[1] = (uint8_t)take(input, 1);
    change_sector(sector, 0, link, sizeof link);
}

static void change_byte(struct input *input)
{
    size_t sectors = now->image.length / TANDOS_SECTOR_SIZE + 1;
    size_t sector = take(input, 2) % sectors;
    size_t byte = take(input, 1);
    uint8_t value = (uint8_t)take(input, 1);

    change_sector(sector, byte, &value, 1);
}

static size_t take_image_length(struct input *input)
{
    uint32_t length = take(input, 3);
    uint32_t highest = length >> 16;

    if (highest < LENGTH_EITHER)
        return length % (IMAGE_MOST + 1);
    if (highest < LENGTH_WHOLE)
        return EITHER_LENGTH * (1 + length % EITHER_MOST);
    if (highest < LENGTH_SMALL)
        return stated_length(now->image.stated, 1 + length % SMALL_TRACKS);
    return length % (TANDOS_IMAGE_SIZE(SMALL_TRACKS, TANDOS_TEN) + 1);
}

static void resize(struct input *input)
{
    size_t length = take_image_length(input);

    if (length > now->image.length)
        memset(now->image.bytes + now->image.length, 0,
               length - now->image.length);
    now->image.length = length;
    is_state_known = 0;
    end_promise();
}

/* Commands that a call does; 0 for a command that is none of them. */
static int run_call(enum command command, struct input *input)
{
    static void (*const calls[COMMANDS])(struct input *) = {
        [COMMAND_LIST] = run_list,
        [COMMAND_READ] = run_read,
        [COMMAND_SAVE] = run_save,
        [COMMAND_SAVES] = run_saves,
        [COMMAND_DELETE] = run_delete,
        [COMMAND_RENAME] = run_rename,
        [COMMAND_PROTECT] = run_protect,
        [COMMAND_REPLAY] = run_replay,
        [COMMAND_REPAIR] = run_repair,
        [COMMAND_CUT] = run_cut,
        [COMMAND_BLANK] = run_blank,
        [COMMAND_VIEW] = run_view
    };

    if (calls[command] == NULL)
        return 0;
    begin_command();
    calls[command](input);
    return 1;
}

static void run_command(enum command command, struct input *input)
{
    if (run_call(command, input))
        return;
    switch (command) {
    case COMMAND_CHECK:
        is_state_known = 0;
        know_state();
        break;
    case COMMAND_TEXT:
        run_text(input);
        break;
    case COMMAND_ADD:
        run_add_sheet(input);
        break;
    case COMMAND_SYSTEM:
        change_system(input);
        break;
    case COMMAND_LINK:
        change_link(input);
        break;
    case COMMAND_BYTE:
        change_byte(input);
        break;
    default:
        resize(input);
    }
}

/* One command with other numbers stated than the run's, right or wrong. For
 * this command the image is whatever it is as stated. */
static void run_stated(struct input *input)
{
    struct stated of_the_run = now->image.stated;
    int was_sound = is_state_known && now->state.is_sound;

    now->image.stated = take_stated(input);
    is_state_known = 0;
    end_promise();
    if (was_sound && is_image(&now->image) &&
        sectors_of(now->image.stated) != sectors_of(of_the_run)) {
        know_state();
        count_occasion(now->image.stated, RESTATED);
    }
    run_command((enum command)(take(input, 1) % COMMAND_STATED), input);
    now->image.stated = of_the_run;
    is_state_known = 0;
    end_promise();
}

static void run_next(struct input *input)
{
    enum command command = (enum command)(take(input, 1) % COMMANDS);

    if (command == COMMAND_STATED)
        run_stated(input);
    else
        run_command(command, input);
}

static size_t take_blank_length(struct input *input)
{
    size_t byte = take(input, 1);

    if (byte < TRACKS_EITHER)
        return stated_length(now->image.stated, 1 + byte % SMALL_TRACKS);
    if (byte < TRACKS_ANY)
        return EITHER_LENGTH * (1 + byte % EITHER_MOST);
    return stated_length(now->image.stated, 1 + byte * 31 % TANDOS_MAX_TRACKS);
}

static void start_blank(struct input *input)
{
    static const uint8_t stored[] = "FUZZ     ";
    struct text name;

    name.bytes = stored;
    name.length = 4;
    now->image.length = take_blank_length(input);
    memset(now->image.bytes, 0x33, now->image.length);
    REQUIRE_EQUAL(is_image(&now->image) ? TANDOS_DONE : TANDOS_SIZE,
                  call_blank(&now->image, name), "a first blank");
    if (is_image(&now->image))
        require_blank_bytes(&now->image, stored);
}

/* The input's bytes, again from the first where the image is longer. They are
 * the commands as well, so that few bytes give both. */
static void start_bytes(struct input *input)
{
    size_t length = take_image_length(input);
    size_t given = (size_t)(input->end - input->at);
    size_t i;

    now->image.length = length;
    for (i = 0; i < length; i++)
        now->image.bytes[i] = given == 0 ? 0 : input->at[i % given];
}

void run_input(struct input *input)
{
    enum start start = (enum start)(take(input, 1) % STARTS);
    unsigned commands;

    is_state_known = 0;
    begin_totals();
    begin_lists();
    end_promise();
    now->image.stated = take_stated(input);
    if (start == START_BLANK)
        start_blank(input);
    else
        start_bytes(input);
    know_state();
    for (commands = 0; commands < COMMANDS_MOST && input->at < input->end;
         commands++)
        run_next(input);
    know_state();
}
