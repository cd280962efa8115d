#include "seeds_stated.h"

#include <stdio.h>

#include "seed.h"

/* The bytes that state something; the second is -1 if there is none. */
struct bytes {
    int first, second;
};

static struct bytes bytes_of(int first, int second)
{
    struct bytes bytes = { first, second };

    return bytes;
}

/* The start of a command that states this. */
static void put_stated(struct bytes stated)
{
    put(COMMAND_STATED, stated.first, stated.second, -1);
}

static void put_command(struct bytes stated, int command, int one, int other)
{
    put_stated(stated);
    put(command, one, other, -1);
}

/* A command with a buffer for its list of writes. */
static void put_listed(struct bytes stated, int command,
                       struct bytes arguments, enum buffer buffer)
{
    put_command(stated, command, arguments.first, arguments.second);
    put((int)buffer, -1);
}

/* Each call with this stated and arguments that are right. */
static void put_right_calls(struct bytes stated)
{
    put_command(stated, COMMAND_CHECK, -1, -1);
    put_command(stated, COMMAND_LIST, BUFFER_LARGEST, -1);
    put_command(stated, COMMAND_READ, 0, BUFFER_LARGEST);
    put_command(stated, COMMAND_VIEW, 0, 2);
    put_stated(stated);
    save(1, SHEET_1);
    put_stated(stated);
    rename_to(0, 2);
    put_listed(stated, COMMAND_PROTECT, bytes_of(0, 1), BUFFER_EXACT);
    put_stated(stated);
    replay(0);
    put_command(stated, COMMAND_REPAIR, -1, -1);
    put_listed(stated, COMMAND_DELETE, bytes_of(0, -1), BUFFER_EXACT);
    put_command(stated, COMMAND_BLANK, 0, -1);
}

/* The same with arguments for which a later refusal holds as well. */
static void put_refused_calls(struct bytes stated)
{
    put_command(stated, COMMAND_LIST, BUFFER_EMPTY, -1);
    put_command(stated, COMMAND_READ, NAME_NULL, BUFFER_EMPTY);
    put_command(stated, COMMAND_VIEW, 0, 11);
    put_stated(stated);
    save_lent(NAME_NULL, SHEET_0, BUFFER_EMPTY);
    put_stated(stated);
    rename_lent(0, NAME_NULL, BUFFER_EMPTY);
    put_listed(stated, COMMAND_PROTECT, bytes_of(NAME_NULL, 1), BUFFER_EMPTY);
    put_listed(stated, COMMAND_DELETE, bytes_of(NAME_NULL, -1), BUFFER_EMPTY);
    put_stated(stated);
    put(COMMAND_REPLAY, WRITES_KEPT, 0, WRITES_SHORTER, 0, -1);
    put_stated(stated);
    replay_nothing();
    put_command(stated, COMMAND_BLANK, NAME_NULL, -1);
}

static void begin_file(int tracks)
{
    begin(tracks);
    save(0, SHEET_246);
}

static void end_numbered(const char *name, int number)
{
    char numbered[64];

    snprintf(numbered, sizeof numbered, "%s-%d", name, number);
    end(numbered);
}

static void seed_wrong_pairs(void)
{
    int i;

    for (i = 0; i < WRONG_PAIRS; i++) {
        begin_file(0);
        put_right_calls(bytes_of(STATED_WRONG + i, -1));
        put_refused_calls(bytes_of(STATED_WRONG + i, -1));
        end_numbered("wrong", i);
    }
}

/* Every small number, as sectors and as arrangement: which one a fault takes
 * for a right one is not left to luck. */
static void seed_small_numbers(void)
{
    int i;

    for (i = 0; i < 2 * SMALL_NUMBERS; i++) {
        begin_file(0);
        put_right_calls(bytes_of(STATED_SMALL_SECTORS, i));
        end_numbered("small-sectors", i);
        begin_file(0);
        put_right_calls(bytes_of(STATED_SMALL_ARRANGEMENT, i));
        end_numbered("small-arrangement", i);
    }
}

/* A disc that is stated as another kind, and what a call on that left stated as
 * its own again. */
static void seed_other_kind(int kind, int tracks)
{
    char name[32];

    begin_file(tracks);
    put_right_calls(bytes_of(kind, -1));
    put(COMMAND_CHECK, COMMAND_LIST, BUFFER_LARGEST, -1);
    put_refused_calls(bytes_of(kind, -1));
    put_calls(0);
    snprintf(name, sizeof name, "as-%s", kind_names[kind]);
    end_numbered(name, tracks);
}

static void seed_other_kinds(int tracks)
{
    int kind;

    for (kind = 0; kind < STATED_KINDS; kind++)
        if (kind != (int)seed_kind)
            seed_other_kind(kind, tracks);
}

void write_stated_seeds(void)
{
    int i;

    seed_wrong_pairs();
    seed_small_numbers();
    seed_other_kinds(0);
    for (i = 0; i < EITHER_MOST; i++)
        seed_other_kinds(TRACKS_EITHER + i);
}

static void seed_wrong_run(struct bytes stated, const char *name, int number)
{
    begin_empty();
    put(START_BLANK, stated.first, stated.second, -1);
    put(0, COMMAND_CHECK, -1);
    put_calls(0);
    end_numbered(name, number);
}

void write_wrong_runs(void)
{
    int i;

    for (i = 0; i < WRONG_PAIRS; i++)
        seed_wrong_run(bytes_of(STATED_WRONG + i, -1), "wrong-run", i);
    /* Here the length is that of a disc with so many sectors a track. */
    for (i = 0; i < 2 * SMALL_NUMBERS; i++)
        seed_wrong_run(bytes_of(STATED_SMALL_SECTORS, i), "small-run", i);
}
