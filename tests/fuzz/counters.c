#include "counters.h"

#include <stdio.h>
#include <stdlib.h>

#include "finding.h"

#define NUMBERS 15
#define RULES 9
#define SIZES 12

struct row {
    const char *name;
    uint16_t numbers; /* bit n: the rules list the answer n for this call */
};

#define BIT(n) (1u << (n))

static const struct row rows[CALLS] = {
    [CALL_CHECK] = { "check", BIT(0) | BIT(1) },
    [CALL_LIST] = { "list", BIT(0) | BIT(1) | BIT(3) | BIT(10) },
    [CALL_READ] = { "read", BIT(0) | BIT(1) | BIT(2) | BIT(3) | BIT(4) |
                            BIT(9) | BIT(10) },
    [CALL_SAVE] = { "save", BIT(0) | BIT(1) | BIT(2) | BIT(3) | BIT(5) |
                            BIT(7) | BIT(8) | BIT(10) },
    [CALL_DELETE] = { "delete", BIT(0) | BIT(1) | BIT(2) | BIT(3) | BIT(4) |
                                BIT(6) | BIT(10) },
    [CALL_RENAME] = { "rename", BIT(0) | BIT(1) | BIT(2) | BIT(3) | BIT(4) |
                                BIT(5) | BIT(6) | BIT(10) },
    [CALL_PROTECT] = { "protect", BIT(0) | BIT(1) | BIT(2) | BIT(3) | BIT(4) |
                                  BIT(10) },
    [CALL_REPLAY] = { "replay", BIT(0) | BIT(1) | BIT(14) },
    [CALL_REPAIR] = { "repair", BIT(0) | BIT(1) | BIT(3) },
    [CALL_BLANK] = { "blank", BIT(0) | BIT(1) | BIT(2) },
    [CALL_VIEW] = { "view", BIT(0) | BIT(1) | BIT(11) }
};

/* The calls by what is stated, a table for each kind; those on twins by
 * themselves. */
#define TABLE_TWIN KINDS
#define TABLES (KINDS + 1)

static const char *const table_names[TABLES] = {
    [KIND_NINE] = "nine", [KIND_PLAIN] = "plain", [KIND_MOVED] = "moved",
    [KIND_WRONG_SECTORS] = "wrong-sectors",
    [KIND_WRONG_ARRANGEMENT] = "wrong-arranged",
    [KIND_NINE_MOVED] = "nine-moved", [TABLE_TWIN] = "twin"
};

static const char *const occasion_names[OCCASIONS] = {
    [GROWN_DIRECTORY] = "grown", [FULL_DISC] = "full",
    [MOST_TRACKS] = "80-tracks", [EITHER_NUMBER] = "either",
    [RESTATED] = "restated", [OTHERS_LENGTH] = "others",
    [SECTOR_ABOVE] = "above"
};

static const char *const list_names[LIST_OCCASIONS] = {
    [LIST_KIND] = "kind", [LIST_CUT] = "cut", [LIST_TRACK] = "track",
    [LIST_SECTOR_0] = "sector-0", [LIST_ABOVE] = "above",
    [LIST_NO_END] = "no-end", [LIST_AFTER_END] = "after-end",
    [LIST_AFTER_LIST] = "two-lists", [LIST_LATE] = "late",
    [LIST_ALONE] = "end-alone", [LIST_SYSTEM] = "system",
    [LIST_TWICE] = "twice", [LIST_LONG] = "long", [LIST_BREAKS] = "breaks",
    [LIST_MENDS] = "mends", [SAVE_GROWS] = "grows",
    [SAVE_LONGEST] = "longest", [SHORT_BY_ONE] = "one-short"
};

static const char *const repair_names[REPAIR_OCCASIONS] = {
    [REPAIR_RULE_1] = "rule-1", [REPAIR_RULE_2] = "rule-2",
    [REPAIR_RULE_3] = "rule-3", [REPAIR_RULE_4] = "rule-4",
    [REPAIR_RULE_5] = "rule-5", [REPAIR_RULE_6] = "rule-6",
    [REPAIR_RULE_7] = "rule-7", [REPAIR_RULE_8] = "rule-8",
    [REPAIR_KEEPS] = "keeps", [REPAIR_ORDERS] = "orders",
    [REPAIR_NONE] = "none-free", [REPAIR_ONE] = "one-free",
    [REPAIR_FREE_WORD] = "free-word", [REPAIR_USED_WORD] = "used-word",
    [REPAIR_GROWN] = "grown"
};

static const char *const cut_names[CUT_OCCASIONS] = {
    [CUT_SAVE_NONE] = "save-none", [CUT_SAVE_SYSTEM] = "save-0/1",
    [CUT_SAVE_FILE] = "save-file", [CUT_SAVE_NO_ENTRY] = "no-entry",
    [CUT_SAVE_UNLINKED] = "unlinked", [CUT_SAVE_WHOLE] = "save",
    [CUT_DELETE_NONE] = "del-none", [CUT_DELETE_ENTRY] = "del-entry",
    [CUT_DELETE_LAST] = "del-last", [CUT_DELETE_WHOLE] = "delete",
    [CUT_RENAME_NONE] = "ren-none", [CUT_RENAME_WHOLE] = "rename",
    [CUT_PROTECT_NONE] = "prot-none", [CUT_PROTECT_WHOLE] = "protect",
    [CUT_GOES_ON] = "goes-on", [CUT_REFUSED] = "refused",
    [CUT_REPAIRED] = "repaired"
};

static const char *const cancel_names[CANCEL_OCCASIONS] = {
    [CANCEL_STOPS] = "stops", [CANCEL_REACHES] = "reaches",
    [CANCEL_ONLY] = "only-one", [CANCEL_KEEPS_END] = "keeps-end",
    [CANCEL_CLEARS_END] = "clears-end", [CANCEL_BYTE_2] = "byte-2",
    [CANCEL_BYTE_255] = "byte-255", [CANCEL_SAME] = "same",
    [CANCEL_EARLIER] = "earlier", [CANCEL_GROWS] = "grows",
    [RENAME_BACK] = "back", [RENAME_ON] = "on", [RENAME_ITSELF] = "itself",
    [RENAME_TAKEN] = "taken", [RENAME_NO_NAME] = "no-name"
};

static const char *const sheet_names[SHEET_OCCASIONS] = {
    [SHEET_TABLE] = "table", [SHEET_KIND] = "kind", [SHEET_CUT] = "cut",
    [SHEET_NO_END] = "no-end", [SHEET_AFTER_END] = "after-end",
    [SHEET_WORKER] = "worker", [SHEET_BOTH] = "12-and-13",
    [TOTAL_LENT] = "lent", [TOTAL_OTHER] = "lent-other",
    [TOTAL_REACHED] = "reached", [TOTAL_WIDE] = "33-bits",
    [TOTAL_EXACT] = "exact", [SHEET_LONG] = "long"
};

/* The call that adds a sheet up: in the place of a kind of disc, and what it
 * may answer. */
#define NO_DISC "no-disc"
#define SHEET_NUMBERS (BIT(0) | BIT(12) | BIT(13))

/* Where the features of each sort begin. */
#define RULE_FEATURES (TABLES * CALLS * NUMBERS)
#define OCCASION_FEATURES (RULE_FEATURES + TABLES * RULES)
#define SIZE_FEATURES (OCCASION_FEATURES + DISC_KINDS * OCCASIONS)
#define LIST_FEATURES (SIZE_FEATURES + 3 * SIZES)
#define REPAIR_FEATURES (LIST_FEATURES + DISC_KINDS * LIST_OCCASIONS)
#define CUT_FEATURES (REPAIR_FEATURES + DISC_KINDS * REPAIR_OCCASIONS)
#define CANCEL_FEATURES (CUT_FEATURES + DISC_KINDS * CUT_OCCASIONS)
#define SHEET_FEATURES (CANCEL_FEATURES + DISC_KINDS * CANCEL_OCCASIONS)

/* libFuzzer clears this section before each input and reads it after. */
__attribute__((section("__libfuzzer_extra_counters")))
static uint8_t features[SHEET_FEATURES + NUMBERS + SHEET_OCCASIONS];

static unsigned long answers[TABLES][CALLS][NUMBERS];
static unsigned long rules[TABLES][RULES];
static unsigned long occasions[DISC_KINDS][OCCASIONS];
static unsigned long list_occasions[DISC_KINDS][LIST_OCCASIONS];
static unsigned long repair_occasions[DISC_KINDS][REPAIR_OCCASIONS];
static unsigned long cut_occasions[DISC_KINDS][CUT_OCCASIONS];
static unsigned long cancel_occasions[DISC_KINDS][CANCEL_OCCASIONS];
static unsigned long sheet_answers[NUMBERS];
static unsigned long sheet_occasions[SHEET_OCCASIONS];
static int is_on_twin;
static size_t most_files, most_directory;

static void mark(size_t feature)
{
    if (features[feature] < UINT8_MAX)
        features[feature]++;
}

/* 0, 1, 2, 4, .. each have a feature of their own. */
static size_t size_class(size_t size)
{
    size_t class = 0;

    while (size > 0 && class < SIZES - 1) {
        size /= 2;
        class++;
    }
    return class;
}

static unsigned table_of(struct stated stated)
{
    return is_on_twin ? TABLE_TWIN : kind_of(stated);
}

static int is_disc_table(unsigned table)
{
    return table < DISC_KINDS || table == TABLE_TWIN;
}

/* What may be answered, and has to occur. */
static unsigned numbers_of(unsigned table, enum call call)
{
    return is_disc_table(table) ? rows[call].numbers : BIT(TANDOS_SIZE);
}

void count_answer(enum call call, struct stated stated, uint32_t number)
{
    unsigned table = table_of(stated);

    REQUIRE(number < NUMBERS, "a number that is no refusal");
    REQUIRE(numbers_of(table, call) & BIT(number),
            is_disc_table(table) ? "a number of another call"
                                 : "a wrong number stated isn't refused");
    answers[table][call][number]++;
    mark((table * CALLS + call) * NUMBERS + number);
}

void count_rule(struct stated stated, uint32_t rule)
{
    unsigned table = table_of(stated);

    REQUIRE(rule < RULES, "a rule that does not exist");
    rules[table][rule]++;
    mark(RULE_FEATURES + table * RULES + rule);
}

void count_as_twin(int is_twin)
{
    is_on_twin = is_twin;
}

void count_occasion(struct stated stated, enum occasion occasion)
{
    enum kind kind = kind_of(stated);

    occasions[kind][occasion]++;
    mark(OCCASION_FEATURES + kind * OCCASIONS + occasion);
}

void count_list_occasion(struct stated stated, enum list_occasion occasion)
{
    enum kind kind = kind_of(stated);

    list_occasions[kind][occasion]++;
    mark(LIST_FEATURES + kind * LIST_OCCASIONS + occasion);
}

void count_repair_occasion(struct stated stated,
                           enum repair_occasion occasion)
{
    enum kind kind = kind_of(stated);

    repair_occasions[kind][occasion]++;
    mark(REPAIR_FEATURES + kind * REPAIR_OCCASIONS + occasion);
}

void count_cut_occasion(struct stated stated, enum cut_occasion occasion)
{
    enum kind kind = kind_of(stated);

    cut_occasions[kind][occasion]++;
    mark(CUT_FEATURES + kind * CUT_OCCASIONS + occasion);
}

void count_cancel_occasion(struct stated stated,
                           enum cancel_occasion occasion)
{
    enum kind kind = kind_of(stated);

    cancel_occasions[kind][occasion]++;
    mark(CANCEL_FEATURES + kind * CANCEL_OCCASIONS + occasion);
}

void count_sheet_answer(uint32_t number)
{
    REQUIRE(number < NUMBERS, "a number that is no refusal");
    REQUIRE(SHEET_NUMBERS & BIT(number), "a number of another call");
    sheet_answers[number]++;
    mark(SHEET_FEATURES + number);
}

void count_sheet_occasion(enum sheet_occasion occasion)
{
    sheet_occasions[occasion]++;
    mark(SHEET_FEATURES + NUMBERS + occasion);
}

void count_disc(size_t files, size_t directory, size_t free_sectors)
{
    mark(SIZE_FEATURES + size_class(files));
    mark(SIZE_FEATURES + SIZES + size_class(directory));
    mark(SIZE_FEATURES + 2 * SIZES + size_class(free_sectors));
    if (files > most_files)
        most_files = files;
    if (directory > most_directory)
        most_directory = directory;
}

/* One row of counts, those that can't occur as '-'. */
static void print_row(const char *name, const char *table,
                      const unsigned long *counts, unsigned numbers)
{
    unsigned number;

    printf("%-8s%-14s", name, table);
    for (number = 0; number < NUMBERS; number++) {
        if (numbers & BIT(number))
            printf("%11lu", counts[number]);
        else
            printf("%11s", "-");
    }
    putchar('\n');
}

static void print_table(unsigned table)
{
    unsigned i;

    for (i = 0; i < CALLS; i++)
        print_row(rows[i].name, table_names[table], answers[table][i],
                  numbers_of(table, (enum call)i));
    /* 0 is a sound image. */
    if (is_disc_table(table))
        print_row("rule", table_names[table], rules[table], BIT(RULES) - 1);
}

/* One row of occasions, all of which have to occur. */
static void print_counts(const char *name, const char *table,
                         const unsigned long *counts, unsigned count)
{
    unsigned i;

    printf("%-8s%-14s", name, table);
    for (i = 0; i < count; i++)
        printf("%11lu", counts[i]);
    putchar('\n');
}

static void print_names(const char *const *names, unsigned count)
{
    unsigned i;

    printf("%-22s", "occasion");
    for (i = 0; i < count; i++)
        printf("%11s", names[i]);
    putchar('\n');
}

static void print_occasions(void)
{
    unsigned kind;

    print_names(occasion_names, OCCASIONS);
    for (kind = 0; kind < DISC_KINDS; kind++)
        print_counts("disc", table_names[kind], occasions[kind], OCCASIONS);
    print_names(list_names, LIST_OCCASIONS);
    for (kind = 0; kind < DISC_KINDS; kind++)
        print_counts("writes", table_names[kind], list_occasions[kind],
                     LIST_OCCASIONS);
    print_names(repair_names, REPAIR_OCCASIONS);
    for (kind = 0; kind < DISC_KINDS; kind++)
        print_counts("repairs", table_names[kind], repair_occasions[kind],
                     REPAIR_OCCASIONS);
    print_names(cut_names, CUT_OCCASIONS);
    for (kind = 0; kind < DISC_KINDS; kind++)
        print_counts("cuts", table_names[kind], cut_occasions[kind],
                     CUT_OCCASIONS);
    print_names(cancel_names, CANCEL_OCCASIONS);
    for (kind = 0; kind < DISC_KINDS; kind++)
        print_counts("cancels", table_names[kind], cancel_occasions[kind],
                     CANCEL_OCCASIONS);
    print_names(sheet_names, SHEET_OCCASIONS);
    print_counts("sheet", NO_DISC, sheet_occasions, SHEET_OCCASIONS);
}

static void report(void)
{
    unsigned i;

    printf("%-22s", "answer");
    for (i = 0; i < NUMBERS; i++)
        printf("%11u", i);
    putchar('\n');
    for (i = 0; i < TABLES; i++)
        print_table(i);
    print_row("add", NO_DISC, sheet_answers, SHEET_NUMBERS);
    print_occasions();
    printf("sound discs: at most %zu files, at most %zu directory sectors\n",
           most_files, most_directory);
}

void report_at_exit(void)
{
    REQUIRE(atexit(report) == 0, "no report at exit");
}
