/* Names and sentences of the numbers. */
#include <string.h>

#include "report.h"
#include "tandos.h"
#include "tests.h"

static const char *const names[] = {
    "DONE", "SIZE", "NAME", "UNSOUND", "ABSENT", "TAKEN", "PROTECTED",
    "MODULE", "ROOM", "NOT PLAIN", "SHORT", "NO SECTOR", "BAD SHEET", "TOTAL",
    "BAD LIST"
};

static void numbers(void)
{
    EXPECT_NUMBER(0, TANDOS_DONE);
    EXPECT_NUMBER(1, TANDOS_SIZE);
    EXPECT_NUMBER(2, TANDOS_NAME);
    EXPECT_NUMBER(3, TANDOS_UNSOUND);
    EXPECT_NUMBER(4, TANDOS_ABSENT);
    EXPECT_NUMBER(5, TANDOS_TAKEN);
    EXPECT_NUMBER(6, TANDOS_PROTECTED);
    EXPECT_NUMBER(7, TANDOS_MODULE);
    EXPECT_NUMBER(8, TANDOS_ROOM);
    EXPECT_NUMBER(9, TANDOS_NOT_PLAIN);
    EXPECT_NUMBER(10, TANDOS_SHORT);
    EXPECT_NUMBER(11, TANDOS_NO_SECTOR);
    EXPECT_NUMBER(12, TANDOS_BAD_SHEET);
    EXPECT_NUMBER(13, TANDOS_TOTAL);
    EXPECT_NUMBER(14, TANDOS_BAD_LIST);
}

/* One sentence each: a full stop at the end and nowhere before. */
static void expect_sentence(const char *sentence)
{
    const char *stop = strstr(sentence, ". ");

    EXPECT_NUMBER(1, strlen(sentence) > 10);
    EXPECT_NUMBER(1, stop == NULL);
    EXPECT_NUMBER('.', (size_t)sentence[strlen(sentence) - 1]);
}

/* No two numbers up to `last`, and no number beyond, have the same sentence. */
static void expect_distinct(const char *(*sentence)(uint32_t), uint32_t last)
{
    uint32_t i, j;

    for (i = 0; i <= last; i++) {
        expect_sentence(sentence(i));
        for (j = i + 1; j <= last + 1; j++)
            EXPECT_NUMBER(1, strcmp(sentence(i), sentence(j)) != 0);
    }
    expect_sentence(sentence(last + 1));
    expect_text("beyond", sentence(last + 1), sentence(0xFFFFFFFF));
    expect_text("beyond", sentence(last + 1), sentence(256));
}

static void rules_are_named(void)
{
    char start[] = "Rule 0 is broken: ";
    uint32_t rule;

    expect_text("rule 0", "The disc is sound.", tandos_rule_text(0));
    for (rule = 1; rule <= 8; rule++) {
        start[5] = (char)('0' + rule);
        EXPECT_NUMBER(0, (size_t)strncmp(tandos_rule_text(rule), start,
                                         strlen(start)));
    }
}

/* A repair of a disc that is stated wrongly loses its files: the check with the
 * other kinds is named first. */
static void check_before_repair(void)
{
    const char *sentence = tandos_refusal_text(TANDOS_UNSOUND);
    const char *check = strstr(sentence, "check it with the others");

    EXPECT_NUMBER(1, check != NULL && strstr(check, "repair it") != NULL);
}

void test_text(void)
{
    uint32_t number;

    numbers();
    for (number = 0; number <= 14; number++)
        expect_text("name", names[number], tandos_refusal_name(number));
    expect_text("name of 15", "?", tandos_refusal_name(15));
    expect_text("name of 256", "?", tandos_refusal_name(256));
    expect_text("name of the highest", "?", tandos_refusal_name(0xFFFFFFFF));
    expect_distinct(tandos_refusal_text, 14);
    expect_distinct(tandos_rule_text, 8);
    rules_are_named();
    check_before_repair();
}
