#include "report.h"

#include <stdio.h>
#include <string.h>

static const char *test_name = "";
static unsigned long passed, failed;

void begin_test(const char *name)
{
    test_name = name;
}

static int count(int is_right)
{
    if (is_right)
        passed++;
    else
        failed++;
    return is_right;
}

void expect_number(const char *file, int line, const char *what,
                   size_t expected, size_t found)
{
    if (!count(expected == found))
        printf("FAILED %s, %s:%d: %s: expected %lu, found %lu\n", test_name,
               file, line, what, (unsigned long)expected, (unsigned long)found);
}

void expect_bytes(const char *what, const uint8_t *expected,
                  const uint8_t *found, size_t length)
{
    size_t at = 0;

    while (at < length && expected[at] == found[at])
        at++;
    if (!count(at == length))
        printf("FAILED %s: %s: at byte %lu (256 * %lu + %lu) of %lu: "
               "expected %02X, found %02X\n", test_name, what,
               (unsigned long)at, (unsigned long)(at / 256),
               (unsigned long)(at % 256), (unsigned long)length,
               (unsigned)expected[at], (unsigned)found[at]);
}

void expect_text(const char *what, const char *expected, const char *found)
{
    if (!count(strcmp(expected, found) == 0))
        printf("FAILED %s: %s: expected \"%s\", found \"%s\"\n", test_name,
               what, expected, found);
}

int report(void)
{
    printf("c tests: %lu passed, %lu failed\n", passed, failed);
    return failed > 0;
}
