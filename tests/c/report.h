/* Checks of the tests in C: counted, and reported where they fail. */
#ifndef REPORT_H
#define REPORT_H

#include <stddef.h>
#include <stdint.h>

#define EXPECT_NUMBER(expected, found) \
    expect_number(__FILE__, __LINE__, #found, (expected), (found))

/* Names the test that the next checks belong to. */
void begin_test(const char *name);

void expect_number(const char *file, int line, const char *what,
                   size_t expected, size_t found);
void expect_bytes(const char *what, const uint8_t *expected,
                  const uint8_t *found, size_t length);
void expect_text(const char *what, const char *expected, const char *found);

/* Prints the count as the last line; 1 if a check failed, else 0. */
int report(void);

#endif
