/* A broken promise ends the process, so that libFuzzer keeps the input. */
#ifndef FINDING_H
#define FINDING_H

#include <stddef.h>

#define REQUIRE(holds, what) \
    ((holds) ? (void)0 : finding(__FILE__, __LINE__, (what)))

/* Expects two numbers to be equal, and names both where they are not. */
#define REQUIRE_EQUAL(expected, found, what) \
    require_equal(__FILE__, __LINE__, (expected), (found), (what))

void finding(const char *file, int line, const char *what);
void require_equal(const char *file, int line, size_t expected, size_t found,
                   const char *what);

#endif
