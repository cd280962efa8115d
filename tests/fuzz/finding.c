#include "finding.h"

#include <stdio.h>
#include <stdlib.h>

void finding(const char *file, int line, const char *what)
{
    fprintf(stderr, "FINDING %s:%d: %s\n", file, line, what);
    abort();
}

void require_equal(const char *file, int line, size_t expected, size_t found,
                   const char *what)
{
    if (expected == found)
        return;
    fprintf(stderr, "expected %zu, found %zu\n", expected, found);
    finding(file, line, what);
}
