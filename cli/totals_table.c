/* The totals as a table, as JSON and with commas. */
#include <sys/ioctl.h>
#include <unistd.h>

#include "totals.h"

#define USUAL_COLUMNS 80

/* In front of a bar, and one that stays free at the right margin. */
#define OTHER_COLUMNS 23

/* The columns for the longest bar; 0 for no bars. */
static unsigned bar_columns(void)
{
    struct winsize size;
    unsigned columns = USUAL_COLUMNS;

    if (!isatty(STDOUT_FILENO))
        return 0;
    if (ioctl(STDOUT_FILENO, TIOCGWINSZ, &size) == 0 && size.ws_col > 0)
        columns = size.ws_col;
    return columns > OTHER_COLUMNS ? columns - OTHER_COLUMNS : 0;
}

static uint32_t largest_of(const struct totals *totals)
{
    uint32_t largest = 1;
    unsigned i;

    for (i = 0; i < TANDOS_WORKERS; i++)
        if (totals->pieces[i] > largest)
            largest = totals->pieces[i];
    return largest;
}

static unsigned long long sum_of(const struct totals *totals)
{
    unsigned long long sum = 0;
    unsigned i;

    for (i = 0; i < TANDOS_WORKERS; i++)
        sum += totals->pieces[i];
    return sum;
}

/* Rounded up, so that whoever has pieces has a bar. */
static void print_bar(uint32_t pieces, uint32_t largest, unsigned columns)
{
    uint64_t length = ((uint64_t)pieces * columns + largest - 1) / largest;

    if (length > 0)
        printf("  ");
    for (; length > 0; length--)
        putchar('#');
}

void print_totals_table(const struct totals *totals)
{
    unsigned columns = bar_columns();
    uint32_t largest = largest_of(totals);
    unsigned i;

    puts("WORKER        PIECES");
    for (i = 0; i < TANDOS_WORKERS; i++)
        if (totals->pieces[i] > 0) {
            printf("%6u  %12lu", i + 1, (unsigned long)totals->pieces[i]);
            print_bar(totals->pieces[i], largest, columns);
            putchar('\n');
        }
    printf("\n TOTAL  %12llu\nSHEETS  %12u\n", sum_of(totals),
           totals->sheets);
}

void print_totals_json(const struct totals *totals)
{
    const char *comma = "";
    unsigned i;

    printf("{\"workers\": [");
    for (i = 0; i < TANDOS_WORKERS; i++)
        if (totals->pieces[i] > 0) {
            printf("%s\n  {\"worker\": %u, \"pieces\": %lu}", comma, i + 1,
                   (unsigned long)totals->pieces[i]);
            comma = ",";
        }
    printf("],\n \"total\": %llu, \"sheets\": %u}\n", sum_of(totals),
           totals->sheets);
}

void print_totals_csv(FILE *to, const struct totals *totals)
{
    unsigned i;

    fprintf(to, "%s\n", TOTALS_HEADER);
    for (i = 0; i < TANDOS_WORKERS; i++)
        if (totals->pieces[i] > 0)
            fprintf(to, "%u,%lu\n", i + 1, (unsigned long)totals->pieces[i]);
}
