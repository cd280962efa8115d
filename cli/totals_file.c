/* The file in which totals are kept from week to week. */
#include <errno.h>
#include <stdlib.h>
#include <string.h>
#include <sys/stat.h>

#include "bytes.h"
#include "lock.h"
#include "message.h"
#include "number.h"
#include "replace.h"
#include "totals.h"

/* About twice the longest table that is written. */
#define LONGEST_TABLE 16384

struct table {
    const char *text, *end;
    unsigned line; /* the last that was looked at, from 1 */
    bool has[TANDOS_WORKERS];
};

/* The next line. A spreadsheet may have written carriage returns. */
static size_t next_line(struct table *table, const char **line)
{
    const char *end = memchr(table->text, '\n',
                             (size_t)(table->end - table->text));
    size_t length;

    *line = table->text;
    table->line++;
    table->text = end != NULL ? end + 1 : table->end;
    length = (size_t)((end != NULL ? end : table->end) - *line);
    return length > 0 && (*line)[length - 1] == '\r' ? length - 1 : length;
}

/* What is wrong with a row, or NULL. */
static const char *take_row(struct table *table, struct totals *totals,
                            const char *row, size_t length)
{
    const char *comma = memchr(row, ',', length);
    size_t before = comma != NULL ? (size_t)(comma - row) : 0;
    uint32_t worker, pieces;

    if (comma == NULL || !parse_decimal(row, before, &worker) ||
        !parse_decimal(comma + 1, length - before - 1, &pieces))
        return "not a worker, a comma and pieces, all in digits";
    if (worker < 1 || worker > TANDOS_WORKERS)
        return "the worker is not 1 to 500";
    if (table->has[worker - 1])
        return "the worker stands in an earlier line too";
    if (pieces > TANDOS_TOTAL_MAX)
        return "the pieces are more than 1,000,000,000";
    table->has[worker - 1] = true;
    totals->pieces[worker - 1] = pieces;
    return NULL;
}

/* What is wrong in the last line that was looked at, or NULL. */
static const char *take_table(struct table *table, struct totals *totals)
{
    const char *line, *fault = NULL;
    size_t length = next_line(table, &line);

    if (length != strlen(TOTALS_HEADER) ||
        memcmp(line, TOTALS_HEADER, length) != 0)
        return "not the header '" TOTALS_HEADER "'";
    while (fault == NULL && table->text < table->end) {
        length = next_line(table, &line);
        fault = take_row(table, totals, line, length);
    }
    return fault;
}

static enum status say_fault(const char *path, unsigned line, const char *fault)
{
    char text[200];

    snprintf(text, sizeof text, "line %u: %s. Nothing was changed: correct "
             "the line, or give a new file to begin from zero.", line, fault);
    return say_problem(path, text);
}

static enum status read_totals(const char *path, int file,
                               struct totals *totals)
{
    static uint8_t bytes[LONGEST_TABLE];
    struct table table = { 0 };
    const char *fault;
    size_t length;

    if (!read_bytes(file, bytes, sizeof bytes, &length))
        return say_failed(path, "cannot read");
    table.text = (const char *)bytes;
    table.end = table.text + length;
    fault = take_table(&table, totals);
    /* There may be more of it, which was not read. */
    if (fault == NULL && length == sizeof bytes)
        fault = "too long for a table of 500 workers";
    return fault == NULL ? STATUS_DONE : say_fault(path, table.line, fault);
}

enum status load_totals(const char *path, struct totals *totals, bool *stands)
{
    struct stat named;
    int file;

    *stands = true;
    if (stat(path, &named) == 0 && !S_ISREG(named.st_mode))
        return say_problem(path, "cannot change: not a regular file");
    file = open_locked(path);
    if (file >= 0)
        return read_totals(path, file, totals);
    *stands = errno != ENOENT;
    return *stands ? say_failed(path, "cannot open for change") : STATUS_DONE;
}

enum status store_totals(const char *path, const struct totals *totals,
                         bool stands)
{
    char *text = NULL;
    size_t length = 0;
    FILE *memory = open_memstream(&text, &length);
    enum status status;

    if (memory == NULL)
        return say_failed(path, "cannot make the table");
    print_totals_csv(memory, totals);
    if (fclose(memory) != 0)
        status = say_failed(path, "cannot make the table");
    else
        status = replace_file(path, (const uint8_t *)text, length, stands);
    free(text);
    return status;
}
