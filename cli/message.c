#include "message.h"

#include <errno.h>
#include <stdio.h>
#include <string.h>

#include "tandos.h"

const char *input_name(const char *path)
{
    return strcmp(path, "-") == 0 ? "standard input" : path;
}

enum status say_refused(const char *path, uint32_t number, const char *hint)
{
    fprintf(stderr, "tandos: %s: refused with %lu, %s. %s%s\n",
            input_name(path), (unsigned long)number,
            tandos_refusal_name(number), tandos_refusal_text(number), hint);
    return STATUS_REFUSED;
}

enum status say_file_refused(const char *path, const char *name,
                             uint32_t number, const char *what,
                             const char *hint)
{
    fprintf(stderr, "tandos: %s: %s: refused with %lu, %s. %s%s\n",
            input_name(path), name, (unsigned long)number,
            tandos_refusal_name(number), what, hint);
    return STATUS_REFUSED;
}

enum status say_beyond_repair(const char *path, uint32_t rule,
                              const char *damage)
{
    fprintf(stderr, "tandos: %s: refused with %u, %s. %s %s. A repair cannot "
            "mend this, and nothing was changed: see what is left with 'tandos "
            "map' and 'tandos view', go on with the last good copy of the "
            "disc, and replay the lists of writes made since on it.\n",
            input_name(path), (unsigned)TANDOS_UNSOUND,
            tandos_refusal_name(TANDOS_UNSOUND), tandos_rule_text(rule),
            damage);
    return STATUS_REFUSED;
}

enum status say_list_refused(const char *path, const char *fault,
                             const char *advice)
{
    fprintf(stderr, "tandos: %s: refused with %u, %s. The file is no list of "
            "writes (%s): %s.\n", input_name(path), (unsigned)TANDOS_BAD_LIST,
            tandos_refusal_name(TANDOS_BAD_LIST), fault, advice);
    return STATUS_REFUSED;
}

enum status say_no_match(const char *command, const char *pattern)
{
    fprintf(stderr, "tandos %s: no file of the images matches '%s': list them "
            "to see the names that stand, in capital letters.\n", command,
            pattern);
    return STATUS_REFUSED;
}

void warn_same_image(const char *path, const char *earlier)
{
    fprintf(stderr, "tandos: %s: the same image as %s; its sheets are counted "
            "twice: leave one of them out if that is not meant.\n",
            input_name(path), input_name(earlier));
}

void warn_same_sheet(const char *path, const char *name, const char *earlier)
{
    fprintf(stderr, "tandos: %s: %s: the same sheet as in %s; it is counted "
            "twice: leave one of them out if that is not meant.\n",
            input_name(path), name, input_name(earlier));
}

enum status say_broken(const char *path, uint32_t rule, const char *hint)
{
    fprintf(stderr, "tandos: %s: %s%s\n", input_name(path),
            tandos_rule_text(rule), hint);
    return STATUS_REFUSED;
}

enum status say_failed(const char *path, const char *what)
{
    fprintf(stderr, "tandos: %s: %s: %s\n", path, what, strerror(errno));
    return STATUS_FAILED;
}

enum status say_problem(const char *path, const char *problem)
{
    fprintf(stderr, "tandos: %s: %s\n", path, problem);
    return STATUS_FAILED;
}

enum status say_misuse(const char *command, const char *what,
                       const char *argument)
{
    fprintf(stderr, "tandos%s%s: %s%s%s%s\n", command ? " " : "",
            command ? command : "", what, argument ? " '" : "",
            argument ? argument : "", argument ? "'" : "");
    fprintf(stderr, "Try 'tandos%s%s --help'.\n", command ? " " : "",
            command ? command : "");
    return STATUS_FAILED;
}
