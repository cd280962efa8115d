/* The command line of one subcommand: its options and its operands. */
#ifndef ARGUMENTS_H
#define ARGUMENTS_H

#include <stdbool.h>
#include <stddef.h>
#include <stdint.h>

#include "kind.h"
#include "status.h"

/* Beside --help and the options below, which are parsed for every
 * subcommand. */
#define MAX_OPTIONS 5

/* The options that state the kind of disc: --moved and --sectors. */
enum { MOVED_OPTION, SECTORS_OPTION, KIND_OPTIONS };

struct option {
    const char *word;   /* "--page"; NULL after the last one */
    const char *letter; /* "-o", or NULL */
    bool takes_value;
};

struct arguments {
    const char *command;
    /* For each option of the subcommand, in its order: NULL where it is not
     * given, else its value, "" for an option without one. */
    const char *option[MAX_OPTIONS];
    const char *kind_option[KIND_OPTIONS]; /* likewise */
    enum kind kind;                        /* as these state it */
    char **operand;
    size_t operands;
    bool wants_help;
};

/* Parses what follows the subcommand's name. Options may stand between the
 * operands; "--" ends them. The operands are moved together at the front of
 * argv. */
enum status parse_arguments(struct arguments *arguments,
                            const struct option *options, size_t argc,
                            char **argv);

/* A number of 16 bits that an option gives; `fallback` where it is absent. */
enum status parse_option_number(const struct arguments *arguments,
                                size_t option, uint32_t fallback,
                                uint32_t *number);

/* Does the operands one after the other, whatever becomes of each, and answers
 * the worst status. */
enum status for_each_operand(const struct arguments *arguments,
                             enum status (*one)(const struct arguments *,
                                                const char *operand));

#endif
