/* The subcommands. */
#ifndef COMMANDS_H
#define COMMANDS_H

#include <stddef.h>

#include "arguments.h"
#include "status.h"

#define ANY_NUMBER ((size_t)-1)

/* The options that state the kind of disc: at the end of a synopsis, and their
 * lines for details whose other options are as short. */
#define KIND_SYNOPSIS "[--moved | --sectors 9]"
#define KIND_HELP \
    "  --moved       the image is in the moved arrangement\n" \
    "  --sectors 9   the image has 9 sectors a track instead of 10\n"

struct command {
    const char *name;
    const char *synopsis; /* what follows the name on the command line */
    const char *summary;  /* one line */
    const char *details;  /* lines for the help, each with its line end */
    size_t least, most;   /* operands */
    struct option options[MAX_OPTIONS + 1];
    enum status (*run)(const struct arguments *arguments);
};

extern const struct command blank_command;
extern const struct command list_command;
extern const struct command read_command;
extern const struct command save_command;
extern const struct command delete_command;
extern const struct command rename_command;
extern const struct command protect_command;
extern const struct command check_command;
extern const struct command view_command;
extern const struct command map_command;
extern const struct command rearrange_command;
extern const struct command totals_command;
extern const struct command replay_command;
extern const struct command repair_command;
extern const struct command writes_command;

#endif
