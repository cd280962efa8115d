/* tandos: TANDOS 65 disc images on the command line. */
#include <stdio.h>
#include <string.h>

#include "arguments.h"
#include "commands.h"
#include "message.h"

static const struct command *const commands[] = {
    &blank_command,  &list_command,   &read_command,    &save_command,
    &delete_command, &rename_command, &protect_command, &replay_command,
    &writes_command, &check_command,  &repair_command,  &view_command,
    &map_command,    &rearrange_command, &totals_command
};

#define COMMANDS (sizeof commands / sizeof commands[0])

static void print_help(void)
{
    size_t i;

    puts("Usage: tandos COMMAND [OPTION..] ARGUMENT..\n\n"
         "Works on the files of a TANDOS 65 disc image.\n\n"
         "Commands:");
    for (i = 0; i < COMMANDS; i++)
        printf("  %-10s %s\n", commands[i]->name, commands[i]->summary);
    puts("\n'tandos COMMAND --help' has what a command takes.\n"
         "'tandos --version' prints the version.\n\n"
         "'-' stands for standard input where an IMAGE or FILE is only read,\n"
         "and for standard output where a FILE is written.\n\n"
         "An image has 10 sectors a track, in the order of their numbers.\n"
         "--moved states that it has them in passing order (1, 4, 7, 10, 3,\n"
         "6, 9, 2, 5, 8), --sectors 9 that it has 9 sectors a track, like the\n"
         "early discs.\n\n"
         "A changed image is written whole or not at all; a refused command\n"
         "writes nothing.\n\n"
         "Exit status: 0 done; 1 refused, or an image that is not sound;\n"
         "2 misuse, or an error of input or output.");
}

static void print_command_help(const struct command *command)
{
    printf("Usage: tandos %s %s\n\n%s\n", command->name, command->synopsis,
           command->summary);
    if (*command->details != '\0')
        printf("\n%s", command->details);
}

static const struct command *find_command(const char *name)
{
    size_t i;

    for (i = 0; i < COMMANDS; i++)
        if (strcmp(commands[i]->name, name) == 0)
            return commands[i];
    return NULL;
}

static enum status run_command(const struct command *command, size_t argc,
                               char **argv)
{
    struct arguments arguments = { 0 };

    arguments.command = command->name;
    if (parse_arguments(&arguments, command->options, argc, argv) !=
        STATUS_DONE)
        return STATUS_FAILED;
    if (arguments.wants_help) {
        print_command_help(command);
        return STATUS_DONE;
    }
    if (arguments.operands < command->least)
        return say_misuse(command->name, "arguments are missing: give",
                          command->synopsis);
    if (arguments.operands > command->most)
        return say_misuse(command->name, "there is no use for the argument",
                          arguments.operand[command->most]);
    return command->run(&arguments);
}

static enum status run(size_t argc, char **argv)
{
    const struct command *command;

    if (argc < 2)
        return say_misuse(NULL, "a command is missing", NULL);
    if (strcmp(argv[1], "--help") == 0 || strcmp(argv[1], "-h") == 0) {
        print_help();
        return STATUS_DONE;
    }
    if (strcmp(argv[1], "--version") == 0) {
        puts("tandos " TANDOS_VERSION);
        return STATUS_DONE;
    }
    command = find_command(argv[1]);
    if (command == NULL)
        return say_misuse(NULL, "there is no command", argv[1]);
    return run_command(command, argc - 2, argv + 2);
}

int main(int argc, char **argv)
{
    enum status status = run((size_t)argc, argv);

    /* What was printed may only now be found not to have been written. */
    if (fflush(stdout) != 0 || ferror(stdout))
        return say_failed("standard output", "cannot write");
    return status;
}
