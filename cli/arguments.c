#include "arguments.h"

#include <string.h>

#include "message.h"
#include "number.h"
#include "tandos.h"

static const struct option kind_options[KIND_OPTIONS + 1] = {
    [MOVED_OPTION] = { "--moved", NULL, false },
    [SECTORS_OPTION] = { "--sectors", NULL, true }
};

/* The part of an argument after the option's own text: NULL where the argument
 * is another option. "--page=3" leaves "=3", "-oFILE" leaves "FILE". */
static const char *rest_after(const struct option *option, const char *argument)
{
    size_t length = strlen(option->word);

    if (strncmp(argument, option->word, length) == 0 &&
        (argument[length] == '\0' || argument[length] == '='))
        return argument + length;
    if (option->letter != NULL && strncmp(argument, option->letter, 2) == 0)
        return argument + 2;
    return NULL;
}

/* The option that an argument is; the end of the options where it is none. */
static const struct option *find_option(const struct option *options,
                                        const char *argument)
{
    while (options->word != NULL && rest_after(options, argument) == NULL)
        options++;
    return options;
}

static enum status expect_no_value(const char *command,
                                   const struct option *option,
                                   const char *rest)
{
    if (*rest == '\0')
        return STATUS_DONE;
    return say_misuse(command, "no value goes with option", option->word);
}

/* Stores an option's value; the next argument is taken where the option has
 * none attached to it. */
static enum status take_option(const char *command, const struct option *option,
                               const char *rest, const char **value,
                               const char **next)
{
    if (!option->takes_value) {
        *value = "";
        return expect_no_value(command, option, rest);
    }
    if (*value != NULL)
        return say_misuse(command, "there is no use for a second option",
                          option->word);
    if (*rest != '\0') {
        *value = *rest == '=' ? rest + 1 : rest;
        return STATUS_DONE;
    }
    if (*next == NULL)
        return say_misuse(command, "a value is missing after option",
                          option->word);
    *value = *next;
    *next = NULL;
    return STATUS_DONE;
}

/* `*next` is the argument that follows, and NULL afterwards if it was taken. */
static enum status parse_one(struct arguments *arguments,
                             const struct option *options,
                             const char *argument, const char **next)
{
    const struct option *own = find_option(options, argument);
    const struct option *of_kind = find_option(kind_options, argument);

    if (strcmp(argument, "--help") == 0 || strcmp(argument, "-h") == 0) {
        arguments->wants_help = true;
        return STATUS_DONE;
    }
    if (own->word != NULL)
        return take_option(arguments->command, own, rest_after(own, argument),
                           &arguments->option[own - options], next);
    if (of_kind->word != NULL)
        return take_option(arguments->command, of_kind,
                           rest_after(of_kind, argument),
                           &arguments->kind_option[of_kind - kind_options],
                           next);
    return say_misuse(arguments->command, "there is no option", argument);
}

static enum status parse_sectors(const struct arguments *arguments,
                                 uint32_t *sectors)
{
    const char *text = arguments->kind_option[SECTORS_OPTION];

    *sectors = TANDOS_TEN;
    if (text == NULL)
        return STATUS_DONE;
    if (!parse_number(text, sectors) ||
        (*sectors != TANDOS_NINE && *sectors != TANDOS_TEN))
        return say_misuse(arguments->command, "--sectors is 9 or 10, not",
                          text);
    return STATUS_DONE;
}

static enum status parse_kind(struct arguments *arguments)
{
    bool is_moved = arguments->kind_option[MOVED_OPTION] != NULL;
    uint32_t sectors;

    if (parse_sectors(arguments, &sectors) != STATUS_DONE)
        return STATUS_FAILED;
    if (is_moved && sectors == TANDOS_NINE)
        return say_misuse(arguments->command,
                          "there are no moved discs of 9 sectors a track: "
                          "leave out '--moved' or '--sectors 9'", NULL);
    arguments->kind = sectors == TANDOS_NINE ? NINE_PLAIN
                      : is_moved             ? TEN_MOVED
                                             : TEN_PLAIN;
    return STATUS_DONE;
}

enum status parse_arguments(struct arguments *arguments,
                            const struct option *options, size_t argc,
                            char **argv)
{
    bool options_end = false;
    size_t i;

    arguments->operand = argv;
    for (i = 0; i < argc; i++) {
        const char *next = i + 1 < argc ? argv[i + 1] : NULL;
        bool has_next = next != NULL;

        if (options_end || argv[i][0] != '-' || argv[i][1] == '\0') {
            argv[arguments->operands++] = argv[i];
        } else if (strcmp(argv[i], "--") == 0) {
            options_end = true;
        } else {
            if (parse_one(arguments, options, argv[i], &next) != STATUS_DONE)
                return STATUS_FAILED;
            if (has_next && next == NULL)
                i++;
        }
    }
    return parse_kind(arguments);
}

enum status parse_option_number(const struct arguments *arguments,
                                size_t option, uint32_t fallback,
                                uint32_t *number)
{
    const char *text = arguments->option[option];

    *number = fallback;
    if (text == NULL)
        return STATUS_DONE;
    if (!parse_number(text, number))
        return say_misuse(arguments->command,
                          "a decimal, 0x or $ number is wanted, not", text);
    if (*number > UINT16_MAX)
        return say_misuse(arguments->command,
                          "a number of 0 to 65535 is wanted, not", text);
    return STATUS_DONE;
}

enum status for_each_operand(const struct arguments *arguments,
                             enum status (*one)(const struct arguments *,
                                                const char *operand))
{
    enum status worst = STATUS_DONE;
    size_t i;

    for (i = 0; i < arguments->operands; i++) {
        enum status status = one(arguments, arguments->operand[i]);

        if (status > worst)
            worst = status;
    }
    return worst;
}
