/* tandos totals: the pieces of each worker, added up from the sheets. */
#include "totals.h"

#include <string.h>

#include "commands.h"
#include "message.h"
#include "sheets.h"

enum { SHEET, ONLY_GOOD, JSON, CSV, ADD_TO };

static enum status parse(const struct arguments *arguments)
{
    const char *file = arguments->option[ADD_TO];
    unsigned standard = 0;
    size_t i;

    if (arguments->option[JSON] && arguments->option[CSV])
        return say_misuse(arguments->command, "--json and --csv exclude each "
                          "other", NULL);
    if (file != NULL && strcmp(file, "-") == 0)
        return say_misuse(arguments->command,
                          "totals that are added to are a file, not", file);
    for (i = 0; i < arguments->operands; i++)
        standard += strcmp(arguments->operand[i], "-") == 0;
    if (standard > 1)
        return say_misuse(arguments->command,
                          "standard input can be read only once: leave out "
                          "all but one", "-");
    return STATUS_DONE;
}

static bool is_an_image(const struct sheets *sheets, const char *path)
{
    struct stat file;
    size_t i = 0;

    if (stat(path, &file) != 0)
        return false;
    while (i < sheets->images && !is_image_file(&sheets->image[i], &file))
        i++;
    return i < sheets->images;
}

/* What a file that is added to had. The images have been read by then: standard
 * input may be long in coming, and the file is locked from here on. */
static enum status begin(const struct arguments *arguments,
                         const struct sheets *sheets, struct totals *totals,
                         bool *stands)
{
    const char *file = arguments->option[ADD_TO];

    if (arguments->option[SHEET] != NULL && sheets->count == 0)
        return say_no_match(arguments->command, arguments->option[SHEET]);
    if (file == NULL)
        return STATUS_DONE;
    if (is_an_image(sheets, file))
        return say_misuse(arguments->command,
                          "totals are not added to an image:", file);
    return load_totals(file, totals, stands);
}

static void print(const struct arguments *arguments,
                  const struct totals *totals)
{
    if (arguments->option[JSON])
        print_totals_json(totals);
    else if (arguments->option[CSV])
        print_totals_csv(stdout, totals);
    else
        print_totals_table(totals);
}

static enum status add_up(const struct arguments *arguments,
                          const struct sheets *sheets)
{
    struct totals totals = { { 0 }, 0 };
    bool stands = false;
    enum status status = begin(arguments, sheets, &totals, &stands);

    if (status == STATUS_DONE)
        status = add_sheets(&totals, sheets,
                            arguments->option[ONLY_GOOD] != NULL);
    if (status != STATUS_DONE)
        return status;
    warn_of_sheets_twice(sheets);
    print(arguments, &totals);
    if (arguments->option[ADD_TO] == NULL)
        return STATUS_DONE;
    /* Whoever did not see the totals will add the sheets once more: the file
     * is kept then. That they were not printed is said at the end. */
    if (fflush(stdout) != 0)
        return STATUS_FAILED;
    return store_totals(arguments->option[ADD_TO], &totals, stands);
}

static enum status run(const struct arguments *arguments)
{
    struct sheets sheets = { NULL, 0, NULL, 0 };
    enum status status = parse(arguments);

    if (status != STATUS_DONE)
        return status;
    status = read_sheets(&sheets, arguments, arguments->option[SHEET]);
    if (status == STATUS_DONE)
        status = add_up(arguments, &sheets);
    free_sheets(&sheets);
    return status;
}

const struct command totals_command = {
    "totals", "IMAGE.. [OPTION..]",
    "Add up the pieces of each worker from the sheets of discs.",
    "Prints a table of the workers who have pieces, the total and the number\n"
    "of sheets, on a terminal with bars. A file that is no sheet is named;\n"
    "nothing is added up then, and the exit status is 1.\n\n"
    "  --sheet PATTERN   only the files whose names match, such as '*.PCS': *\n"
    "                    stands for any characters, ? for one\n"
    "  --only-good       go on without the files that are no sheets\n"
    "  --json            JSON instead of a table\n"
    "  --csv             rows of worker and pieces, parted by a comma\n"
    "  --add-to FILE     add to the totals in FILE, which is as --csv prints\n"
    "                    it, and write the sums there; made if it is missing\n"
    "  --moved           the images are in the moved arrangement\n"
    "  --sectors 9       the images have 9 sectors a track instead of 10\n",
    1, ANY_NUMBER,
    { { "--sheet", NULL, true }, { "--only-good", NULL, false },
      { "--json", NULL, false }, { "--csv", NULL, false },
      { "--add-to", NULL, true } },
    run
};
