/* tandos save: a sheet as a new file. */
#include "bytes.h"
#include "commands.h"
#include "image.h"
#include "message.h"
#include "output.h"
#include "store.h"

enum { PAGE, START, TRANSFER, WRITES };

#define DEFAULT_START 0x2000

struct numbers {
    uint32_t page, start, transfer;
};

static enum status parse_numbers(const struct arguments *arguments,
                                 struct numbers *numbers)
{
    if (parse_option_number(arguments, PAGE, 0, &numbers->page) !=
            STATUS_DONE ||
        parse_option_number(arguments, START, DEFAULT_START,
                            &numbers->start) != STATUS_DONE)
        return STATUS_FAILED;
    return parse_option_number(arguments, TRANSFER, numbers->start,
                               &numbers->transfer);
}

static enum status parse(const struct arguments *arguments,
                         struct numbers *numbers)
{
    const char *sheet = arguments->operand[2];
    const char *list = arguments->option[WRITES];

    if (list != NULL && is_same_file(list, sheet))
        return say_misuse(arguments->command,
                          "the list of writes does not replace the sheet:",
                          list);
    return parse_numbers(arguments, numbers);
}

static enum status run(const struct arguments *arguments)
{
    static struct image image;
    /* One byte more than any sheet has, so that the library sees it. */
    static uint8_t sheet[TANDOS_SHEET_MAX + 1];
    static uint8_t writes[TANDOS_SAVE_WRITES_MAX];
    const char *name = arguments->operand[1];
    struct numbers numbers;
    tandos_filled filled;
    size_t length;

    /* The sheet comes first: it may be long in coming through a pipe, and the
     * image is locked from its loading on. */
    if (parse(arguments, &numbers) != STATUS_DONE ||
        read_file(arguments->operand[2], sheet, sizeof sheet, &length) !=
            STATUS_DONE ||
        load_image_for_change(&image, arguments->operand[0],
                              arguments->kind,
                              arguments->command) != STATUS_DONE)
        return STATUS_FAILED;
    filled = tandos_save(TANDOS_ON(image), TANDOS_TEXT(name), numbers.page,
                         (uint16_t)numbers.start, (uint16_t)numbers.transfer,
                         sheet, length, writes, sizeof writes);
    return store_change(&image, filled, writes, arguments->option[WRITES]);
}

const struct command save_command = {
    "save", "IMAGE NAME FILE [OPTION..]",
    "Save the bytes of FILE as a new file of a disc.",
    "NAME is 1 to 6 of A-Z and 0-9, then nothing, or a dot and 1 to 3 of the\n"
    "same. FILE has 1 to 65,536 - start bytes.\n\n"
    "  --page N          0 to 7; 0 if not given\n"
    "  --start ADDR      address of the first byte; 0x2000 if not given\n"
    "  --transfer ADDR   transfer address; the start address if not given\n"
    "  --writes FILE     write the list of the sectors written to FILE\n"
    "  --moved           the image is in the moved arrangement\n"
    "  --sectors 9       the image has 9 sectors a track instead of 10\n\n"
    "Numbers are decimal, or hexadecimal after 0x or $ (which a shell wants\n"
    "in quotation marks: '$2000').\n",
    3, 3,
    { { "--page", NULL, true }, { "--start", NULL, true },
      { "--transfer", NULL, true }, { "--writes", NULL, true } },
    run
};
