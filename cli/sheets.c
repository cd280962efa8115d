#include "sheets.h"

#include <stdlib.h>
#include <string.h>

#include "hint.h"
#include "message.h"
#include "records.h"

/* '*' is any characters, also none, '?' is one. Where a character does not
 * match, the last '*' takes one more. */
static bool matches(const char *pattern, const char *name)
{
    const char *star = NULL, *taken = NULL;

    while (*name != '\0') {
        if (*pattern == '*') {
            star = pattern++;
            taken = name;
        } else if (*pattern == '?' || *pattern == *name) {
            pattern++;
            name++;
        } else if (star != NULL) {
            pattern = star + 1;
            name = ++taken;
        } else {
            return false;
        }
    }
    return pattern[strspn(pattern, "*")] == '\0';
}

/* NULL with errno. */
static struct sheet *new_sheet(struct sheets *sheets)
{
    struct sheet *grown = realloc(sheets->sheet, (sheets->count + 1) *
                                                     sizeof *sheets->sheet);

    if (grown == NULL)
        return NULL;
    sheets->sheet = grown;
    memset(&grown[sheets->count], 0, sizeof *grown);
    return &grown[sheets->count++];
}

/* False with errno. */
static bool read_sheet(struct sheets *sheets, const struct image *image,
                       const char *name)
{
    static uint8_t buffer[TANDOS_SHEET_MAX];
    tandos_reading reading = tandos_read(TANDOS_ON(*image), TANDOS_TEXT(name),
                                         buffer, sizeof buffer);
    struct sheet *sheet = new_sheet(sheets);

    if (sheet == NULL)
        return false;
    sheet->image = image;
    strcpy(sheet->name, name);
    sheet->number = reading.number;
    sheet->length = reading.length;
    if (reading.number != TANDOS_DONE)
        return true;
    sheet->bytes = malloc(reading.length);
    if (sheet->bytes == NULL)
        return false;
    memcpy(sheet->bytes, buffer, reading.length);
    return true;
}

static enum status read_files(struct sheets *sheets, const struct image *image,
                              const char *pattern)
{
    static uint8_t records[TANDOS_LIST_MAX];
    const uint8_t *record = records + TANDOS_DISC_RECORD_SIZE;
    tandos_filled listed =
        tandos_list(TANDOS_ON(*image), records, sizeof records);

    if (listed.number != TANDOS_DONE)
        return say_image_refused(image, listed.number);
    for (; *record == TANDOS_RECORD_FILE; record += TANDOS_FILE_RECORD_SIZE) {
        char name[NAME_TEXT_SIZE];

        file_name_text(file_record(record).name, name);
        if ((pattern == NULL || matches(pattern, name)) &&
            !read_sheet(sheets, image, name))
            return say_failed(input_name(image->path), "cannot read");
    }
    return STATUS_DONE;
}

enum status read_sheets(struct sheets *sheets,
                        const struct arguments *arguments, const char *pattern)
{
    enum status status = STATUS_DONE;
    size_t i;

    sheets->image = calloc(arguments->operands, sizeof *sheets->image);
    if (sheets->image == NULL)
        return say_failed("the images", "cannot read");
    sheets->images = arguments->operands;
    for (i = 0; i < sheets->images && status == STATUS_DONE; i++) {
        status = load_image(&sheets->image[i], arguments->operand[i],
                            arguments->kind);
        if (status == STATUS_DONE)
            status = read_files(sheets, &sheets->image[i], pattern);
    }
    return status;
}

void free_sheets(struct sheets *sheets)
{
    size_t i;

    for (i = 0; i < sheets->count; i++)
        free(sheets->sheet[i].bytes);
    free(sheets->sheet);
    free(sheets->image);
}
