/* Sheets that are given twice. */
#include <string.h>

#include "message.h"
#include "sheets.h"

static bool is_same_image(const struct image *image, const struct image *other)
{
    return image->length == other->length &&
           memcmp(image->bytes, other->bytes, image->length) == 0;
}

/* The first image before this one that has the same bytes, or NULL. */
static const struct image *same_image(const struct sheets *sheets,
                                      const struct image *image)
{
    const struct image *earlier = sheets->image;

    while (earlier < image && !is_same_image(earlier, image))
        earlier++;
    return earlier < image ? earlier : NULL;
}

static bool is_same_sheet(const struct sheet *sheet, const struct sheet *other)
{
    return strcmp(sheet->name, other->name) == 0 &&
           sheet->length == other->length &&
           memcmp(sheet->bytes, other->bytes, sheet->length) == 0;
}

/* The first sheet before this one with the same name and bytes, or NULL. It is
 * on an earlier image, since no disc has a name twice. */
static const struct sheet *same_sheet(const struct sheets *sheets,
                                      const struct sheet *sheet)
{
    const struct sheet *earlier = sheets->sheet;

    while (earlier < sheet && !is_same_sheet(sheet, earlier))
        earlier++;
    return earlier < sheet ? earlier : NULL;
}

/* `*said` is the last image of which it was said as a whole. */
static void warn_of_sheet(const struct sheets *sheets,
                          const struct sheet *sheet, const struct image **said)
{
    const struct sheet *earlier = same_sheet(sheets, sheet);
    const struct image *image;

    if (earlier == NULL || sheet->image == *said)
        return;
    image = same_image(sheets, sheet->image);
    if (image == NULL) {
        warn_same_sheet(sheet->image->path, sheet->name, earlier->image->path);
        return;
    }
    warn_same_image(sheet->image->path, image->path);
    *said = sheet->image;
}

void warn_of_sheets_twice(const struct sheets *sheets)
{
    const struct image *said = NULL;
    size_t i;

    for (i = 0; i < sheets->count; i++)
        if (sheets->sheet[i].number == TANDOS_DONE)
            warn_of_sheet(sheets, &sheets->sheet[i], &said);
}
