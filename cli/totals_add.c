/* Adding the sheets up, and what is said of those that are refused. */
#include "message.h"
#include "sheet_fault.h"
#include "sheets.h"
#include "totals.h"

static void say_no_sheet(const struct sheet *sheet, bool only_good)
{
    const char *hint = only_good ? " Nothing is added from it."
                                 : " Nothing is added up: correct the file, or "
                                   "give --only-good to go on without it.";
    char fault[FAULT_TEXT_SIZE], text[FAULT_TEXT_SIZE + 40];
    const char *what = text;

    if (sheet->number == TANDOS_BAD_SHEET)
        snprintf(text, sizeof text, "The file is no sheet of records (%s).",
                 sheet_fault(sheet->bytes, sheet->length, fault));
    else
        what = tandos_refusal_text(sheet->number);
    say_file_refused(sheet->image->path, sheet->name, sheet->number, what,
                     hint);
}

static enum status say_total(const struct sheet *sheet,
                             const struct totals *totals)
{
    char fault[FAULT_TEXT_SIZE];

    return say_file_refused(sheet->image->path, sheet->name, sheet->number,
                            tandos_refusal_text(sheet->number),
                            total_fault(totals->pieces, sheet->bytes,
                                        sheet->length, fault));
}

enum status add_sheets(struct totals *totals, const struct sheets *sheets,
                       bool only_good)
{
    enum status status = STATUS_DONE;
    size_t i;

    for (i = 0; i < sheets->count; i++) {
        struct sheet *sheet = &sheets->sheet[i];

        if (sheet->number == TANDOS_DONE)
            sheet->number = tandos_add_sheet(totals->pieces, TANDOS_WORKERS,
                                             sheet->bytes, sheet->length);
        if (sheet->number == TANDOS_TOTAL)
            return say_total(sheet, totals);
        if (sheet->number == TANDOS_DONE) {
            totals->sheets++;
            continue;
        }
        say_no_sheet(sheet, only_good);
        if (!only_good)
            status = STATUS_REFUSED;
    }
    return status;
}
