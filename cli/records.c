#include "records.h"

#include "tandos.h"
#include "text.h"

struct file_record file_record(const uint8_t *record)
{
    struct file_record file;

    file.name = record + 1;
    file.sectors = word_at(record + 10);
    file.is_protected = record[12] == TANDOS_ATTRIBUTE_PROTECTED;
    return file;
}

size_t files_listed(size_t length)
{
    return (length - TANDOS_LIST_SIZE(0)) / TANDOS_FILE_RECORD_SIZE;
}
