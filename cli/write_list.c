#include "write_list.h"

#include "bytes.h"
#include "message.h"
#include "write_fault.h"

enum status read_write_list(struct write_list *list, const char *path)
{
    list->path = path;
    if (read_file(path, list->bytes, sizeof list->bytes, &list->length) !=
        STATUS_DONE)
        return STATUS_FAILED;
    if (list->length == sizeof list->bytes)
        return say_problem(input_name(path),
                           "longer than a list of 65,536 writes: give a file "
                           "that --writes wrote, or a longer list in parts");
    return STATUS_DONE;
}

unsigned write_count(const struct write_list *list)
{
    return (unsigned)(list->length / TANDOS_WRITE_RECORD_SIZE);
}

enum status say_bad_list(const struct write_list *list, unsigned tracks,
                         unsigned sectors, const char *advice)
{
    char fault[WRITE_FAULT_SIZE];

    return say_list_refused(list->path,
                            write_fault(list->bytes, list->length, tracks,
                                        sectors, fault),
                            advice);
}
