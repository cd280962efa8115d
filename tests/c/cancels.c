#include "cancels.h"

#include <string.h>

#include "report.h"

void put_back(struct disc *disc, const struct disc *before, unsigned taken)
{
    struct place here = pair_at(before->bytes + 0x10);

    for (; taken > 0; taken--) {
        struct place next = link_of(before, here);

        memcpy(at(disc, here, 2), sector_of(before, here) + 2, 254);
        if (next.sector == 0)
            *at(disc, here, 0) = sector_of(before, here)[0];
        here = next;
    }
}

uint32_t rename_lent(struct disc *disc, const char *old_name,
                     const char *new_name, size_t writes_len)
{
    struct command command = a_rename(text(old_name), text(new_name));

    return try_command(disc, &command, writes_len).number;
}

int expect_joined(const struct disc *start, const char *const *names,
                  size_t writes_len)
{
    struct disc once = *start, twice = *start;
    uint32_t first = rename_lent(&twice, names[0], names[1], writes_len);
    uint32_t second = rename_lent(&twice, names[1], names[2],
                                  ENTRY_WRITES_SIZE);

    EXPECT_NUMBER(0, first);
    EXPECT_NUMBER(0, second);
    if (strcmp(names[0], names[2]) != 0)
        EXPECT_NUMBER(0, rename_lent(&once, names[0], names[2], writes_len));
    expect_disc("two renames", &once, &twice);
    return first == TANDOS_DONE && second == TANDOS_DONE;
}
