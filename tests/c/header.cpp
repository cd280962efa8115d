// The header stands alone and may come twice, in C99, C11 and C++11; from C++
// the calls are found under their C names.
#include "tandos.h"
#include "tandos.h"

static uint8_t bytes[TANDOS_IMAGE_SIZE(1, TANDOS_TEN)];

static uint32_t broken_rule(uint32_t arrangement)
{
    return tandos_check(bytes, sizeof bytes, TANDOS_TEN, arrangement).rule;
}

// What TANDOS_ON made is moved, and nothing else.
static int is_moved(void)
{
    return broken_rule(TANDOS_MOVED) == 0 && broken_rule(TANDOS_PLAIN) != 0;
}

// Worker 500 gets 258 pieces.
static int is_added_up(void)
{
    static const uint8_t sheet[] = {
        TANDOS_SHEET_PIECES, 0xF4, 1, 2, 1, TANDOS_SHEET_END
    };
    static uint32_t totals[TANDOS_WORKERS];
    uint32_t done =
        tandos_add_sheet(totals, TANDOS_WORKERS, sheet, sizeof sheet);

    return done == TANDOS_DONE && totals[TANDOS_WORKERS - 1] == 258;
}

// A disc whose used count is wrong is repaired to what it was.
static int is_repaired(const tandos_image *disc)
{
    bytes[0x16] ^= 1;
    return broken_rule(disc->arrangement) == 7 &&
           tandos_repair(TANDOS_ON(*disc)) == TANDOS_DONE &&
           broken_rule(disc->arrangement) == 0;
}

// What the library wrote to a disc, it writes to a copy of it.
static int is_replayed(const tandos_image *disc)
{
    static uint8_t copy[sizeof bytes], writes[TANDOS_ENTRY_WRITES_SIZE];
    static const uint8_t sheet[] = { TANDOS_SHEET_END };
    static uint8_t saved[TANDOS_SAVE_WRITES_MAX];
    uint32_t refused = tandos_delete(TANDOS_ON(*disc), TANDOS_TEXT("A"), writes,
                                     sizeof writes).number;
    tandos_filled filled;

    memcpy(copy, bytes, sizeof copy);
    filled = tandos_save(TANDOS_ON(*disc), TANDOS_TEXT("A"), 0, 0, 0, sheet,
                         sizeof sheet, saved, sizeof saved);
    return refused == TANDOS_ABSENT && filled.number == TANDOS_DONE &&
           filled.length == TANDOS_WRITES_SIZE(3) &&
           saved[0] == TANDOS_WRITE && saved[777] == TANDOS_WRITES_END &&
           tandos_replay(copy, sizeof copy, disc->sectors, disc->arrangement,
                         saved, filled.length) == TANDOS_DONE &&
           memcmp(copy, bytes, sizeof copy) == 0;
}

int main(void)
{
    tandos_image disc = { bytes, sizeof bytes, TANDOS_TEN, TANDOS_MOVED };
    uint32_t done = tandos_blank(TANDOS_ON(disc), TANDOS_TEXT("DISC"));
    uint32_t refused = tandos_check(NULL, 0, TANDOS_NINE, TANDOS_PLAIN).number;

    return done == TANDOS_DONE && is_moved() && is_replayed(&disc) &&
           is_repaired(&disc) && is_added_up() &&
           tandos_refusal_name(refused)[0] == 'S' ? 0 : 1;
}
