#include "damages.h"

/* What isn't the same for ten and nine sectors a track: the sectors of B, those
 * of the free chain, the first that isn't on the disc; and the free count, one
 * less and one more. A is in 0/7. */
enum {
    B_FIRST = 0x100, B_LAST, FREE_1, FREE_2, FREE_LAST_BUT_1, FREE_LAST,
    BEYOND, FREE_FEWER, FREE_MORE
};

static unsigned by_name(unsigned number)
{
    static const unsigned of_ten[] = { 10, 3, 6, 9, 5, 8, 11, 4, 6 };
    static const unsigned of_nine[] = { 2, 5, 8, 3, 6, 9, 10, 3, 5 };

    if (number < B_FIRST)
        return number;
    return of_kind(of_ten[number - B_FIRST], of_nine[number - B_FIRST]);
}

/*
 * On the small disc 0/1 has the free pointer in bytes 16, 17, the directory
 * pointer in 18, 19, the free count in 20, 21, the used count in 22, 23. In 0/4
 * the entry of A stands in bytes 3 to 18 and that of B in 19 to 34: name, then
 * length at +9, first at +11, last at +13, attribute at +15.
 */
const struct damage damages[] = {
    /* the directory pointer off the disc, or 0/1 */
    { 1, { { 1, 18, 0 } } },
    { 1, { { 1, 18, BEYOND } } },
    { 1, { { 1, 18, 255 } } },
    { 1, { { 1, 19, 1 } } },
    { 1, { { 1, 19, 255 } } },
    { 1, { { 1, 18, 1 } } },
    /* the directory's link off the disc, to 0/1, to itself */
    { 2, { { 4, 1, BEYOND } } },
    { 2, { { 4, 0, 1 }, { 4, 1, 1 } } },
    { 2, { { 4, 1, 1 } } },
    { 2, { { 4, 1, 4 } } },
    { 2, { { 4, 1, FREE_1 }, { FREE_1, 1, 4 } } },
    /* the number of entries */
    { 3, { { 4, 2, 1 } } },
    { 3, { { 4, 2, 3 } } },
    { 3, { { 4, 35 + 15, 0x80 } } },
    { 3, { { 4, 35 + 15, 0x80 }, { 4, 2, 3 } } },
    /* names: small letter, none, a space inside, a dot, zero padding */
    { 3, { { 4, 3, 'a' } } },
    { 3, { { 4, 3, ' ' } } },
    { 3, { { 4, 5, 'C' } } },
    { 3, { { 4, 10, 'C' } } },
    { 3, { { 4, 4, '.' } } },
    { 3, { { 4, 11, 0 } } },
    /* length 0, attributes */
    { 3, { { 4, 12, 0 } } },
    { 3, { { 4, 18, 0x01 } } },
    { 3, { { 4, 18, 0x40 } } },
    { 3, { { 4, 18, 0x81 } } },
    { 3, { { 4, 34, 0xFF } } },
    /* the same name twice */
    { 4, { { 4, 19, 'A' } } },
    /* a file shorter or longer than its entry says */
    { 5, { { 4, 12, 2 } } },
    { 5, { { 4, 13, 1 } } },
    { 5, { { 4, 28, 1 } } },
    { 5, { { 4, 28, 1 }, { 4, 32, B_FIRST } } },
    { 5, { { 4, 28, 3 } } },
    /* another last sector, off the disc as well */
    { 5, { { 4, 32, B_FIRST } } },
    { 5, { { 4, 32, 0 } } },
    { 5, { { 4, 33, 1 } } },
    { 5, { { 4, 16, 0 } } },
    /* a first sector or link off the disc, or in use elsewhere */
    { 5, { { 4, 14, 0 } } },
    { 5, { { 4, 14, BEYOND } } },
    { 5, { { 4, 15, 1 } } },
    { 5, { { 4, 14, 1 }, { 4, 16, 1 } } },
    { 5, { { 4, 14, 4 }, { 4, 16, 4 } } },
    { 5, { { 4, 14, B_LAST }, { 4, 16, B_LAST } } },
    { 5, { { B_FIRST, 1, BEYOND } } },
    { 5, { { B_FIRST, 0, 1 } } },
    { 5, { { B_FIRST, 1, 7 }, { 4, 32, 7 } } },
    { 5, { { B_FIRST, 1, 4 }, { 4, 32, 4 } } },
    { 5, { { B_LAST, 1, B_FIRST } } },
    /* the free count; the free chain off the disc, looped, in use elsewhere */
    { 6, { { 1, 20, FREE_FEWER } } },
    { 6, { { 1, 20, FREE_MORE } } },
    { 6, { { 1, 21, 1 } } },
    { 6, { { 1, 16, 0 } } },
    { 6, { { 1, 16, 1 } } },
    { 6, { { 1, 16, 4 } } },
    { 6, { { 1, 16, BEYOND } } },
    { 6, { { 1, 17, 1 } } },
    { 6, { { FREE_1, 1, FREE_1 } } },
    { 6, { { FREE_LAST, 1, FREE_1 } } },
    { 6, { { FREE_LAST, 1, 7 } } },
    { 6, { { FREE_LAST, 1, 1 } } },
    { 6, { { FREE_LAST, 1, 4 }, { 1, 20, FREE_MORE } } },
    { 6, { { FREE_LAST, 1, BEYOND } } },
    { 6, { { FREE_LAST, 0, 1 }, { FREE_LAST, 1, 1 }, { 1, 20, FREE_MORE } } },
    /* the used count */
    { 7, { { 1, 22, 2 } } },
    { 7, { { 1, 22, 4 } } },
    { 7, { { 1, 23, 1 } } },
    /* a sector that is nowhere */
    { 8, { { 1, 16, FREE_2 }, { 1, 20, FREE_FEWER } } },
    { 8, { { 1, 16, 0 }, { 1, 20, 0 } } },
    { 8, { { FREE_LAST_BUT_1, 1, 0 }, { 1, 20, FREE_FEWER } } },
    /* the lowest of several */
    { 1, { { 1, 18, 0 }, { 4, 2, 1 }, { 1, 22, 4 } } },
    { 2, { { 4, 1, 4 }, { 4, 2, 1 }, { 1, 22, 4 } } },
    { 3, { { 4, 2, 1 }, { 4, 19, 'A' }, { 1, 20, FREE_FEWER } } },
    { 4, { { 4, 19, 'A' }, { 4, 12, 2 }, { 1, 22, 4 } } },
    { 5, { { 4, 12, 2 }, { 1, 20, FREE_FEWER }, { 1, 22, 4 } } },
    { 6, { { 1, 16, FREE_2 }, { 1, 22, 4 } } },
    { 7, { { 1, 16, FREE_2 }, { 1, 20, FREE_FEWER }, { 1, 22, 4 } } },
    /* sound: end links go by their sector byte, as does a free pointer */
    { 0, { { 4, 0, 5 } } },
    { 0, { { 7, 0, 255 }, { B_LAST, 0, 1 } } },
    { 0, { { FREE_LAST, 0, 5 } } },
    /* sound: bytes under no rule, and a protected file */
    { 0, { { 1, 0, 1 }, { 1, 24, 0 }, { 1, 64, 0 }, { 1, 255, 1 } } },
    { 0, { { 4, 243, 1 }, { 4, 255, 1 } } },
    { 0, { { 4, 18, 0x80 }, { 7, 2, 0 }, { FREE_1, 9, 1 } } }
};

const size_t damage_count = sizeof damages / sizeof damages[0];

void make_damaged(struct disc *disc, const struct damage *damage)
{
    const struct change *changes = damage->changes;
    size_t i;

    make_small(disc);
    for (i = 0; i < 4 && changes[i].sector != 0; i++)
        *at(disc, place(0, by_name(changes[i].sector)), changes[i].byte) =
            (uint8_t)by_name(changes[i].value);
}
