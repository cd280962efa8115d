/* The damage of an unsound disc, sector by sector, in words. */
#include "damage.h"
#include "map.h"

/* How many places fit on a line. */
#define PLACES_PER_LINE 12

/* The first piece has the heading above it. */
static void print_piece(FILE *to, const char *heading, unsigned before,
                        const char *text)
{
    if (before == 0)
        fprintf(to, "\n%s:\n", heading);
    fprintf(to, "  %s\n", text);
}

static unsigned print_met_again(FILE *to, const struct chains *chains)
{
    char text[DAMAGE_TEXT_SIZE];
    unsigned found = 0, i;

    for (i = 0; i < chains->sectors; i++) {
        if (!is_met_again(&chains->sector[i]))
            continue;
        print_piece(to, MET_AGAIN, found++, met_again_text(chains, i, text));
    }
    return found;
}

static unsigned print_lost(FILE *to, const struct chains *chains)
{
    struct pair pair;
    unsigned found = 0, i;

    for (i = 0; i < chains->sectors; i++) {
        if (!is_lost(&chains->sector[i]))
            continue;
        if (found == 0)
            fputs("\nLost, met by no chain:", to);
        pair = pair_of(chains, i);
        fprintf(to, "%s%u/%u", found++ % PLACES_PER_LINE == 0 ? "\n  " : " ",
                pair.track, pair.sector);
    }
    if (found > 0)
        putc('\n', to);
    return found;
}

static unsigned print_links_off(FILE *to, const struct chains *chains)
{
    char text[DAMAGE_TEXT_SIZE];
    unsigned found = 0, i;

    for (i = 0; i < chains->count; i++) {
        if (chains->chain[i].end != CHAIN_LEAVES)
            continue;
        print_piece(to, LINKED_OFF, found++, linked_off_text(chains, i, text));
    }
    return found;
}

static void print_wrong_ends(FILE *to, const struct chains *chains)
{
    char text[DAMAGE_TEXT_SIZE];
    unsigned found = 0, i;

    for (i = FIRST_FILE_CHAIN; i < chains->count; i++) {
        if (!ends_elsewhere(&chains->chain[i]))
            continue;
        print_piece(to, ENDED_ELSEWHERE, found++,
                    ended_elsewhere_text(chains, i, text));
    }
}

void print_damage(FILE *to, const struct chains *chains)
{
    unsigned found = print_met_again(to, chains);

    found += print_lost(to, chains);
    found += print_links_off(to, chains);
    if (found == 0)
        fputs("\nNo sector is met more than once, lost, or linked off the "
              "disc.\n", to);
    print_wrong_ends(to, chains);
    if (chains->said_used != chains->said_files)
        fprintf(to, "\nThe used count says %u, the entries' lengths add up to "
                "%u.\n", chains->said_used, chains->said_files);
}
