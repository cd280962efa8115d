/* The map as text. */
#include <stdlib.h>
#include <string.h>

#include "hint.h"
#include "kind.h"
#include "map.h"
#include "text.h"

/* Select graphic rendition, ECMA-48. */
#define DAMAGE_COLOUR "97;41"

static const char *colour_of(unsigned chain)
{
    static const char *const file_colours[] = {
        "32", "33", "34", "35", "36", "92", "93", "94", "95", "96"
    };

    switch (chain) {
    case SYSTEM_CHAIN: return "1";
    case DIRECTORY_CHAIN: return "1;36";
    case FREE_CHAIN: return "90";
    default:
        return file_colours[(chain - FIRST_FILE_CHAIN) %
                            (sizeof file_colours / sizeof file_colours[0])];
    }
}

/* The text stands right in five columns; its padding is not coloured. */
static void print_label(FILE *to, const char *text, const char *colour)
{
    fprintf(to, "%*s", 5 - (int)strlen(text), "");
    if (colour != NULL)
        fprintf(to, "\033[%sm%s\033[0m", colour, text);
    else
        fputs(text, to);
}

static void print_cell(FILE *to, const struct sector *sector, bool is_coloured)
{
    bool is_damaged = is_lost(sector) || is_met_again(sector) ||
                      sector->links_off;
    char text[CHAIN_TEXT_SIZE];
    const char *label = is_lost(sector)
                            ? "?" : chain_label(sector->first.chain, text);
    const char *colour = is_damaged ? DAMAGE_COLOUR
                                    : colour_of(sector->first.chain);

    print_label(to, label, is_coloured ? colour : NULL);
}

/* Stands after a sector's label and tells of damage. */
static const char *mark_of(const struct sector *sector)
{
    if (is_met_again(sector))
        return "+";
    return sector->links_off ? ">" : "";
}

static void print_track(FILE *to, const struct chains *chains, unsigned track,
                        bool is_coloured)
{
    const struct sector *sectors =
        &chains->sector[track * chains->sectors_per_track];
    const char *mark = "";
    unsigned i;

    fprintf(to, "%5u", track);
    for (i = 0; i < chains->sectors_per_track; i++) {
        fputs(*mark == '\0' ? " " : mark, to);
        print_cell(to, &sectors[i], is_coloured);
        mark = mark_of(&sectors[i]);
    }
    fprintf(to, "%s\n", mark);
}

static void print_tracks(FILE *to, const struct chains *chains,
                         bool is_coloured)
{
    unsigned track, i;

    fputs("track", to);
    for (i = 1; i <= chains->sectors_per_track; i++)
        fprintf(to, " %5u", i);
    putc('\n', to);
    for (track = 0; track < chains->tracks; track++)
        print_track(to, chains, track, is_coloured);
}

static void print_plain(FILE *to, const char *text)
{
    fputs(text, to);
}

void print_chain(FILE *to, const struct chains *chains, unsigned number,
                 void (*print_text)(FILE *to, const char *text))
{
    const struct chain *chain = &chains->chain[number];
    char text[CHAIN_TEXT_SIZE];

    print_text(to, chain_name(chains, number, text));
    if (number == SYSTEM_CHAIN)
        return;
    fprintf(to, ", %u sector%s", chain->length, plural(chain->length));
    if (chain->length > 0)
        fprintf(to, ", %u/%u", chain->first.track, chain->first.sector);
    if (chain->length > 1)
        fprintf(to, " to %u/%u", chain->last.track, chain->last.sector);
    if (chain->said_length != chain->length)
        fprintf(to, "; the %s says %u", chain->name ? "entry" : "free count",
                chain->said_length);
}

static void print_legend(FILE *to, const struct chains *chains,
                         bool is_coloured)
{
    char text[CHAIN_TEXT_SIZE];
    unsigned i;

    putc('\n', to);
    for (i = 0; i < chains->count; i++) {
        print_label(to, chain_label(i, text), is_coloured ? colour_of(i)
                                                          : NULL);
        fputs("  ", to);
        print_chain(to, chains, i, print_plain);
        putc('\n', to);
    }
}

static void print_damage_legend(FILE *to)
{
    fputs("    +  met more than once\n"
          "    >  linked off the disc\n"
          "    ?  lost: met by no chain\n", to);
}

void print_map(FILE *to, const struct chains *chains, uint32_t rule,
               bool is_coloured)
{
    char text[NAME_TEXT_SIZE];

    fprintf(to, "Disc %s: %u track%s%s. %s%s\n\n",
            disc_name_text(chains->disc_name, text), chains->tracks,
            plural(chains->tracks), marks_of(chains->image)->heading,
            tandos_rule_text(rule), image_hint(chains->image));
    print_tracks(to, chains, is_coloured);
    print_legend(to, chains, is_coloured);
    if (rule == 0)
        return;
    print_damage_legend(to);
    print_damage(to, chains);
}
