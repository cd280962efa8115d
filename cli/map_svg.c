/* The map as a picture, SVG 1.1. */
#include <string.h>

#include "hint.h"
#include "kind.h"
#include "map.h"
#include "text.h"

/* In pixels. */
enum {
    CELL_WIDTH = 48,
    CELL_HEIGHT = 30,
    MAP_LEFT = 50,
    MAP_TOP = 120,
    LEGEND_GAP = 30,
    LEGEND_LINE = 20,
    LEGEND_WIDTH = 460,
    LEAST_LEGEND_LINES = 15,
    MARGIN = 20
};

#define LOST_FILL "#ffffff"

static const char *fill_of(unsigned chain)
{
    static const char *const file_fills[] = {
        "#a6cee3", "#b2df8a", "#fb9a99", "#fdbf6f", "#cab2d6", "#ffff99",
        "#8dd3c7", "#bebada", "#fccde5", "#b3de69", "#80b1d3", "#e5c494"
    };

    switch (chain) {
    case SYSTEM_CHAIN: return "#c0c0c0";
    case DIRECTORY_CHAIN: return "#ffd92f";
    case FREE_CHAIN: return "#f0f0f0";
    default:
        return file_fills[(chain - FIRST_FILE_CHAIN) %
                          (sizeof file_fills / sizeof file_fills[0])];
    }
}

static unsigned legend_left(const struct chains *chains)
{
    return MAP_LEFT + chains->sectors_per_track * CELL_WIDTH + LEGEND_GAP;
}

static unsigned legend_lines(const struct chains *chains)
{
    unsigned lines = chains->tracks * CELL_HEIGHT / LEGEND_LINE;

    return lines > LEAST_LEGEND_LINES ? lines : LEAST_LEGEND_LINES;
}

static unsigned legend_columns(const struct chains *chains)
{
    unsigned lines = legend_lines(chains);

    return (chains->count + lines - 1) / lines;
}

static unsigned picture_width(const struct chains *chains)
{
    return legend_left(chains) + legend_columns(chains) * LEGEND_WIDTH;
}

static unsigned picture_height(const struct chains *chains)
{
    unsigned map = chains->tracks * CELL_HEIGHT;
    unsigned legend = legend_lines(chains) * LEGEND_LINE;

    return MAP_TOP + (map > legend ? map : legend) + MARGIN;
}

static void print_head(FILE *to, const struct chains *chains, uint32_t rule)
{
    char text[NAME_TEXT_SIZE];

    disc_name_text(chains->disc_name, text);
    fprintf(to,
            "<?xml version=\"1.0\" encoding=\"UTF-8\"?>\n"
            "<svg xmlns=\"http://www.w3.org/2000/svg\" version=\"1.1\" "
            "width=\"%u\" height=\"%u\" font-family=\"sans-serif\" "
            "font-size=\"13\">\n<title>Map of the disc ",
            picture_width(chains), picture_height(chains));
    print_xml_text(to, text);
    fprintf(to, "</title>\n<rect width=\"%u\" height=\"%u\" "
            "fill=\"#ffffff\"/>\n<text x=\"%d\" y=\"28\" font-size=\"18\">Disc ",
            picture_width(chains), picture_height(chains), MARGIN);
    print_xml_text(to, text);
    fprintf(to, ": %u track%s%s</text>\n<text x=\"%d\" y=\"52\"%s>",
            chains->tracks, plural(chains->tracks),
            marks_of(chains->image)->heading, MARGIN,
            rule == 0 ? "" : " fill=\"#c00000\"");
    print_xml_text(to, tandos_rule_text(rule));
    fputs("</text>\n", to);
}

/* Above the legend, where there is room for it. */
static void print_hint(FILE *to, const struct chains *chains)
{
    const char *hint = image_hint(chains->image);

    if (*hint == '\0')
        return;
    fprintf(to, "<text x=\"%u\" y=\"28\" fill=\"#c00000\">",
            legend_left(chains));
    print_xml_text(to, hint + strlen(" "));
    fputs("</text>\n", to);
}

static void print_rulers(FILE *to, const struct chains *chains)
{
    unsigned i;

    fputs("<g text-anchor=\"middle\">\n", to);
    for (i = 0; i < chains->sectors_per_track; i++)
        fprintf(to, "<text x=\"%u\" y=\"%d\">%u</text>\n",
                MAP_LEFT + i * CELL_WIDTH + CELL_WIDTH / 2, MAP_TOP - 8, i + 1);
    for (i = 0; i < chains->tracks; i++)
        fprintf(to, "<text x=\"%d\" y=\"%u\">%u</text>\n", MAP_LEFT / 2,
                MAP_TOP + i * CELL_HEIGHT + 20, i);
    fputs("</g>\n", to);
}

/* A viewer shows it while the pointer rests on the sector. */
static void print_cell_title(FILE *to, const struct chains *chains,
                             unsigned number)
{
    const struct sector *sector = &chains->sector[number];
    struct pair pair = pair_of(chains, number);
    char text[CHAIN_TEXT_SIZE];

    fprintf(to, "<title>%u/%u: ", pair.track, pair.sector);
    if (is_lost(sector)) {
        fputs("lost", to);
    } else {
        print_xml_text(to, chain_name(chains, sector->first.chain, text));
        fprintf(to, ", sector %u", sector->first.position);
    }
    if (is_met_again(sector)) {
        fputs("; also ", to);
        print_xml_text(to, chain_name(chains, sector->second.chain, text));
        fprintf(to, ", sector %u", sector->second.position);
    }
    fprintf(to, "%s</title>", sector->links_off ? "; linked off the disc" : "");
}

static void print_cell_texts(FILE *to, const struct sector *sector, unsigned x,
                             unsigned y)
{
    char text[CHAIN_TEXT_SIZE];

    if (is_lost(sector)) {
        fprintf(to, "<text x=\"%u\" y=\"%u\">?</text>", x + 4, y + 12);
        return;
    }
    fprintf(to, "<text x=\"%u\" y=\"%u\" font-size=\"9\">%s%s%s</text>", x + 4,
            y + 11, chain_label(sector->first.chain, text),
            is_met_again(sector) ? "+" : "",
            sector->links_off ? "&gt;" : "");
    fprintf(to, "<text x=\"%u\" y=\"%u\" text-anchor=\"end\">%u</text>",
            x + CELL_WIDTH - 4, y + CELL_HEIGHT - 6, sector->first.position);
}

static void print_cell(FILE *to, const struct chains *chains, unsigned number)
{
    const struct sector *sector = &chains->sector[number];
    struct pair pair = pair_of(chains, number);
    unsigned x = MAP_LEFT + (pair.sector - 1) * CELL_WIDTH;
    unsigned y = MAP_TOP + pair.track * CELL_HEIGHT;
    bool is_damaged = is_lost(sector) || is_met_again(sector) ||
                      sector->links_off;

    fputs("<g class=\"sector\">", to);
    print_cell_title(to, chains, number);
    fprintf(to, "<rect x=\"%u\" y=\"%u\" width=\"%d\" height=\"%d\" "
            "fill=\"%s\" stroke=\"%s\" stroke-width=\"%d\"/>", x + 1, y + 1,
            CELL_WIDTH - 2, CELL_HEIGHT - 2,
            is_lost(sector) ? LOST_FILL : fill_of(sector->first.chain),
            is_damaged ? "#c00000" : "#606060", is_damaged ? 3 : 1);
    print_cell_texts(to, sector, x, y);
    fputs("</g>\n", to);
}

static void print_legend_line(FILE *to, const struct chains *chains,
                              unsigned number)
{
    unsigned lines = legend_lines(chains);
    unsigned x = legend_left(chains) + number / lines * LEGEND_WIDTH;
    unsigned y = MAP_TOP + number % lines * LEGEND_LINE;
    char text[CHAIN_TEXT_SIZE];

    fprintf(to, "<g class=\"chain\"><rect x=\"%u\" y=\"%u\" width=\"36\" "
            "height=\"16\" fill=\"%s\" stroke=\"#606060\"/>"
            "<text x=\"%u\" y=\"%u\" font-size=\"9\">%s</text>"
            "<text x=\"%u\" y=\"%u\">", x, y, fill_of(number), x + 3, y + 11,
            chain_label(number, text), x + 44, y + 13);
    print_chain(to, chains, number, print_xml_text);
    fputs("</text></g>\n", to);
}

static void print_key(FILE *to, uint32_t rule)
{
    fprintf(to, "<text x=\"%d\" y=\"72\">In each sector: its chain, and its "
            "order in that chain.</text>\n", MARGIN);
    if (rule != 0)
        fprintf(to, "<text x=\"%d\" y=\"92\" fill=\"#c00000\">Red border: + "
                "met more than once, &gt; linked off the disc, ? lost."
                "</text>\n", MARGIN);
}

void print_map_svg(FILE *to, const struct chains *chains, uint32_t rule)
{
    unsigned i;

    print_head(to, chains, rule);
    print_hint(to, chains);
    print_key(to, rule);
    print_rulers(to, chains);
    for (i = 0; i < chains->sectors; i++)
        print_cell(to, chains, i);
    for (i = 0; i < chains->count; i++)
        print_legend_line(to, chains, i);
    fputs("</svg>\n", to);
}
