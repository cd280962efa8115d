"""The map, against the chains computed from the rules of the format."""

import os
import random
import re
import xml.etree.ElementTree as ElementTree

from cases_commands import on_terminal
from disc import (Disc, FREE_COUNT, FREE_POINTER, SECTOR, TEN, USED_COUNT,
                  typed_name)
from support import (DONE, REFUSED, SANITIZED, TANDOS, case, does, equal,
                     fails, holds, is_misuse, is_refused, read, sheet_of,
                     tandos, write)

SVG = "{http://www.w3.org/2000/svg}"
DAMAGED_DISCS = 200


def sound_disc(chance, sectors=TEN):
    """A sound disc with a history: files in pieces, some deleted before."""
    tracks = chance.choice((1, 2, 3, 5, 8, 35, 40, 80))
    return with_history(Disc.blank(tracks, "MAP", sectors), chance)


def with_history(disc, chance):
    """Saves and deletes on a blank disc."""
    standing = []
    for i in range(chance.randrange(1, 12)):
        sheet = sheet_of(chance.randrange(1, 3000), i)
        if len(disc.free().sectors) > 1 + len(sheet) // 253:
            disc.save(f"F{i}.X", sheet)
            standing.append(f"F{i}.X")
        if standing and chance.random() < 0.3:
            disc.delete(standing.pop(chance.randrange(len(standing))))
    return disc


def cell(meetings, is_off):
    """The cell of a sector on the map."""
    if not meetings:
        return "?"
    label = "." if meetings[0] == "free" else meetings[0]
    return label + ("+" if len(meetings) > 1 else ">" if is_off else "")


def off_sectors(disc):
    return {walk.off_from for _, walk in disc.chains()
            if walk.stop == "off" and walk.sectors}


def expected_cells(disc):
    off = off_sectors(disc)
    return [cell(met, number in off)
            for number, met in enumerate(disc.meetings())]


def found_cells(text, sectors=TEN):
    """The rows between that of the sector numbers and the legend."""
    head, *rows = [row.split() for row in text.split("\n\n")[1].splitlines()]
    equal(head, ["track"] + [str(i + 1) for i in range(sectors)])
    equal([row[0] for row in rows], [str(i) for i in range(len(rows))])
    equal({len(row) for row in rows}, {sectors + 1}, "cells in a row")
    return [label for row in rows for label in row[1:]]


def escaped(text):
    return "".join("\\\\" if c == "\\" else c if " " <= c <= "~"
                   else "\\x%02X" % ord(c) for c in text)


def chain_names(disc):
    names = {"sys": "system sector", "dir": "directory", "free": "free chain"}
    for i, entry in enumerate(disc.entries()):
        names[str(i + 1)] = escaped(typed_name(entry.name))
    return names


def positions(disc):
    """For each sector, the (chain, position) of its meetings in order."""
    met = [[] for _ in range(disc.count)]
    met[0].append(("sys", 1))
    for label, walk in disc.chains():
        for i, number in enumerate(walk.sectors):
            met[number].append((label, i + 1))
        if walk.stop in ("system", "again"):
            met[walk.stopped_at].append((label, len(walk.sectors) + 1))
    return met


def check_legend(disc, text):
    names = chain_names(disc)
    for label, walk in disc.chains():
        shown = "." if label == "free" else label
        count = len(walk.sectors)
        line = f"{shown:>5}  {names[label]}, {count} sector"
        holds(text, line + ("" if count == 1 else "s"))


def expected_damage(disc):
    """The lines on sectors that are met again, lost, or linked off."""
    names = chain_names(disc)

    def told(label, position):
        return names[label] + ("" if label == "sys"
                               else f" (sector {position})")
    lines = []
    for number, met in enumerate(positions(disc)):
        if len(met) > 1:
            more = f", and {len(met) - 2} more" if len(met) > 2 else ""
            lines.append(f"  {disc.place(number)}: {told(*met[0])}, "
                         f"{told(*met[1])}{more}")
    for label, walk in disc.chains():
        if walk.stop == "off":
            start = disc.place(walk.off_from) if walk.sectors else "beginning"
            track, sector = walk.off_to
            lines.append(f"  {start} of {names[label]}: to {track}/{sector}")
    return lines


def lines_under(text, heading):
    match = re.search(rf"^{heading}:\n((?:  .*\n)+)", text, re.MULTILINE)
    return match.group(1).splitlines() if match else []


def check_text_map(disc, answer):
    rule = disc.broken_rule()
    head = answer.text.splitlines()[0]
    holds(head, "The disc is sound." if rule == 0 else
          f"Rule {rule} is broken: ")
    equal(found_cells(answer.text, disc.sectors), expected_cells(disc),
          "cells")
    equal(" \n" in answer.text, False, "space at the end of a line")
    check_legend(disc, answer.text)
    if rule != 0:
        equal(sorted(lines_under(answer.text, "Met more than once")
                     + lines_under(answer.text, "Linked off the disc")),
              sorted(expected_damage(disc)))
        lost = lines_under(answer.text, "Lost, met by no chain")
        equal(" ".join(lost).split(),
              [disc.place(number)
               for number, met in enumerate(disc.meetings()) if not met])
    equal(answer.error, "", "standard error")
    equal(answer.status, DONE if rule == 0 else REFUSED, "status")


def corner(group):
    """Where the rectangle of a sector or of the legend begins."""
    rectangle = group.find(f"{SVG}rect")
    return int(rectangle.get("x")), int(rectangle.get("y"))


def check_grid(disc, root, cells):
    """A row for each track, a column for each sector, numbered."""
    rulers, = [[text.text for text in group.findall(f"{SVG}text")]
               for group in root.iter(f"{SVG}g") if group.get("text-anchor")]
    equal(rulers, [str(i + 1) for i in range(disc.sectors)]
          + [str(i) for i in range(disc.tracks)])
    columns = sorted({x for x, _ in map(corner, cells)})
    rows = sorted({y for _, y in map(corner, cells)})
    for number, (x, y) in enumerate(map(corner, cells)):
        equal((rows.index(y), columns.index(x) + 1), disc.pair_of(number))


def check_svg(disc, data):
    root = ElementTree.fromstring(data)
    names = chain_names(disc)
    cells = [group for group in root.iter(f"{SVG}g")
             if group.get("class") == "sector"]
    equal(len(cells), disc.count, "sectors")
    check_grid(disc, root, cells)
    for number, (group, met) in enumerate(zip(cells, positions(disc))):
        title = group.find(f"{SVG}title").text
        texts = [text.text for text in group.findall(f"{SVG}text")]
        if not met:
            equal((title, texts), (f"{disc.place(number)}: lost", ["?"]))
            continue
        label, position = met[0]
        holds(title,
              f"{disc.place(number)}: {names[label]}, sector {position}")
        shown = "." if label == "free" else label
        equal(texts[0].rstrip("+>"), shown)
        equal(texts[1], str(position))
    legend = [group for group in root.iter(f"{SVG}g")
              if group.get("class") == "chain"]
    equal(len(legend), len(names), "legend")


@case("map: sound discs are as the rules compute them, as text and picture")
def _():
    chance = random.Random(1)
    for _ in range(30):
        disc = sound_disc(chance)
        equal(disc.broken_rule(), 0)
        write("a.img", disc.data)
        check_text_map(disc, does("map", "a.img"))
        does("map", "a.img", "--svg", "a.svg")
        check_svg(disc, read("a.svg"))


@case("map: a blank disc, a full one, one with 749 files")
def _():
    full = Disc.blank(1, "FULL")
    full.save("X", sheet_of(2016))
    many = Disc.blank(80, "MANY")
    for i in range(749):
        many.save(f"F{i}", b"x")
    for disc in (Disc.blank(80, "BLANK"), full, many):
        write("a.img", disc.data)
        check_text_map(disc, does("map", "a.img"))
        check_svg(disc, does("map", "a.img", "--svg", "-").out)


def damaged_disc(chance, sectors=TEN):
    """A sound disc with one to four bytes changed, mostly among those that
    the chains stand in. Chance alone hardly ever breaks rules 4 and 8 and none
    before them."""
    while True:
        disc = sound_disc(chance, sectors)
        kind = chance.randrange(20)
        if kind == 0:
            lose_sectors(disc)
        elif kind == 1:
            repeat_name(disc)
        else:
            for _ in range(chance.randrange(1, 5)):
                disc.data[damaged_place(disc, chance)] = \
                    damaged_byte(disc, chance)
        if disc.broken_rule() != 0:
            return disc


def lose_sectors(disc):
    """The second half of the free chain is in no place."""
    free = disc.free().sectors
    if len(free) > 1:
        disc.set_link(free[len(free) // 2 - 1], None)
        disc.set_word(FREE_COUNT, len(free) // 2)


def repeat_name(disc):
    """The second file has the name of the first."""
    first, *others = [at for at, data in disc.slots() if any(data)] or [None]
    if others:
        disc.data[others[0]:others[0] + 9] = disc.data[first:first + 9]


def damaged_place(disc, chance):
    number = chance.randrange(disc.count)
    return chance.choice((
        chance.randrange(FREE_POINTER, USED_COUNT + 2),
        SECTOR * number + chance.randrange(2),
        SECTOR * number + chance.randrange(2),
        SECTOR * 3 + chance.randrange(3, 3 + 16 * 6),
        SECTOR * 3 + chance.randrange(3)))


def damaged_byte(disc, chance):
    """Often on the boundary: the first and last sector and track, and those
    after them."""
    return chance.choice((0, 1, chance.randrange(1, disc.sectors + 1),
                          disc.sectors, disc.sectors + 1,
                          chance.randrange(disc.tracks), disc.tracks - 1,
                          disc.tracks, 0xFF, chance.randrange(256)))


def watched():
    """The sanitized build where there is one."""
    return SANITIZED if os.path.exists(SANITIZED) else TANDOS


@case(f"map: {DAMAGED_DISCS} damaged discs, as text and picture, "
      + ("with sanitizers" if os.path.exists(SANITIZED)
         else "without sanitizers (not in this compiler)"))
def _():
    chance = random.Random(2)
    rules = set()
    for _ in range(DAMAGED_DISCS):
        disc = damaged_disc(chance)
        rules.add(disc.broken_rule())
        write("a.img", disc.data)
        check_text_map(disc, tandos("map", "a.img", binary=watched()))
        answer = tandos("map", "a.img", "--svg", "a.svg", binary=watched())
        equal(answer.status, REFUSED)
        holds(answer.error, f"a.img: Rule {disc.broken_rule()} is broken: ")
        check_svg(disc, read("a.svg"))
    equal(rules, set(range(1, 9)), "broken rules")


@case("map: discs of any bytes, among them directories of 12,000 entries")
def _():
    chance = random.Random(3)
    for tracks in (1, 2, 5, 80):
        for kind in ("random", "few", "filled"):
            disc = Disc.blank(tracks, "ANY")
            for at in range(SECTOR, len(disc.data)):
                disc.data[at] = {"random": chance.randrange(256),
                                 "few": chance.randrange(11),
                                 "filled": 1 + at % 5}[kind]
            if kind == "filled":
                order = list(range(1, disc.count))
                for number, following in zip(order, order[1:] + [None]):
                    disc.set_link(number, following)
                disc.set_pair(0x12, 1)
            write("a.img", disc.data)
            answer = tandos("map", "a.img", binary=watched())
            equal((answer.status, answer.error), (REFUSED, ""))
            holds(answer.text, f"Rule {disc.broken_rule()} is broken: ")
            if tracks < 80:
                check_text_map(disc, answer)
            answer = tandos("map", "a.img", "--svg", "-", binary=watched())
            equal(answer.status, REFUSED)
            ElementTree.fromstring(answer.out)


@case("map: the counts and ends that an unsound disc has wrong")
def _():
    disc = Disc.blank(1, "D")
    disc.save("A", sheet_of(300))
    disc.set_word(USED_COUNT, 9)
    write("a.img", disc.data)
    text = tandos("map", "a.img").text
    holds(text, "No sector is met more than once, lost, or linked off the disc.")
    holds(text, "The used count says 9, the entries' lengths add up to 2.")
    disc.set_word(USED_COUNT, 2)
    disc.set_word(0x14, 5)
    write("a.img", disc.data)
    holds(tandos("map", "a.img").text,
          ".  free chain, 6 sectors, 0/3 to 0/8; the free count says 5\n")
    disc.set_word(0x14, 6)
    disc.data[SECTOR * 3 + 3 + 13] = 5
    write("a.img", disc.data)
    holds(tandos("map", "a.img").text, "Not ended where the entry says:\n"
          "  A: at 0/10, the entry says 0/5\n")
    disc.data[SECTOR * 3 + 3 + 13] = 10
    disc.data[SECTOR * 3 + 3 + 9] = 3
    write("a.img", disc.data)
    holds(tandos("map", "a.img").text,
          "1  A, 2 sectors, 0/7 to 0/10; the entry says 3\n")


@case("map: names of any bytes are printable, and escaped in the picture")
def _():
    disc = Disc.blank(1, "D")
    disc.save("A", b"x")
    disc.data[0x18:0x21] = b"<&\">\x1b\0\xff'\\"
    disc.data[SECTOR * 3 + 3:SECTOR * 3 + 12] = b"<\x07&>]]\"\xfe\\"
    write("a.img", disc.data)
    answer = tandos("map", "a.img")
    check_text_map(disc, answer)
    holds(answer.text, r"""Disc <&">\x1B\x00\xFF'\\: 1 track.""")
    equal(all(c == "\n" or " " <= c <= "~" for c in answer.text), True)
    data = tandos("map", "a.img", "--svg", "-").out
    check_svg(disc, data)
    equal(ElementTree.fromstring(data).find(f"{SVG}title").text,
          r"""Map of the disc <&">\x1B\x00\xFF'\\""")


def uncoloured(text):
    return re.sub(r"\033\[[0-9;]*m", "", text)


@case("map: colour on a terminal, unless NO_COLOR or --color say otherwise")
def _():
    disc = Disc.blank(2, "D")
    disc.save("A", sheet_of(300))
    write("a.img", disc.data)
    plain = does("map", "a.img").text
    equal("\033" in plain, False)
    coloured = on_terminal("map", "a.img", NO_COLOR="")
    holds(coloured, "\033[")
    equal(uncoloured(coloured), plain)
    equal(does("map", "--color=always", "a.img").text, coloured)
    equal(does("map", "--color", "never", "a.img").text, plain)
    equal(on_terminal("map", "a.img", NO_COLOR="1"), plain)
    equal(on_terminal("map", "a.img", TERM="dumb", NO_COLOR=""), plain)
    equal(on_terminal("map", "a.img", "--color=never"), plain)
    equal(on_terminal("map", "a.img", "--color=always", NO_COLOR="1"),
          coloured)
    is_misuse("--color is always, never or auto, not 'blue'", "map",
              "--color=blue", "a.img")


@case("map: refusal 1, missing files, standard input, the image kept")
def _():
    write("wrong.img", bytes(2561))
    is_refused(1, "wrong.img", "map", "wrong.img")
    is_refused(1, "wrong.img", "map", "wrong.img", "--svg", "a.svg")
    equal(os.listdir("."), ["wrong.img"])
    fails("cannot open", "map", "missing.img")
    disc = Disc.blank(1, "D")
    write("a.img", disc.data)
    check_text_map(disc, does("map", "-", given=bytes(disc.data)))
    fails("is the image itself", "map", "a.img", "--svg", "a.img")
    fails("cannot make a temporary file", "map", "a.img", "--svg", "no/a.svg")
    equal(read("a.img"), disc.data)
