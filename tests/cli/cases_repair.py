"""repair: what it does to discs of all kinds, what it says, what it refuses."""

import os
import random
import re

from cases_map import damaged_disc, sound_disc, watched
from cases_writes import KINDS
from disc import (DIRECTORY_POINTER, Disc, FREE_COUNT, FREE_POINTER, NINE,
                  SECTOR, TEN, USED_COUNT, Walk, moved, typed_name)
from support import (DONE, FAILED, REFUSED, case, does, equal, fails, holds,
                     is_misuse, is_refused, read, sheet_of, tandos, unchanged,
                     write)

RULE = {
    1: "Rule 1 is broken: the directory pointer is not on the disc, or is 0/1.",
    2: "Rule 2 is broken: the directory chain leaves the disc, does not end, "
       "or meets 0/1.",
    3: "Rule 3 is broken: a directory sector has a wrong number of entries, "
       "or an entry with a wrong name, length or attribute.",
    4: "Rule 4 is broken: two entries have the same name.",
    5: "Rule 5 is broken: a file's chain leaves the disc, is not as long or "
       "does not end as its entry says, or meets a sector that is in use "
       "elsewhere.",
    6: "Rule 6 is broken: the free chain leaves the disc, does not end, meets "
       "a sector that is in use, or is not as long as the free count.",
    7: "Rule 7 is broken: the used count is not the sum of the file lengths.",
    8: "Rule 8 is broken: a sector is in no file, nor in the directory, nor in "
       "the free chain.",
}

BEYOND_REPAIR = " A repair cannot mend this, and nothing was changed: see " \
                "what is left with 'tandos map' and 'tandos view', go on " \
                "with the last good copy of the disc, and replay the lists " \
                "of writes made since on it.\n"


def example(sectors=TEN):
    """A disc of 3 tracks with A of 2 sectors, B of 1 and C of 3."""
    disc = Disc.blank(3, "PIECES", sectors)
    disc.save("A", sheet_of(300))
    disc.save("B", b"x")
    disc.save("C", sheet_of(700))
    return disc


def copy_of(disc):
    return Disc(disc.data, disc.sectors)


def break_free_chain(disc):
    disc.set_link(disc.free().sectors[3], disc.find("C")[0] // SECTOR)


def break_free_count(disc):
    disc.set_word(FREE_COUNT, 1)


def break_free_pointer(disc):
    disc.data[FREE_POINTER + 1] = 200


def break_used_count(disc):
    disc.set_word(USED_COUNT, 9)


def lose_sectors(disc):
    free = disc.free().sectors
    disc.set_link(free[9], None)
    disc.set_word(FREE_COUNT, 10)


def lose_all(disc):
    disc.data[FREE_POINTER:FREE_POINTER + 2] = b"\0\0"
    disc.set_word(FREE_COUNT, 0)


# What breaks rules 6, 7 and 8 and none before them.
DAMAGES = ((break_free_chain, 6), (break_free_count, 6),
           (break_free_pointer, 6), (break_used_count, 7), (lose_sectors, 8),
           (lose_all, 8))


def report(path, old, new, last):
    """What is said of a disc that was unsound, and of the repaired one."""
    lost = sum(not met for met in old.meetings())
    free = len(new.free().sectors)
    files = len(new.entries())
    return (f"{path}: {RULE[old.broken_rule()]}\n"
            f"  threaded into the free chain: {free} sector{'s' * (free != 1)}"
            f", {lost} of them lost before\n"
            f"  free count: {old.word(FREE_COUNT)} before, {free} after\n"
            f"  used count: {old.word(USED_COUNT)} before, "
            f"{new.word(USED_COUNT)} after\n"
            + (f"  files: {files}, left as they are\n" if files else
               "  files: none; if there should be some, another kind of disc "
               "is to be stated\n")
            + f"  {last}\n")


def repaired_text(path, old, new):
    return report(path, old, new, "Repaired. The disc is sound.")


def dry_text(path, old, new):
    return report(path, old, new, "A dry run: nothing is written.")


def sound_text(path, disc):
    free = len(disc.free().sectors)
    return (f"{path}: The disc is sound. Nothing has to change: {free} "
            f"sector{'s' * (free != 1)} free, {disc.word(USED_COUNT)} in "
            "files.\n")


def repairs(disc):
    """The dry run tells of it and writes nothing; the repair leaves the disc of
    the rules, of every kind that has so many sectors; another changes
    nothing."""
    new = copy_of(disc)
    new.repair()
    equal(new.broken_rule(), 0)
    for sectors, options, form in KINDS:
        if sectors != disc.sectors:
            continue
        write("a.img", form(disc.data))
        with unchanged():
            equal(does("repair", "--dry-run", "a.img", *options,
                       binary=watched()).text, dry_text("a.img", disc, new))
        equal(does("repair", "a.img", *options, binary=watched()).text,
              repaired_text("a.img", disc, new))
        equal(read("a.img"), form(new.data), "image")
        with unchanged():
            equal(does("repair", "a.img", *options).text,
                  sound_text("a.img", new))
    return new


def reads(disc, path, *options):
    """List and every file are those of the disc."""
    rows = does("list", path, *options).text.splitlines()
    free, used = rows[0].split("\t")[3:5]
    equal((int(free), int(used)),
          (disc.word(FREE_COUNT), disc.word(USED_COUNT)))
    equal([row.split("\t")[1:] for row in rows[1:]],
          [[typed_name(e.name), str(e.length),
            "protected" if e.attribute else "-"] for e in disc.entries()])
    for entry in disc.entries():
        equal(does("read", path, typed_name(entry.name), *options).out,
              sheet_in(disc, entry))


def sheet_in(disc, entry):
    """The bytes of a file that is a load module."""
    bodies = [disc.data[SECTOR * number + 2:SECTOR * (number + 1)]
              for number in Walk(disc, entry.first).sectors]
    bodies[0] = bodies[0][8:]
    return b"".join(bytes(body[1:1 + body[0]]) for body in bodies)


@case("repair: the example of the manual, written out by hand")
def _():
    """A save of two sectors, cut after 0/1 and the first of them."""
    does("blank", "a.img", "1", "D")
    does("save", "a.img", "A", "-", given=b"x")
    write("card.img", read("a.img"))
    does("save", "a.img", "B", "-", "--writes", "w", given=sheet_of(300))
    write("cut", read("w")[:2 * 259] + b"\0")
    equal(tandos("replay", "card.img", "cut").status, REFUSED)
    equal(does("repair", "card.img").text,
          "card.img: Rule 7 is broken: the used count is not the sum of the "
          "file lengths.\n"
          "  threaded into the free chain: 7 sectors, 2 of them lost before\n"
          "  free count: 5 before, 7 after\n"
          "  used count: 3 before, 1 after\n"
          "  files: 1, left as they are\n"
          "  Repaired. The disc is sound.\n")
    data = read("card.img")
    equal(data[0x10:0x18], bytes([10, 0, 4, 0, 7, 0, 1, 0]))
    for sector, link in ((10, 3), (3, 6), (6, 9), (9, 2), (2, 5), (5, 8),
                         (8, 0)):
        equal(data[256 * (sector - 1):256 * (sector - 1) + 2],
              bytes([0, link]), f"link of 0/{sector}")
    equal(data[256 * 9 + 2:256 * 9 + 4], bytes([0xFF, 0]), "bytes stay")
    equal(does("list", "card.img").text,
          "disc\tD\t1\t7\t1\nfile\tA\t1\t-\n")


@case("repair: rules 6, 7 and 8, on discs of all kinds")
def _():
    for sectors in (TEN, NINE):
        for damage, rule in DAMAGES:
            disc = example(sectors)
            damage(disc)
            equal(disc.broken_rule(), rule, damage.__name__)
            repairs(disc)


@case("repair: no free sector, one, no file, a grown directory, 749 files")
def _():
    full = Disc.blank(1, "FULL")
    full.save("X", sheet_of(2016))
    one = Disc.blank(1, "ONE")
    one.save("X", sheet_of(1760))
    blank = Disc.blank(80, "BLANK")
    grown = Disc.blank(9, "GROWN", NINE)
    for i in range(31):
        grown.save(f"F{i}", b"x")
    many = Disc.blank(80, "MANY")
    for i in range(749):
        many.save(f"F{i}", b"x")
    for disc, free in ((full, 0), (one, 1), (blank, 798), (grown, 46),
                       (many, 0)):
        equal(disc.word(FREE_COUNT), free)
        break_used_count(disc)
        equal(repairs(disc).word(FREE_COUNT), free)
    break_free_pointer(blank)
    repairs(blank)
    # A pointer that must go: to a sector of the file, and to none.
    for pair in (bytes([7, 0]), bytes([0, 200])):
        full.data[FREE_POINTER:FREE_POINTER + 2] = pair
        equal(repairs(full).pair(FREE_POINTER), (0, 0))


@case("repair: the order of a blank disc, the taken sectors left out, and only "
      "links and counts change")
def _():
    disc = Disc.blank(2, "D")
    for name in "ABCDE":
        disc.save(name, sheet_of(500, ord(name)))
    for name in "BD":
        disc.delete(name)
    disc.set_word(FREE_COUNT, 77)
    equal([disc.place(number) for number in disc.free().sectors],
          ["1/4", "1/7", "1/10", "0/6", "0/9", "0/2", "1/2", "1/5", "1/8"])
    new = repairs(disc)
    equal([new.place(number) for number in new.free().sectors],
          ["0/6", "0/9", "0/2", "1/4", "1/7", "1/10", "1/2", "1/5", "1/8"])
    for number in range(1, disc.count):
        equal(new.data[SECTOR * number + 2:SECTOR * (number + 1)],
              disc.data[SECTOR * number + 2:SECTOR * (number + 1)])
    equal((new.data[:0x10], new.data[0x12:0x14], new.data[0x18:256]),
          (disc.data[:0x10], disc.data[0x12:0x14], disc.data[0x18:256]))


@case("repair: a sound disc is left as it is, whatever the order of its free "
      "chain")
def _():
    for sectors, options, form in KINDS:
        disc = example(sectors)
        disc.delete("A")
        disc.delete("B")
        turned = copy_of(disc)
        turned.repair()
        equal(turned.data == disc.data, False, "another order")
        write("a.img", form(disc.data))
        write("b.img", form(Disc.blank(1, "B", sectors).data))
        with unchanged():
            for more in ([], ["--dry-run"]):
                equal(does("repair", "a.img", "b.img", *more, *options,
                           binary=watched()).text,
                      sound_text("a.img", disc)
                      + sound_text("b.img", Disc.blank(1, "B", sectors)))
    one = Disc.blank(1, "ONE")
    one.save("X", sheet_of(1760))
    write("a.img", one.data)
    holds(does("repair", "a.img").text, ": 1 sector free, 7 in files.\n")


def file_byte(disc, name, at):
    return disc.find(name)[0] + at


def set_bytes(at, *values):
    def change(disc):
        place = at(disc) if callable(at) else at
        disc.data[place:place + len(values)] = bytes(values)
    return change


def link_of(name, position):
    """Where the link of a file's sector stands; positions are from 1."""
    def place(disc):
        sectors = Walk(disc, disc.find(name)[1].first).sectors
        return SECTOR * sectors[position - 1]
    return place


def entry_of(name, at):
    return lambda disc: file_byte(disc, name, at)


DIRECTORY = SECTOR * 3

# For each: the rule, the change to the example, what is said of it. A is in 0/7
# and 0/10, B in 0/3, C in 0/6, 0/9 and 0/2.
REFUSED_DISCS = (
    (1, set_bytes(DIRECTORY_POINTER, 1, 0),
     "Met more than once: 0/1: system sector, directory (sector 1)"),
    (1, set_bytes(DIRECTORY_POINTER, 0, 0),
     "Linked off the disc: beginning of directory: to 0/0"),
    (1, set_bytes(DIRECTORY_POINTER, 11, 2),
     "Linked off the disc: beginning of directory: to 2/11"),
    (1, set_bytes(DIRECTORY_POINTER, 4, 3),
     "Linked off the disc: beginning of directory: to 3/4"),
    (2, set_bytes(DIRECTORY, 3, 1),
     "Linked off the disc: 0/4 of directory: to 3/1"),
    (2, set_bytes(DIRECTORY, 0, 1),
     "Met more than once: 0/1: system sector, directory (sector 2)"),
    (2, set_bytes(DIRECTORY, 0, 4),
     "Met more than once: 0/4: directory (sector 1), directory (sector 2)"),
    (3, set_bytes(DIRECTORY + 2, 4),
     "Wrong number of entries: 0/4: it says 4, but has 3"),
    (3, set_bytes(DIRECTORY + 2, 0),
     "Wrong number of entries: 0/4: it says 0, but has 3"),
    (3, set_bytes(entry_of("B", 0), ord("b")),
     "Wrong entry: 0/4, slot 2, b: no file has such a name"),
    (3, set_bytes(entry_of("B", 0), ord(" ")),
     "Wrong entry: 0/4, slot 2, : no file has such a name"),
    (3, set_bytes(entry_of("A", 2), ord("A")),
     "Wrong entry: 0/4, slot 1, A A: no file has such a name"),
    (3, set_bytes(entry_of("C", 7), ord("X")),
     "Wrong entry: 0/4, slot 3, C. X: no file has such a name"),
    (3, set_bytes(entry_of("C", 8), 0),
     "Wrong entry: 0/4, slot 3, C.  \\x00: no file has such a name"),
    (3, set_bytes(entry_of("A", 1), ord("@")),
     "Wrong entry: 0/4, slot 1, A@: no file has such a name"),
    (3, set_bytes(entry_of("A", 1), ord("[")),
     "Wrong entry: 0/4, slot 1, A[: no file has such a name"),
    (3, set_bytes(entry_of("A", 1), ord("/")),
     "Wrong entry: 0/4, slot 1, A/: no file has such a name"),
    (3, set_bytes(entry_of("A", 1), ord(":")),
     "Wrong entry: 0/4, slot 1, A:: no file has such a name"),
    (3, set_bytes(entry_of("B", 9), 0, 0),
     "Wrong entry: 0/4, slot 2, B: the length is 0"),
    (3, set_bytes(entry_of("C", 15), 0x40),
     "Wrong entry: 0/4, slot 3, C: the attribute is neither $00 nor $80"),
    (3, set_bytes(entry_of("C", 15), 0x81),
     "Wrong entry: 0/4, slot 3, C: the attribute is neither $00 nor $80"),
    (4, set_bytes(entry_of("C", 0), ord("A")),
     "The same name: A: 0/4, slot 1, and 0/4, slot 3"),
    (4, set_bytes(entry_of("C", 0), ord("B")),
     "The same name: B: 0/4, slot 2, and 0/4, slot 3"),
    (5, set_bytes(link_of("A", 1), 200, 1),
     "Linked off the disc: 0/7 of A: to 200/1"),
    (5, set_bytes(entry_of("B", 11), 0),
     "Linked off the disc: beginning of B: to 0/0"),
    (5, set_bytes(link_of("C", 3), 0, 6),
     "Met more than once: 0/6: C (sector 1), C (sector 4)"),
    (5, set_bytes(link_of("C", 3), 0, 1),
     "Met more than once: 0/1: system sector, C (sector 4)"),
    (5, set_bytes(link_of("C", 2), 0, 4),
     "Not ended where the entry says: C: at 0/4, the entry says 0/2"),
    (5, set_bytes(entry_of("A", 9), 3),
     "Not as long as the entry says: A: 2 sectors, the entry says 3"),
    (5, set_bytes(entry_of("B", 9), 2, 1),
     "Not as long as the entry says: B: 1 sector, the entry says 258"),
    (5, set_bytes(entry_of("A", 13), 5),
     "Not ended where the entry says: A: at 0/10, the entry says 0/5"),
    (5, set_bytes(entry_of("A", 14), 1),
     "Not ended where the entry says: A: at 0/10, the entry says 1/10"),
    (5, set_bytes(entry_of("B", 11), 7, 0, 10, 0),
     "Not as long as the entry says: B: 2 sectors, the entry says 1"),
    (5, set_bytes(entry_of("B", 11), 10, 0, 10, 0),
     "Met more than once: 0/10: A (sector 2), B (sector 1)"),
    (5, set_bytes(entry_of("B", 11), 4, 0, 4, 0),
     "Met more than once: 0/4: directory (sector 1), B (sector 1)"),
)


def is_beyond_repair(answer, path, rule, damage):
    equal((answer.status, answer.text, answer.error),
          (REFUSED, "", f"tandos: {path}: refused with 3, UNSOUND. "
                        f"{RULE[rule]} {damage}.{BEYOND_REPAIR}"))


@case("repair: rules 1 to 5 are refused, with the file or sector at fault")
def _():
    met = set()
    for rule, change, damage in REFUSED_DISCS:
        disc = example()
        change(disc)
        equal(disc.broken_rule(), rule, damage)
        met.add(rule)
        for options, form in (([], bytes), (["--moved"], moved)):
            write("a.img", form(disc.data))
            with unchanged():
                for more in ([], ["--dry-run"]):
                    is_beyond_repair(tandos("repair", "a.img", *options, *more,
                                            binary=watched()),
                                     "a.img", rule, damage)
    equal(met, {1, 2, 3, 4, 5})


@case("repair: the second sector of a directory, and a disc of nine sectors")
def _():
    disc = Disc.blank(9, "D", NINE)
    for i in range(17):
        disc.save(f"F{i}", b"x")
    second = SECTOR * disc.directory().sectors[1]
    place = disc.place(second // SECTOR)
    for rule, at, value, damage in (
            (3, second + 2, 3,
             f"Wrong number of entries: {place}: it says 3, but has 2"),
            (3, second + 3 + 16 + 15, 1,
             f"Wrong entry: {place}, slot 2, F16: the attribute is neither "
             "$00 nor $80"),
            (4, second + 3 + 2, ord("4"),
             f"The same name: F14: 0/4, slot 15, and {place}, slot 1"),
            (2, second + 1, 10,
             f"Linked off the disc: {place} of directory: to 0/10")):
        bad = copy_of(disc)
        bad.data[at] = value
        equal(bad.broken_rule(), rule)
        write("a.img", bad.data)
        with unchanged():
            is_beyond_repair(tandos("repair", "a.img", "--sectors", "9",
                                    binary=watched()), "a.img", rule, damage)


@case("repair: names that differ in their last byte, and a free chain in a "
      "file, are not what is at fault")
def _():
    disc = Disc.blank(3, "D")
    for name in ("A.AA1", "A.AA2", "C", "D"):
        disc.save(name, b"x")
    disc.rename("D", "C")
    write("a.img", disc.data)
    is_beyond_repair(tandos("repair", "a.img"), "a.img", 4,
                     "The same name: C: 0/4, slot 3, and 0/4, slot 4")
    disc = example()
    set_bytes(entry_of("B", 11), 10, 0, 10, 0)(disc)
    set_bytes(FREE_POINTER, 6, 0)(disc)
    equal([disc.place(number) for number in disc.free().sectors],
          ["0/6", "0/9", "0/2"])
    write("a.img", disc.data)
    is_beyond_repair(tandos("repair", "a.img"), "a.img", 5,
                     "Met more than once: 0/10: A (sector 2), B (sector 1)")


def places_at_fault(disc):
    """The sectors that two chains meet, or a chain leaves the disc from."""
    places = {disc.place(number) for number, met in enumerate(disc.meetings())
              if len(met) > 1}
    return places | {disc.place(walk.off_from) for _, walk in disc.chains()
                     if walk.stop == "off" and walk.sectors}


def is_at_fault(disc, damage):
    """Whether what is said of the damage is so."""
    heading, piece = re.fullmatch(r"([^:]*): (.*)", damage).groups()
    first = piece.split(":")[0].split(" of ")[0]
    if heading in ("Met more than once", "Linked off the disc"):
        return first == "beginning" or first in places_at_fault(disc)
    if heading in ("Wrong number of entries", "Wrong entry"):
        return first.split(",")[0] in {disc.place(number) for number
                                       in disc.directory().sectors}
    names = [typed_name(entry.name) for entry in disc.entries()]
    if heading == "The same name":
        return names.count(first) > 1
    entry = disc.entries()[names.index(first)]
    walk = Walk(disc, entry.first)
    return walk.stop == "end" and (
        len(walk.sectors) != entry.length
        or disc.pair_of(walk.sectors[-1]) != entry.last)


@case("repair: 240 damaged discs, repaired or refused by the rules alone, with "
      "sanitizers")
def _():
    chance = random.Random(7)
    rules = {}
    for turn in range(240):
        sectors, options, form = KINDS[turn % 3]
        disc = damaged_disc(chance, sectors)
        rule = disc.broken_rule()
        rules[rule] = rules.get(rule, 0) + 1
        if rule > 5:
            repairs(disc)
            continue
        write("a.img", form(disc.data))
        with unchanged():
            answer = tandos("repair", "a.img", *options, binary=watched())
        equal((answer.status, answer.text), (REFUSED, ""))
        start = f"tandos: a.img: refused with 3, UNSOUND. {RULE[rule]} "
        equal((answer.error[:len(start)], answer.error[-len(BEYOND_REPAIR):]),
              (start, BEYOND_REPAIR))
        damage = answer.error[len(start):-len("." + BEYOND_REPAIR)]
        equal(is_at_fault(disc, damage), True, damage)
    equal(set(rules), set(range(1, 9)), "broken rules")


@case("repair: discs of any bytes are refused, with sanitizers")
def _():
    chance = random.Random(8)
    for tracks in (1, 5, 80):
        for most in (256, 11, 3):
            disc = Disc.blank(tracks, "ANY")
            for at in range(SECTOR, len(disc.data)):
                disc.data[at] = chance.randrange(most)
            rule = disc.broken_rule()
            write("a.img", disc.data)
            with unchanged():
                answer = tandos("repair", "a.img", binary=watched())
            holds(answer.error, f"refused with 3, UNSOUND. {RULE[rule]} ")
            equal((answer.status, answer.error.count("\n")), (REFUSED, 1))


def several(fixed, sound, again):
    """The images of a command, what it prints, the beginnings of its errors and
    its exit status, by what is printed of bad.img and good.img."""
    beyond = "beyond.img: refused with 3, UNSOUND. Rule 3 "
    wrong = "wrong.img: refused with 1, SIZE. "
    none = "none.img: cannot open"
    return (
        (["bad.img"], fixed, [], DONE),
        (["good.img", "bad.img"], sound + fixed, [], DONE),
        (["bad.img", "good.img", "bad.img"], fixed + sound + again, [], DONE),
        (["beyond.img", "bad.img"], fixed, [beyond], REFUSED),
        (["bad.img", "beyond.img"], fixed, [beyond], REFUSED),
        (["wrong.img", "bad.img"], fixed, [wrong], REFUSED),
        (["none.img", "beyond.img", "bad.img", "wrong.img", "good.img"],
         fixed + sound, [none, beyond, wrong], FAILED),
        (["bad.img", "none.img"], fixed, [none], FAILED))


@case("repair: several images, each on its own, and the exit statuses")
def _():
    good, bad, beyond = example(), example(), example()
    break_used_count(bad)
    new = copy_of(bad)
    new.repair()
    beyond.data[DIRECTORY + 2] = 9
    write("good.img", good.data)
    write("beyond.img", beyond.data)
    write("wrong.img", b"not an image")
    for images, text, errors, status in several(
            repaired_text("bad.img", bad, new), sound_text("good.img", good),
            sound_text("bad.img", new)):
        write("bad.img", bad.data)
        answer = tandos("repair", *images)
        equal((answer.text, answer.status), (text, status))
        lines = answer.error.splitlines()
        equal(len(lines), len(errors))
        for line, error in zip(lines, errors):
            holds(line, f"tandos: {error}")
        equal(read("bad.img"), new.data)
        write("bad.img", bad.data)
        with unchanged():
            dry = tandos("repair", "--dry-run", *images)
            equal((dry.status, dry.error.replace("open:", "open for change:")),
                  (status, answer.error))
    equal((read("good.img"), read("beyond.img"), read("wrong.img")),
          (good.data, beyond.data, b"not an image"))


@case("repair: images of a wrong length are refused with 1")
def _():
    for length in (0, 1, 2559, 2561, 204801):
        write("a.img", bytes(length))
        with unchanged():
            for options in ([], ["--moved"], ["--sectors=9"], ["--dry-run"]):
                is_refused(1, "a.img", "repair", "a.img", *options)


@case("repair: standard input for a dry run alone")
def _():
    disc = example()
    break_used_count(disc)
    new = copy_of(disc)
    new.repair()
    equal(does("repair", "-", "--dry-run", given=bytes(disc.data)).text,
          dry_text("standard input", disc, new))
    equal(does("repair", "-", "--dry-run", given=bytes(new.data)).text,
          sound_text("standard input", new))
    disc.data[DIRECTORY + 2] = 9
    is_beyond_repair(tandos("repair", "--dry-run", "-",
                            given=bytes(disc.data)), "standard input", 3,
                     "Wrong number of entries: 0/4: it says 9, but has 3")
    is_misuse("tandos repair: an image that is changed is a file, not '-'\n",
              "repair", "-", given=bytes(disc.data))
    is_misuse("tandos repair: no value goes with option '--dry-run'\n",
              "repair", "--dry-run=yes", "a.img")


@case("repair: files stay readable, of every kind")
def _():
    for sectors, options, form in KINDS:
        disc = sound_disc(random.Random(sectors), sectors)
        disc.save("LAST.X", b"last")
        disc.protect("LAST.X", True)
        disc.set_word(USED_COUNT, 999)
        write("a.img", form(disc.data))
        does("repair", "a.img", *options)
        disc.repair()
        reads(disc, "a.img", *options)
        does("save", "a.img", "NEW.X", "-", *options, given=b"new")
        disc.save("NEW.X", b"new")
        equal(read("a.img"), form(disc.data))


@case("repair: misuse")
def _():
    fails("arguments are missing", "repair")
    fails("arguments are missing", "repair", "--dry-run")
    fails("cannot read: Is a directory", "repair", "--dry-run", ".")
    fails("cannot change: not a regular file", "repair", ".")
    equal(os.listdir("."), [])
