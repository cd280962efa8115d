"""A card that is pulled: every cut of every list of writes, then repair."""

import json

from cases_map import watched
from cases_repair import copy_of, dry_text, reads, repaired_text, sound_text
from cases_writes import KINDS, full_directory
from disc import END_RECORD, NINE, TEN, WRITE_RECORD, Disc
from support import DONE, REFUSED, case, does, equal, read, sheet_of, tandos, \
    unchanged, write


def cuts_of(path):
    """The list cut after each of its writes, from none to all, by the bytes at
    which `tandos writes` says that its records begin."""
    shown = json.loads(does("writes", path, "--json").text)
    starts = [record["byte"] for record in shown["writes"]]
    starts.append(shown["bytes"] - len(END_RECORD))
    equal(starts, [WRITE_RECORD * k for k in range(len(starts))])
    return [read(path)[:start] + END_RECORD for start in starts]


def pull(old, cut, options, form):
    """The card with the cut list on it, in card.img."""
    write("card.img", form(old.data))
    write("cut", cut)
    pulled = copy_of(old)
    pulled.replay(cut)
    answer = tandos("replay", "card.img", "cut", *options)
    equal(read("card.img"), form(pulled.data))
    equal(answer.status, REFUSED if pulled.broken_rule() else DONE)
    return pulled


def repair_cut(pulled, after, options, form):
    """Check, dry run and repair of a card; the files are those of `after`."""
    new = copy_of(pulled)
    if pulled.broken_rule():
        equal(pulled.broken_rule(), 7, "the used count alone")
        new.repair()
        texts = (dry_text("card.img", pulled, new),
                 repaired_text("card.img", pulled, new))
    else:
        texts = (sound_text("card.img", pulled),) * 2
    with unchanged():
        tandos("check", "card.img", *options)
        equal(does("repair", "--dry-run", "card.img", *options,
                   binary=watched()).text, texts[0])
    equal(does("repair", "card.img", *options, binary=watched()).text,
          texts[1])
    equal(read("card.img"), form(new.data), "image")
    equal(does("check", "card.img", *options).text,
          "card.img: The disc is sound.\n")
    equal(sorted(e.name for e in new.entries()),
          sorted(e.name for e in after.entries()), "files")
    reads(after_repair(after), "card.img", *options)


def after_repair(disc):
    """The files and counts that stand; the order of the free chain is left to
    the comparison of the image."""
    repaired = copy_of(disc)
    repaired.repair()
    return repaired


def is_cut_everywhere(disc, change, is_done, *arguments, given=b""):
    """Each cut of the command's list leaves the disc as before the command or
    as after it: the latter where is_done says so of the number of writes made
    and of all. What is cut is finished by the same list once more."""
    new = copy_of(disc)
    change(new)
    for sectors, options, form in KINDS:
        if sectors != disc.sectors:
            continue
        write("a.img", form(disc.data))
        does(arguments[0], "a.img", *arguments[1:], "--writes", "w", *options,
             given=given)
        equal(read("a.img"), form(new.data))
        cuts = cuts_of("w")
        for made, cut in enumerate(cuts):
            pulled = pull(disc, cut, options, form)
            does("replay", "card.img", "w", *options)
            equal(read("card.img"), form(new.data), "the list once more")
            pull(disc, cut, options, form)
            repair_cut(pulled, new if is_done(made, len(cuts) - 1) else disc,
                       options, form)


def at_last(made, writes):
    return made == writes


def at_first(made, writes):
    return made > 0


def card(sectors):
    """A disc with files in pieces: a deleted one left a gap."""
    disc = Disc.blank(4, "CARD", sectors)
    for name, length in (("A", 600), ("GAP", 300), ("B", 1), ("C.PCS", 900)):
        disc.save(name, sheet_of(length, ord(name[0])))
    disc.delete("GAP")
    disc.protect("B", True)
    return disc


@case("a pulled card: every cut of a save")
def _():
    for sectors in (TEN, NINE):
        for length in (1, 246, 1200):
            sheet = sheet_of(length, 3)
            is_cut_everywhere(card(sectors),
                              lambda disc: disc.save("NEW", sheet), at_last,
                              "save", "NEW", "-", given=sheet)


@case("a pulled card: every cut of a save where the directory grows")
def _():
    for sectors in (TEN, NINE):
        sheet = sheet_of(300, 3)
        is_cut_everywhere(full_directory(sectors),
                          lambda disc: disc.save("F15", sheet), at_last,
                          "save", "F15", "-", given=sheet)


@case("a pulled card: every cut of a save that takes the last free sectors")
def _():
    for sectors, length in ((TEN, 2016), (NINE, 1763)):
        sheet = sheet_of(length, 3)
        is_cut_everywhere(Disc.blank(1, "D", sectors),
                          lambda disc: disc.save("X", sheet), at_last,
                          "save", "X", "-", given=sheet)


@case("a pulled card: every cut of a delete")
def _():
    for sectors in (TEN, NINE):
        for name in ("A", "C.PCS"):
            is_cut_everywhere(card(sectors), lambda disc: disc.delete(name),
                              at_first, "delete", name)
    full = Disc.blank(1, "FULL")
    full.save("X", sheet_of(2016))
    is_cut_everywhere(full, lambda disc: disc.delete("X"), at_first, "delete",
                      "X")


@case("a pulled card: every cut of a rename and of a protect")
def _():
    for sectors in (TEN, NINE):
        is_cut_everywhere(card(sectors), lambda disc: disc.rename("A", "NEW"),
                          at_first, "rename", "A", "NEW")
        for word in ("on", "off"):
            is_cut_everywhere(card(sectors),
                              lambda disc: disc.protect("B", word == "on"),
                              at_first, "protect", "B", word)


@case("a pulled card: after the repair the save is made again")
def _():
    for sectors, options, form in KINDS:
        disc, sheet = card(sectors), sheet_of(800, 5)
        write("a.img", form(disc.data))
        does("save", "a.img", "NEW", "-", "--writes", "w", *options,
             given=sheet)
        pulled = pull(disc, cuts_of("w")[3], options, form)
        does("repair", "card.img", *options)
        pulled.repair()
        does("save", "card.img", "NEW", "-", *options, given=sheet)
        pulled.save("NEW", sheet)
        equal(read("card.img"), form(pulled.data))
        reads(pulled, "card.img", *options)
