"""Corrections: a save and its delete cancel, and two renames are one."""

import random

from cases_map import sound_disc
from cases_repair_cuts import card
from cases_writes import KINDS, full_directory
from disc import (END_RECORD, NINE, SECTOR, TEN, WRITE_RECORD, Disc,
                  module_bodies, moved, unmoved)
from support import case, does, equal, holds, is_refused, read, sheet_of, write

# The most sectors of a sheet that starts at 0x2000, as saves do.
LONGEST = 226
# The track byte of an end link; no disc has so many tracks.
END_TRACK = 99


def worn(disc):
    """The disc with bytes other than zero where no rule asks for any: in the
    system sector, behind the slots of the directory, after the links of free
    sectors, and in the track byte that ends the free chain."""
    for at in (*range(0x10), *range(0x21, 0x40), *range(0x60, SECTOR)):
        disc.data[at] = 0xA5
    for number in disc.directory().sectors:
        disc.data[SECTOR * number + 243:SECTOR * (number + 1)] = b"\x5A" * 13
    free = disc.free().sectors
    for number in free:
        disc.data[SECTOR * number + 2:SECTOR * (number + 1)] = b"\xE5" * 254
    disc.data[SECTOR * free[-1]] = END_TRACK
    equal(disc.broken_rule(), 0)
    return disc


def kinds_of(disc):
    return [(options, form) for sectors, options, form in KINDS
            if sectors == disc.sectors]


def filling(count, seed=0):
    """A sheet that fills so many sectors."""
    return sheet_of(245 + 253 * (count - 1), seed)


def bodies_of(sheet):
    return module_bodies(sheet, 0, 0x2000, 0x2000)


def taken_by(disc, sheet):
    """The sectors that a save takes for the file."""
    return disc.free().sectors[:len(bodies_of(sheet))]


def may_differ(disc, sheet):
    """The bytes that a save and its delete may leave otherwise, by the disc
    before them: bytes 2 to 255 of the sectors that the file took, and the track
    byte of the old end of the free chain where the save reached it."""
    free, taken = disc.free().sectors, taken_by(disc, sheet)
    places = {at for number in taken
              for at in range(SECTOR * number + 2, SECTOR * (number + 1))}
    return places | {SECTOR * free[-1]} if taken == free else places


def differing(disc, image):
    equal(len(image), len(disc.data), "length")
    return {at for at, (old, new) in enumerate(zip(disc.data, image))
            if old != new}


def do_listed(options, command, *arguments, given=b""):
    """The command on a.img, and its list replayed on b.img. Gives the number of
    writes."""
    does(command, "a.img", *arguments, "--writes", "w", *options, given=given)
    does("replay", "b.img", "w", *options)
    return (len(read("w")) - len(END_RECORD)) // WRITE_RECORD


def write_both(disc, form):
    for path in ("a.img", "b.img"):
        write(path, form(disc.data))


def save_and_delete(disc, sheet, options, form):
    """The number of the save's writes, and the plain image after both."""
    write_both(disc, form)
    writes = do_listed(options, "save", "NEW", "-", given=sheet)
    do_listed(options, "delete", "NEW")
    image = read("a.img")
    equal(read("b.img"), image, "replayed image")
    return writes, unmoved(image) if form is moved else image


def cancels(disc, sheet):
    """A save and its delete leave no other byte changed, and the sheet's bytes
    in its sectors. Gives the plain image of each kind."""
    taken, images = taken_by(disc, sheet), []
    for options, form in kinds_of(disc):
        write("old.img", form(disc.data))
        writes, image = save_and_delete(disc, sheet, options, form)
        equal(writes, len(taken) + 2, "writes of the save")
        equal(sorted(differing(disc, image) - may_differ(disc, sheet)), [],
              "bytes that differ elsewhere")
        equal([bytes(image[SECTOR * number + 2:SECTOR * (number + 1)])
               for number in taken], bodies_of(sheet), "bytes of the sheet")
        equal(does("list", "a.img", *options).text,
              does("list", "old.img", *options).text)
        images.append(image)
    return images


@case("cancels: a save and its delete, on discs of all kinds")
def _():
    for sectors in (TEN, NINE):
        for length in (1, 245, 246, 1200):
            cancels(worn(card(sectors)), sheet_of(length, 3))
        cancels(Disc.blank(40, "BLANK", sectors), sheet_of(300))


@case("cancels: a save that reaches the end of the free chain, and one that "
      "does not")
def _():
    for sectors in (TEN, NINE):
        nearly_full = Disc.blank(1, "D", sectors)
        nearly_full.save("X", filling(len(nearly_full.free().sectors) - 2))
        for disc in (worn(card(sectors)), worn(nearly_full)):
            free = disc.free().sectors
            for count, track in ((len(free), 0), (len(free) - 1, END_TRACK)):
                for image in cancels(disc, filling(count, 3)):
                    equal(image[SECTOR * free[-1]], track, "track byte")


@case("cancels: where the directory grows, its sector stays; the next save and "
      "delete cancel")
def _():
    for sectors in (TEN, NINE):
        disc, sheet = worn(full_directory(sectors)), sheet_of(600, 3)
        taken = taken_by(disc, sheet)
        grown = disc.free().sectors[len(taken)]
        for options, form in kinds_of(disc):
            writes, image = save_and_delete(disc, sheet, options, form)
            equal(writes, len(taken) + 3, "writes of the save")
            equal({at // SECTOR for at in differing(disc, image)
                   - may_differ(disc, sheet)}, {0, 3, taken[-1], grown})
            after = Disc(image, sectors)
            equal(after.directory().sectors, [3, grown])
            cancels(after, sheet)


@case("cancels: a save to a slot that was cleared in a full directory")
def _():
    for sectors in (TEN, NINE):
        disc = full_directory(sectors)
        disc.delete("F3")
        cancels(worn(disc), sheet_of(600, 3))


@case("cancels: 24 discs by chance")
def _():
    chance = random.Random(8)
    for number in range(24):
        disc = sound_disc(chance, chance.choice((TEN, NINE)))
        most = min(len(disc.free().sectors), LONGEST)
        count = chance.choice((1, most, chance.randint(1, most)))
        cancels(worn(disc), filling(count, number))


@case("cancels: a deleted sheet is not listed or read, and its bytes can be "
      "seen until a save takes the sectors")
def _():
    disc, sheet = card(TEN), b"12 trousers" * 27
    write("a.img", disc.data)
    places = [disc.place(number) for number in taken_by(disc, sheet)]

    def views():
        return [does("view", "a.img", place).text for place in places]
    does("save", "a.img", "NEW", "-", given=sheet)
    seen = views()
    does("delete", "a.img", "NEW")
    equal(views(), seen)
    holds(seen[0], "trousers")
    equal("NEW" in does("list", "a.img").text, False)
    is_refused(4, "a.img", "read", "a.img", "NEW")
    does("save", "a.img", "OTHER", "-", given=b"7 jackets" * 33)
    equal("trousers" in "".join(views()), False)


def renamed(disc, names, options, form):
    """The image after the renames from each name to the next."""
    write_both(disc, form)
    for old, new in zip(names, names[1:]):
        equal(do_listed(options, "rename", old, new), 1, "writes")
    equal(read("b.img"), read("a.img"), "replayed image")
    return read("a.img")


def discs_to_rename(sectors):
    """(disc, names of files in different slots and directory sectors)"""
    grown = full_directory(sectors)
    grown.save("F15", sheet_of(300))
    return (worn(card(sectors)), ("A", "C.PCS")), \
           (worn(grown), ("F0", "F14", "F15"))


@case("cancels: renaming A to B, then B to C, is renaming A to C")
def _():
    for disc, names in (*discs_to_rename(TEN), *discs_to_rename(NINE)):
        for name in names:
            for options, form in kinds_of(disc):
                by_way = renamed(disc, [name, "LONGER.EXT", "N"], options, form)
                equal(by_way, renamed(disc, [name, "N"], options, form))
                equal(by_way == form(disc.data), False, "renamed at all")


@case("cancels: renaming A to B, then B to A, gives the image as it was")
def _():
    for disc, names in (*discs_to_rename(TEN), *discs_to_rename(NINE)):
        for name in names:
            for options, form in kinds_of(disc):
                equal(renamed(disc, [name, "LONGER.EXT", name], options, form),
                      form(disc.data))
