"""Lists of writes: what --writes gives, replay, and writes."""

import json
import os
import random

from cases_map import watched
from cases_sectors import (ends_with, misstated, write_other_lengths,
                           write_same_length)
from disc import (END_RECORD, NINE, SECTOR, TEN, USED_COUNT, WRITE_RECORD, Disc,
                  moved, write_fault, write_record)
from support import (DONE, FAILED, REFUSED, case, does, equal, fails, holds,
                     is_misuse, is_refused, read, sheet_of, tandos, unchanged,
                     write)

# Sectors a track, the options that state the kind, the image of a disc.
KINDS = ((TEN, [], bytes), (TEN, ["--moved"], moved),
         (NINE, ["--sectors", "9"], bytes))

CHANGES = (["save", "NEW", "-"], ["delete", "A"], ["rename", "A", "NEW"],
           ["protect", "A", "on"])

REPLAY_ADVICE = "nothing was changed; bring the file over again as --writes " \
                "wrote it, and replay it on a copy of the disc that it was " \
                "made from.\n"
WRITES_ADVICE = "bring the file over again as --writes wrote it.\n"


def full_directory(sectors):
    """A disc whose directory sector has no free slot."""
    disc = Disc.blank(9, "D", sectors)
    for i in range(15):
        disc.save(f"F{i}", sheet_of(100 * i + 1, i))
    return disc


def gives(disc, numbers, change, *arguments, given=b""):
    """The command gives the list of these sectors and the changed image, of
    every kind of disc that has so many sectors; replaying the list on the old
    image gives the new one."""
    old = Disc(disc.data, disc.sectors)
    change(disc)
    for sectors, options, form in KINDS:
        if sectors != disc.sectors:
            continue
        write("a.img", form(old.data))
        write("b.img", form(old.data))
        equal(does(arguments[0], "a.img", *arguments[1:], "--writes", "w",
                   *options, given=given, binary=watched()).out, b"")
        equal(read("w"), disc.writes(numbers), "list")
        equal(read("a.img"), form(disc.data), "image")
        equal(does("replay", "b.img", "w", *options, binary=watched()).text,
              f"b.img: {len(numbers)} sector{'s' * (len(numbers) > 1)} "
              "written.\n")
        equal(read("b.img"), form(disc.data), "replayed image")
    replayed = Disc(old.data, old.sectors)
    replayed.replay(disc.writes(numbers))
    equal(replayed.data, disc.data, "by the rules alone")
    equal(disc.broken_rule(), 0)


def gives_save(disc, name, sheet):
    gives(disc, disc.sectors_of_save(sheet), lambda new: new.save(name, sheet),
          "save", name, "-", given=sheet)


def gives_delete(disc, name):
    gives(disc, disc.sectors_of_delete(name), lambda new: new.delete(name),
          "delete", name)


def gives_entry(disc, name, change, *arguments):
    gives(disc, disc.sectors_of_entry(name), change, *arguments)


@case("writes: the rules' example, written out by hand")
def _():
    does("blank", "a.img", "40", "PIECES")
    does("save", "a.img", "THU.PCS", "-", "--writes", "w", given=sheet_of(300))
    found = read("w")
    equal(len(found), 4 * 259 + 1)
    equal([found[at:at + 3] for at in range(0, 4 * 259, 259)],
          [b"\3\0\1", b"\3\0\7", b"\3\0\12", b"\3\0\4"])
    equal(found[-1:], b"\0")
    equal(found[3 + 0x10:3 + 0x18], bytes([3, 0, 4, 0, 0x8C, 1, 2, 0]))
    equal(found[259 + 3:259 + 14],
          bytes([0, 10, 0xFF, 0, 0, 0x20, 0x2B, 0x21, 0, 0x20, 245]))
    equal(found[518 + 3:518 + 6], bytes([0, 0, 55]))
    equal(found[777 + 3:777 + 22], bytes([0, 0, 1]) + b"THU   PCS"
          + bytes([2, 0, 7, 0, 10, 0, 0]))
    for at, number in ((0, 0), (259, 6), (518, 9), (777, 3)):
        equal(found[at + 3:at + 259],
              read("a.img")[SECTOR * number:SECTOR * (number + 1)])


@case("writes: save, of every boundary length and in the directory's order")
def _():
    for sectors in (TEN, NINE):
        disc = Disc.blank(80, "D", sectors)
        for i, length in enumerate((1, 245, 246, 498, 499, 57344)):
            gives_save(disc, f"F{i}", sheet_of(length, i))
    disc = Disc.blank(80, "D")
    numbers = disc.sectors_of_save(sheet_of(65536))
    equal(len(numbers), 262)
    gives(disc, numbers, lambda new: new.save("ALL", sheet_of(65536), start=0),
          "save", "ALL", "-", "--start=0", given=sheet_of(65536))


@case("writes: save where the directory grows, and where a slot was cleared")
def _():
    for sectors in (TEN, NINE):
        disc = full_directory(sectors)
        numbers = disc.sectors_of_save(sheet_of(300))
        equal((len(numbers), numbers[0], numbers[-1]), (5, 0, 3))
        gives_save(disc, "F15", sheet_of(300))
        equal(disc.directory().sectors, [3, numbers[-2]])
        gives_save(disc, "F16", b"x")
        disc.delete("F3")
        equal(disc.sectors_of_save(b"x")[-1], 3)
        gives_save(disc, "F17", b"x")


@case("writes: save that takes the last free sectors, also for the directory")
def _():
    for sectors, length in ((TEN, 2016), (NINE, 1763)):
        disc = Disc.blank(1, "D", sectors)
        gives_save(disc, "X", sheet_of(length))
        equal(disc.free().sectors, [])
    disc = Disc.blank(2, "D")
    for i in range(15):
        disc.save(f"F{i}", b"x")
    gives_save(disc, "LAST", sheet_of(246))
    equal(disc.free().sectors, [])


@case("writes: the longest list, of 263 records")
def _():
    disc = Disc.blank(80, "D")
    for i in range(15):
        disc.save(f"F{i}", b"x")
    numbers = disc.sectors_of_save(sheet_of(65536))
    equal(len(numbers), 263)
    gives(disc, numbers, lambda new: new.save("ALL", sheet_of(65536), start=0),
          "save", "ALL", "-", "--start", "0", given=sheet_of(65536))
    equal(os.path.getsize("w"), 68118)


@case("writes: delete, of files of one and many sectors in any directory "
      "sector")
def _():
    for sectors in (TEN, NINE):
        disc = full_directory(sectors)
        disc.save("F15", sheet_of(600))
        for name in ("F0", "F14", "F15", "F7"):
            gives_delete(disc, name)
    disc = Disc.blank(1, "FULL")
    disc.save("X", sheet_of(2016))
    gives_delete(disc, "X")


@case("writes: rename and protect, also where nothing changes")
def _():
    for sectors in (TEN, NINE):
        disc = full_directory(sectors)
        disc.save("F15", b"x")
        for name in ("F2", "F15"):
            gives_entry(disc, name, lambda new: new.rename(name, "NEW.NAM"),
                        "rename", name, "NEW.NAM")
            for word in ("on", "on", "off", "off"):
                gives_entry(disc, "NEW.NAM",
                            lambda new: new.protect("NEW.NAM", word == "on"),
                            "protect", "NEW.NAM", word)
            disc.rename("NEW.NAM", f"N{name}")


def random_change(disc, names, chance):
    """One more command on a disc with these files, by chance."""
    name = chance.choice(names)
    word = chance.choice(("save", "save", "delete", "rename", "protect"))
    new_name = f"N{chance.randrange(10**5)}.{chance.choice('ABC')}"
    sheet = sheet_of(chance.choice((1, 245, 246, 700)), chance.randrange(9))
    if word == "save":
        gives_save(disc, new_name, sheet)
        names.append(new_name)
    elif word == "protect":
        gives_entry(disc, name, lambda new: new.protect(name, True), "protect",
                    name, "on")
        disc.protect(name, False)
    elif word == "rename":
        gives_entry(disc, name, lambda new: new.rename(name, new_name),
                    "rename", name, new_name)
        names[names.index(name)] = new_name
    else:
        gives_delete(disc, name)
        names.remove(name)


@case("writes: 80 commands by chance, one after the other, on discs of all "
      "kinds")
def _():
    chance = random.Random(14)
    for sectors in (TEN, NINE):
        disc = full_directory(sectors)
        names = [f"F{i}" for i in range(15)]
        for _ in range(40):
            random_change(disc, names, chance)
        equal(len(disc.directory().sectors) > 1, True, "the directory grew")


@case("writes: the round of a card, list after list")
def _():
    card = Disc.blank(9, "CARD")
    write("a.img", card.data)
    write("card.img", moved(card.data))
    for number, (command, *rest) in enumerate((
            ["save", "A", "-"], ["save", "B", "-"], ["protect", "A", "on"],
            ["protect", "A", "off"], ["rename", "A", "C"], ["delete", "B"],
            ["save", "D", "-"], ["delete", "C"])):
        answer = does(command, "a.img", *rest, "--writes", f"{number}.lst",
                      given=sheet_of(700, number))
        equal(answer.out, b"")
    for number in range(8):
        does("replay", "card.img", f"{number}.lst", "--moved")
    equal(read("card.img"), moved(read("a.img")))


@case("replay: the list from standard input, and what is said")
def _():
    disc = Disc.blank(2, "D")
    write("a.img", disc.data)
    write("b.img", disc.data)
    writes = does("save", "a.img", "A", "-", "--writes", "-", given=b"x").out
    equal(does("replay", "b.img", "-", given=writes).text,
          "b.img: 3 sectors written.\n")
    equal(read("b.img"), read("a.img"))
    equal(does("replay", "--", "b.img", "-", given=writes).text,
          "b.img: 3 sectors written.\n")
    equal(read("b.img"), read("a.img"), "the same once more")
    with unchanged():
        is_misuse("tandos replay: an image that is changed is a file, not '-'",
                  "replay", "-", "a.img")


def distinct(count):
    """An image whose sectors differ."""
    return b"".join(bytes([number]) * SECTOR for number in range(count))


@case("replay: an end alone, every sector, one sector twice")
def _():
    disc = Disc.blank(2, "D")
    write("a.img", disc.data)
    write("end", END_RECORD)
    equal(does("replay", "a.img", "end").text, "a.img: 0 sectors written.\n")
    equal(read("a.img"), disc.data)
    other = Disc(Disc.blank(2, "OTHER").data)
    other.save("X", sheet_of(900))
    every = other.writes(reversed(range(20)))
    write("every", every)
    equal(does("replay", "a.img", "every").text, "a.img: 20 sectors written.\n")
    equal(read("a.img"), other.data)
    twice = (write_record(1, 3, bytes([9]) * SECTOR)
             + write_record(1, 3, other.data[12 * SECTOR:13 * SECTOR])
             + END_RECORD)
    write("twice", twice)
    equal(does("replay", "a.img", "twice").text, "a.img: 2 sectors written.\n")
    equal(read("a.img"), other.data)
    write("one", other.writes([12]))
    equal(does("replay", "a.img", "one").text, "a.img: 1 sector written.\n")


@case("replay: each record goes to its track and sector, of every kind of disc")
def _():
    for sectors, options, form in KINDS:
        disc = Disc(distinct(3 * sectors), sectors)
        write("a.img", form(disc.data))
        chance = random.Random(sectors)
        writes = b"".join(
            write_record(chance.randrange(3), chance.randint(1, sectors),
                         bytes([100 + i]) * SECTOR) for i in range(12))
        write("w", writes + END_RECORD)
        answer = tandos("replay", "a.img", "w", *options, binary=watched())
        disc.replay(writes + END_RECORD)
        equal(read("a.img"), form(disc.data))
        equal((answer.status, answer.text),
              (REFUSED, "a.img: 12 sectors written.\n"))


UNSOUND = " The list is written all the same: if it was not made from this " \
          "disc as it stood, go back to a copy of it."
OR_REPAIR = " Without a copy a repair would make the disc sound, but bring " \
            "back no sector that the list has written over."


@case("replay: a disc that is not sound afterwards is written, and told of")
def _():
    disc = Disc.blank(2, "D")
    disc.save("A", sheet_of(300))
    old = Disc(disc.data)
    disc.set_word(USED_COUNT, 9)
    write("a.img", old.data)
    write("bad", disc.writes([0]))
    write("good", old.writes([0]))
    rule = "Rule 7 is broken: the used count is not the sum of the file " \
           "lengths."
    for _ in range(2):
        answer = tandos("replay", "a.img", "bad")
        equal((answer.status, answer.text, answer.error),
              (REFUSED, "a.img: 1 sector written.\n",
               f"tandos: a.img: {rule}{UNSOUND}{OR_REPAIR}\n"))
        equal(read("a.img"), disc.data)
    equal(does("replay", "a.img", "good").text, "a.img: 1 sector written.\n")
    equal(read("a.img"), old.data)
    old.data[SECTOR * 3 + 2] = 9
    write("worse", old.writes([3]))
    answer = tandos("replay", "a.img", "worse")
    holds(answer.error, "tandos: a.img: Rule 3 is broken: ")
    equal(answer.error.endswith("." + UNSOUND + "\n"), True, answer.error)
    write("zeros.img", bytes(2560))
    answer = tandos("replay", "zeros.img", "good")
    holds(answer.error, "tandos: zeros.img: Rule ")
    equal((answer.status, read("zeros.img")[:SECTOR]),
          (REFUSED, old.data[:SECTOR]))


@case("replay: images of a wrong length are refused with 1, before the list")
def _():
    write("end", END_RECORD)
    write("none", b"x")
    for length in (0, 1, 2559, 2561, 204801):
        write("a.img", bytes(length))
        with unchanged():
            for path in ("end", "none"):
                is_refused(1, "a.img", "replay", "a.img", path)
                is_refused(1, "a.img", "replay", "a.img", path, "--moved")
                is_refused(1, "a.img", "replay", "a.img", path, "--sectors=9")


@case("replay: an image that is sound as another kind is not written to")
def _():
    write("w", write_record(0, 3, bytes(SECTOR)) + END_RECORD)
    write("none", b"x")
    for number, write_discs in ((3, write_same_length),
                                (1, write_other_lengths)):
        write_discs()
        with unchanged():
            for image, options, hint in misstated():
                for path in ("w", "none"):
                    answer = is_refused(number, image, "replay", image, path,
                                        *options)
                    ends_with(answer.error, hint + "\n")
    write_same_length()
    with unchanged():
        for image, options in (("moved.img", []), ("plain.img", ["--moved"])):
            answer = is_refused(3, image, "replay", image, "w", *options)
            holds(answer.error, "arrangement the disc is sound: ")


def bad_lists():
    """A list for each thing that can be wrong, on a disc of 2 tracks of 10."""
    good = write_record(1, 10, bytes(SECTOR))
    yield b""
    yield b"\1"
    yield b"\2" + bytes(258) + END_RECORD
    yield b"\4"
    yield good + b"\xff" + good + END_RECORD
    yield good + good + b"\4" + bytes(300)
    yield good
    yield good * 3
    for cut in (1, 2, 3, 4, 255, 258):
        yield good[:cut]
        yield good + good[:cut]
    yield good + END_RECORD + END_RECORD
    yield END_RECORD + good + END_RECORD
    yield good + END_RECORD + b"\3"
    yield good + END_RECORD + bytes(259)
    for track, sector in ((2, 1), (0, 0), (1, 11), (255, 255), (79, 10),
                          (80, 1), (0, 255)):
        yield good + write_record(track, sector, bytes(SECTOR)) + END_RECORD
        yield write_record(track, sector, bytes(SECTOR)) + good + b"\7"


def is_no_list(answer, path, fault, advice):
    equal((answer.status, answer.text, answer.error),
          (REFUSED, "", f"tandos: {path}: refused with 14, BAD LIST. The file "
                        f"is no list of writes ({fault}): {advice}"))


@case("replay, writes: each thing that can be wrong with a list is said")
def _():
    write("a.img", Disc.blank(2, "D").data)
    faults = set()
    for writes in bad_lists():
        write("w", writes)
        fault = write_fault(writes, 2)
        faults.add(fault.split(": ")[1].split()[0])
        with unchanged():
            is_refused(14, "w", "replay", "a.img", "w", binary=watched())
            is_no_list(tandos("replay", "a.img", "w"), "w", fault,
                       REPLAY_ADVICE)
            is_no_list(tandos("replay", "a.img", "-", given=writes),
                       "standard input", fault, REPLAY_ADVICE)
            fault = write_fault(writes)
            for more in ([], ["--json"]):
                if fault:
                    is_no_list(tandos("writes", "w", *more, binary=watched()),
                               "w", fault, WRITES_ADVICE)
                else:
                    does("writes", "w", *more)
    equal(faults, {"the", "kind", "cut", "sector"})


@case("replay: the words of each fault, written out")
def _():
    write("one.img", Disc.blank(1, "D").data)
    write("nine.img", Disc.blank(2, "D", NINE).data)
    good = write_record(0, 9, bytes(SECTOR))
    for writes, fault in (
            (good + b"\7", "record 2, byte 259: kind 7, which is neither 3 nor "
                           "0"),
            (good[:20], "record 1, byte 0: cut short after 20 of its 259 "
                        "bytes"),
            (good, "record 2, byte 259: the list stops without its end"),
            (good + b"\0\0", "record 2, byte 259: the end, with 1 byte after "
                             "it"),
            (b"\0\0\0", "record 1, byte 0: the end, with 2 bytes after it"),
            (write_record(1, 1, bytes(SECTOR)) + b"\0",
             "record 1, byte 0: sector 1/1, which is not on a disc of 1 track "
             "of 10 sectors")):
        write("w", writes)
        is_no_list(tandos("replay", "one.img", "w"), "w", fault, REPLAY_ADVICE)
    write("w", good + write_record(1, 10, bytes(SECTOR)) + b"\0")
    is_no_list(tandos("replay", "nine.img", "w", "--sectors", "9"), "w",
               "record 2, byte 259: sector 1/10, which is not on a disc of 2 "
               "tracks of 9 sectors", REPLAY_ADVICE)


def random_list(chance):
    """Mostly good records for a disc of 3 tracks, with a fault or two."""
    writes = b""
    for _ in range(chance.randrange(4)):
        writes += write_record(chance.randrange(3), chance.randint(1, 9),
                               bytes([chance.randrange(256)]) * SECTOR)
    if chance.random() < 0.2:
        writes += write_record(chance.choice((0, 2, 3, 80, 255)),
                               chance.choice((0, 9, 10, 11, 255)),
                               bytes(SECTOR))
    if chance.random() < 0.8:
        writes += END_RECORD
    if chance.random() < 0.2:
        writes += bytes(chance.randrange(5) for _ in range(chance.randrange(4)))
    if chance.random() < 0.2:
        writes = writes[:chance.randrange(len(writes) + 1)]
    return writes


@case("replay, writes: 100 good and bad lists on all kinds of disc, with "
      "sanitizers")
def _():
    chance = random.Random(259)
    met = {kind: set() for kind in range(3)}
    for _ in range(100):
        writes = random_list(chance)
        write("w", writes)
        kind = chance.randrange(3)
        sectors, options, form = KINDS[kind]
        disc = Disc.blank(3, "D", sectors)
        write("a.img", form(disc.data))
        fault = write_fault(writes, 3, sectors)
        met[kind].add(fault is None)
        answer = tandos("replay", "a.img", "w", *options, binary=watched())
        if fault is None:
            disc.replay(writes)
            holds(answer.text, f" {len(writes) // WRITE_RECORD} sector")
            equal(answer.status, REFUSED if disc.broken_rule() else DONE)
        else:
            is_no_list(answer, "w", fault, REPLAY_ADVICE)
        equal(read("a.img"), form(disc.data))
        equal(tandos("writes", "w", binary=watched()).status,
              REFUSED if write_fault(writes) else DONE)
    equal(met, {kind: {True, False} for kind in range(3)})


@case("writes: the records as a table and as JSON")
def _():
    does("blank", "a.img", "40", "PIECES")
    does("save", "a.img", "THU.PCS", "-", "--writes", "w", given=sheet_of(300))
    text = "RECORD      BYTE  SECTOR\n" \
           "     1         0  0/1, the system sector\n" \
           "     2       259  0/7\n" \
           "     3       518  0/10\n" \
           "     4       777  0/4\n" \
           "\n" \
           "4 records and the end, 1037 bytes\n"
    equal(does("writes", "w").text, text)
    equal(does("writes", "-", given=read("w")).text, text)
    equal(json.loads(does("writes", "w", "--json").text),
          {"writes": [
              {"byte": 0, "track": 0, "sector": 1, "system": True},
              {"byte": 259, "track": 0, "sector": 7, "system": False},
              {"byte": 518, "track": 0, "sector": 10, "system": False},
              {"byte": 777, "track": 0, "sector": 4, "system": False}],
           "records": 4, "bytes": 1037})
    write("end", END_RECORD)
    equal(does("writes", "end").text,
          "RECORD      BYTE  SECTOR\n\n0 records and the end, 1 byte\n")
    equal(json.loads(does("writes", "end", "--json").text),
          {"writes": [], "records": 0, "bytes": 1})


@case("writes: every track to 79 and sector to 10, only 0/1 is the system's")
def _():
    for track, sector in ((0, 1), (0, 10), (1, 1), (79, 1), (79, 10), (0, 2)):
        write("w", write_record(track, sector, bytes(SECTOR)) + END_RECORD)
        note = ", the system sector" if (track, sector) == (0, 1) else ""
        equal(does("writes", "w").text,
              "RECORD      BYTE  SECTOR\n"
              f"     1         0  {track}/{sector}{note}\n\n"
              "1 record and the end, 260 bytes\n")
        equal(json.loads(does("writes", "--json", "w").text)["writes"],
              [{"byte": 0, "track": track, "sector": sector,
                "system": (track, sector) == (0, 1)}])


@case("writes: a list is shown for no kind of disc")
def _():
    write("w", END_RECORD)
    for options, word in ((["--moved"], "--moved"), (["--sectors=9"],
                                                     "--sectors"),
                          (["--sectors", "10"], "--sectors")):
        is_misuse("tandos writes: a list of writes is shown for no kind of "
                  f"disc: leave out '{word}'\n", "writes", "w", *options)


@case("replay, writes: 65,536 records are read, a longer file is not")
def _():
    write("a.img", Disc.blank(2, "D").data)
    disc = Disc(read("a.img"))
    record = write_record(1, 3, disc.data[12 * SECTOR:13 * SECTOR])
    write("w", record * 65536 + END_RECORD)
    equal(does("writes", "w").text.splitlines()[-1],
          "65536 records and the end, 16973825 bytes")
    equal(does("replay", "a.img", "w").text,
          "a.img: 65536 sectors written.\n")
    equal(read("a.img"), disc.data)
    write("w", record * 65536 + b"\7")
    is_refused(14, "w", "writes", "w")
    write("w", record * 65537 + END_RECORD)
    with unchanged():
        for arguments in (["writes", "w"], ["replay", "a.img", "w"],
                          ["writes", "/dev/zero"]):
            answer = tandos(*arguments)
            equal((answer.status, answer.text, answer.error),
                  (FAILED, "", f"tandos: {arguments[-1]}: longer than a list "
                   "of 65,536 writes: give a file that --writes wrote, or a "
                   "longer list in parts\n"))
        fails("cannot read: Is a directory", "writes", ".")
