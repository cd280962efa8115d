"""totals: the pieces of each worker, added up from the sheets."""

import json
import random

from cases_commands import on_terminal
from cases_map import watched
from disc import (DATE_RECORD, Disc, END_RECORD, NINE, SECTOR, USED_COUNT,
                  WORKERS, moved, pieces_record, records, sheet_fault)
from support import (DONE, REFUSED, case, does, equal, fails, holds, is_misuse,
                     is_refused, read, tandos, unchanged, write)

GO_ON = " Nothing is added up: correct the file, or give --only-good to go " \
        "on without it.\n"
LEFT_OUT = " Nothing is added from it.\n"


def disc_of(files, tracks=3, **kind):
    """A disc with these sheets by their names."""
    disc = Disc.blank(tracks, "WEEK", **kind)
    for name, sheet in files.items():
        disc.save(name, sheet)
    return disc


def write_disc(path, files, **kind):
    disc = disc_of(files, **kind)
    write(path, disc.data)
    return disc


def table(totals, sheets):
    """What is printed of {worker: pieces}."""
    rows = "".join(f"{worker:6}  {pieces:12}\n"
                   for worker, pieces in sorted(totals.items()))
    return (f"WORKER        PIECES\n{rows}\n TOTAL  {sum(totals.values()):12}\n"
            f"SHEETS  {sheets:12}\n")


def week():
    """Two discs: 7 has 120 + 5, 12 has 40, 500 has 1000 pieces."""
    write_disc("a.img", {"MON.PCS": records((7, 120), (12, 40))})
    write_disc("b.img", {"TUE.PCS": records((500, 1000)),
                         "WED.PCS": records((7, 5))})


WEEK = {7: 125, 12: 40, 500: 1000}


@case("totals: the table of two discs, as it is printed")
def _():
    week()
    equal(does("totals", "a.img", "b.img").text,
          "WORKER        PIECES\n"
          "     7           125\n"
          "    12            40\n"
          "   500          1000\n"
          "\n"
          " TOTAL          1165\n"
          "SHEETS             3\n")
    equal(does("totals", "b.img", "a.img").text, table(WEEK, 3))
    equal(does("totals", "a.img").text, table({7: 120, 12: 40}, 1))


@case("totals: records by their bytes, low byte first; dates are passed over")
def _():
    write_disc("a.img", {"A": bytes([1, 0x02, 0x01, 0x04, 0x03,
                                     2, 1, 1, 0, 9,
                                     1, 0x02, 0x01, 1, 0,
                                     2, 255, 255, 255, 255, 0])})
    equal(does("totals", "a.img").text, table({258: 0x0304 + 1}, 1))


@case("totals: nobody, everybody, and workers without pieces")
def _():
    write_disc("none.img", {})
    equal(does("totals", "none.img").text, table({}, 0))
    write_disc("ends.img", {"A": END_RECORD, "B": DATE_RECORD + END_RECORD})
    equal(does("totals", "ends.img").text, table({}, 2))
    write_disc("zero.img", {"A": records((1, 0), (2, 1), (3, 0))})
    equal(does("totals", "zero.img").text, table({2: 1}, 1))
    everybody = {worker: 65536 - worker for worker in range(1, WORKERS + 1)}
    write_disc("all.img", {"A": records(*everybody.items())})
    equal(does("totals", "all.img").text, table(everybody, 1))


@case("totals: 100 discs of the longest directory's sheets and random ones")
def _():
    many = {f"F{i}": pieces_record(1 + i % WORKERS, i) + END_RECORD
            for i in range(749)}
    write_disc("many.img", many, tracks=80)
    expected = {worker: 0 for worker in range(1, WORKERS + 1)}
    for i in range(749):
        expected[1 + i % WORKERS] += i
    paths, sheets = ["many.img"], 749
    chance = random.Random(12)
    for number in range(99):
        pairs = [(chance.randint(1, WORKERS), chance.randint(0, 65535))
                 for _ in range(chance.randrange(100))]
        write_disc(f"{number}.img", {f"S{number}": records(*pairs)})
        for worker, pieces in pairs:
            expected[worker] += pieces
        paths.append(f"{number}.img")
        sheets += 1
    equal(does("totals", *paths).text,
          table({w: p for w, p in expected.items() if p}, sheets))


@case("totals: the longest sheet that a file holds")
def _():
    sheet = pieces_record(9, 65535) * 13107 + END_RECORD
    equal(len(sheet), 65536)
    disc = Disc.blank(80, "LONG")
    disc.save("ALL", sheet, start=0)
    write("a.img", disc.data)
    equal(does("totals", "a.img").text, table({9: 13107 * 65535}, 1))


@case("totals: --moved and --sectors 9 state every image")
def _():
    files = {"A": records((1, 2)), "B": records((3, 4))}
    write("plain.img", disc_of(files, tracks=36).data)
    write("moved.img", moved(disc_of(files, tracks=36).data))
    write("nine.img", disc_of(files, tracks=40, sectors=NINE).data)
    for path, options in (("plain.img", []), ("moved.img", ["--moved"]),
                          ("nine.img", ["--sectors", "9"])):
        equal(does("totals", path, *options).text, table({1: 2, 3: 4}, 2))
    answer = is_refused(3, "plain.img", "totals", "moved.img", "plain.img",
                        "--moved", "--only-good")
    holds(answer.error, "leave --moved out.\n")
    answer = is_refused(3, "plain.img", "totals", "nine.img", "plain.img",
                        "--sectors=9")
    holds(answer.error, "leave --sectors out.\n")


@case("totals: an image from standard input, once")
def _():
    week()
    equal(does("totals", "-", "a.img", given=read("b.img")).text,
          table(WEEK, 3))
    is_refused(1, "standard input", "totals", "-", given=b"x")
    write_disc("bad.img", {"BAD": b"\7"})
    is_refused(12, "standard input: BAD", "totals", "-",
               given=read("bad.img"))
    is_misuse("tandos totals: standard input can be read only once: leave out "
              "all but one '-'\n", "totals", "-", "a.img", "-",
              given=read("a.img"))


NAMES = ("MON.PCS", "MON", "M", "TUE.PCS", "TUE1.PC", "MONPCS", "M.N")
PATTERNS = {
    "*": NAMES,
    "***": NAMES,
    "*.PCS": ("MON.PCS", "TUE.PCS"),
    "MON": ("MON",),
    "MON*": ("MON.PCS", "MON", "MONPCS"),
    "MON?": (),
    "?": ("M",),
    "???": ("MON", "M.N"),
    "M?N": ("MON", "M.N"),
    "*N": ("MON", "M.N"),
    "*.*": ("MON.PCS", "TUE.PCS", "TUE1.PC", "M.N"),
    "*C*S": ("MON.PCS", "TUE.PCS", "MONPCS"),
    "?*?.P*": ("MON.PCS", "TUE.PCS", "TUE1.PC"),
    "*P*P*": (),
    "T*.PC": ("TUE1.PC",),
    "*E*E*": (),
    "MON.PCS?": (),
    "mon*": (),
    "": (),
    "[MT]*": (),
    "MON   PCS": (),
    "*" * 1000 + "X": (),
}


@case("totals: --sheet takes the files whose names match")
def _():
    value = {name: 10 ** (i % 4) for i, name in enumerate(NAMES)}
    write_disc("a.img", {name: records((i + 1, value[name]))
                         for i, name in enumerate(NAMES)})
    write_disc("none.img", {})
    for pattern, names in PATTERNS.items():
        for form in (["--sheet", pattern], [f"--sheet={pattern}"]):
            arguments = ["totals", "a.img", "none.img", *form]
            if names:
                equal(does(*arguments).text,
                      table({NAMES.index(name) + 1: value[name]
                             for name in names}, len(names)), pattern)
                continue
            answer = tandos(*arguments)
            equal((answer.status, answer.text, answer.error),
                  (REFUSED, "", "tandos totals: no file of the images matches "
                   f"'{pattern}': list them to see the names that stand, in "
                   "capital letters.\n"))


@case("totals: --sheet leaves out files that are no sheets")
def _():
    write_disc("a.img", {"A.PCS": records((7, 1)), "NOTES.TXT": b"hello"})
    write_disc("b.img", {"NOTES.TXT": b"hello"})
    equal(does("totals", "a.img", "b.img", "--sheet", "*.PCS").text,
          table({7: 1}, 1))


@case("totals: JSON and rows with commas")
def _():
    week()
    text = does("totals", "a.img", "b.img", "--json").text
    equal(text, '{"workers": [\n'
                '  {"worker": 7, "pieces": 125},\n'
                '  {"worker": 12, "pieces": 40},\n'
                '  {"worker": 500, "pieces": 1000}],\n'
                ' "total": 1165, "sheets": 3}\n')
    equal(json.loads(text),
          {"workers": [{"worker": worker, "pieces": pieces}
                       for worker, pieces in WEEK.items()],
           "total": 1165, "sheets": 3})
    equal(does("totals", "--csv", "a.img", "b.img").text,
          "worker,pieces\n7,125\n12,40\n500,1000\n")
    write_disc("none.img", {})
    equal(json.loads(does("totals", "none.img", "--json").text),
          {"workers": [], "total": 0, "sheets": 0})
    equal(does("totals", "none.img", "--csv").text, "worker,pieces\n")
    write_disc("one.img", {"A": records((1, 65535))})
    equal(json.loads(does("totals", "one.img", "--json").text),
          {"workers": [{"worker": 1, "pieces": 65535}], "total": 65535,
           "sheets": 1})
    is_misuse("tandos totals: --json and --csv exclude each other\n", "totals",
              "a.img", "--csv", "--json")


@case("totals: an image that is refused or missing ends it, "
      "with --only-good too")
def _():
    week()
    write_disc("notes.img", {"NOTES": b"hello"})
    write("wrong.img", bytes(2559))
    bad = Disc(read("b.img"))
    bad.set_word(USED_COUNT, 9)
    write("bad.img", bad.data)
    write("sums.csv", b"worker,pieces\n1,1\n")
    with unchanged():
        for more in ([], ["--only-good"], ["--json"], ["--csv"],
                     ["--add-to", "sums.csv"], ["--sheet", "NONE"]):
            for images in (["a.img", "{}", "b.img"], ["notes.img", "{}"]):
                def given(path):
                    return [name.format(path) for name in images]
                is_refused(1, "wrong.img", "totals", *given("wrong.img"),
                           *more)
                is_refused(3, "bad.img", "totals", *given("bad.img"), *more)
                answer = tandos("totals", *given("missing.img"), *more)
                equal((answer.status, answer.text, answer.error),
                      (2, "", "tandos: missing.img: cannot open: No such file "
                       "or directory\n"))
        fails("cannot read: Is a directory", "totals", ".")


BAD_SHEETS = {
    "byte 0: a record of kind 7": b"\7",
    "byte 0: a record of kind 3": b"\3\0\0\0\0\0",
    "byte 15: a record of kind 255":
        records((1, 1), (2, 2))[:-1] + b"\xff\0\0\0\0\0",
    "byte 10: a record of kind 104": records((1, 1))[:-1] + b"hello",
    "no end": DATE_RECORD,
    "the last record is cut short": records((1, 1))[:-1] + b"\1\1\0\1",
    "1 byte after the end": records((1, 1)) + b"\0",
    "3 bytes after the end": records((1, 1)) + b"\1\1\0",
    "6 bytes after the end": END_RECORD + records(),
    "byte 5: worker 501": records((501, 1)),
    "byte 5: worker 0": records((0, 1), (501, 1)),
    "byte 15: worker 65535": records((500, 0), (1, 1), (65535, 0)),
    "byte 5: worker 511": records((511, 1)),
}


@case("totals: each thing that can be wrong with a sheet is said")
def _():
    for fault, sheet in BAD_SHEETS.items():
        equal(sheet_fault(sheet), fault)
        write_disc("a.img", {"GOOD": records((7, 1)), "BAD.PCS": sheet})
        answer = is_refused(12, "a.img: BAD.PCS", "totals", "a.img",
                            binary=watched())
        equal(answer.error, "tandos: a.img: BAD.PCS: refused with 12, BAD "
              f"SHEET. The file is no sheet of records ({fault}).{GO_ON}")
    for cut in range(1, 5):
        for kind in (1, 2):
            write_disc("a.img", {"A": bytes([kind]) + bytes(cut - 1)})
            holds(tandos("totals", "a.img").error,
                  "(the last record is cut short)")


def not_plain(disc, name):
    """Makes a file that is saved on its disc no load module."""
    entry = next(entry for entry in disc.entries()
                 if entry.name.decode().rstrip() == name)
    track, sector = entry.first
    disc.data[SECTOR * (disc.sectors * track + sector - 1) + 2] = 0xFE
    return disc


def mixed():
    """A good sheet and one of each refusal on the first disc, one that is none
    on the second; 7 has 3 pieces."""
    disc = disc_of({"ODD": records((1, 1)), "GOOD": records((7, 1)),
                    "NOTES": b"hello"})
    write("a.img", not_plain(disc, "ODD").data)
    write_disc("b.img", {"GOOD2": records((7, 2)),
                         "LAST": records((1, 1)) + b"\0"})


def said_of_mixed(hint):
    return ("tandos: a.img: ODD: refused with 9, NOT PLAIN. The file is not a "
            "plain load module: look at its sectors with the sector view, or "
            f"read it with the program that wrote it.{hint}"
            "tandos: a.img: NOTES: refused with 12, BAD SHEET. The file is no "
            f"sheet of records (byte 0: a record of kind 104).{hint}"
            "tandos: b.img: LAST: refused with 12, BAD SHEET. The file is no "
            f"sheet of records (1 byte after the end).{hint}")


@case("totals: every file that is no sheet is named, and nothing is printed")
def _():
    mixed()
    with unchanged():
        for more in ([], ["--json"], ["--csv"], ["--add-to", "new.csv"]):
            answer = tandos("totals", "a.img", "b.img", *more)
            equal((answer.status, answer.text, answer.error),
                  (REFUSED, "", said_of_mixed(GO_ON)))


@case("totals: --only-good names them and goes on")
def _():
    mixed()
    answer = tandos("totals", "a.img", "b.img", "--only-good")
    equal((answer.status, answer.text, answer.error),
          (DONE, table({7: 3}, 2), said_of_mixed(LEFT_OUT)))
    answer = tandos("totals", "b.img", "--only-good", "--sheet", "L*",
                    "--json")
    equal((answer.status, json.loads(answer.text)),
          (DONE, {"workers": [], "total": 0, "sheets": 0}))
    holds(answer.error, "tandos: b.img: LAST: refused with 12, BAD SHEET.")
    week()
    equal(does("totals", "a.img", "b.img", "--only-good").text, table(WEEK, 3))


def random_sheet(chance):
    """Mostly good records, with a fault or two."""
    sheet = b""
    for _ in range(chance.randrange(4)):
        worker = chance.choice((1, 2, 256, 499, 500, chance.randint(1, 500)))
        sheet += chance.choice((DATE_RECORD, pieces_record(
            worker, chance.choice((0, 1, 255, 256, 65535)))))
    if chance.random() < 0.3:
        sheet += pieces_record(chance.choice((0, 501, 512, 65535)), 1)
    if chance.random() < 0.8:
        sheet += END_RECORD
    if chance.random() < 0.3:
        sheet += bytes(chance.randrange(4) for _ in range(chance.randrange(6)))
    if chance.random() < 0.2:
        sheet = sheet[:chance.randrange(len(sheet) + 1)]
    return sheet or b"\0"


@case("totals: 150 discs of good and bad sheets, with sanitizers")
def _():
    chance = random.Random(500)
    met = set()
    for _ in range(150):
        files = {f"S{i}": random_sheet(chance)
                 for i in range(chance.randrange(1, 5))}
        write_disc("a.img", files)
        faults = {name: sheet_fault(sheet) for name, sheet in files.items()}
        totals = {}
        for name, sheet in files.items():
            for at in range(0, len(sheet) - 1, 5):
                if faults[name] is None and sheet[at] == 1:
                    worker = sheet[at + 1] + 256 * sheet[at + 2]
                    totals[worker] = (totals.get(worker, 0) + sheet[at + 3]
                                      + 256 * sheet[at + 4])
        bad = {name: fault for name, fault in faults.items() if fault}
        answer = tandos("totals", "a.img", "--only-good", binary=watched())
        equal((answer.status, answer.text),
              (DONE, table({w: p for w, p in totals.items() if p},
                           len(files) - len(bad))))
        equal(answer.error, "".join(
            f"tandos: a.img: {name}: refused with 12, BAD SHEET. The file is "
            f"no sheet of records ({fault}).{LEFT_OUT}"
            for name, fault in bad.items()))
        met |= {fault.split(":")[-1].strip(" 0123456789")
                for fault in bad.values()}
        equal(tandos("totals", "a.img", binary=watched()).status,
              REFUSED if bad else DONE)
    equal(met, {"a record of kind", "no end", "the last record is cut short",
                "byte after the end", "bytes after the end", "worker"})


@case("totals: a total of 1,000,000,000 stands, one more is refused")
def _():
    # On each of four discs 250,000,000, for which a file has room.
    quarter = [(9, 65535)] * 3814 + [(9, 250_000_000 - 3814 * 65535)]
    names = [f"Q{i}" for i in range(4)]
    for i, name in enumerate(names):
        write_disc(f"{i}.img", {name: records((400 + i, 1), *quarter)},
                   tracks=10)
    write_disc("one.img", {"ONE": records((8, 5), (9, 1), (9, 1))})
    images = [f"{i}.img" for i in range(4)]
    full = {9: 1_000_000_000, 400: 1, 401: 1, 402: 1, 403: 1}
    equal(does("totals", *images).text, table(full, 4))
    for more in ([], ["--only-good"], ["--json"], ["--csv"]):
        answer = is_refused(13, "one.img: ONE", "totals", *images, "one.img",
                            *more)
        holds(answer.error, "or correct the one that is too large. Worker 9 "
                            "would have 1000000002.\n")
    answer = is_refused(13, "3.img: Q3", "totals", "one.img", *images)
    holds(answer.error, " Worker 9 would have 1000000002.\n")


SAME_IMAGE = "tandos: {}: the same image as {}; its sheets are counted " \
             "twice: leave one of them out if that is not meant.\n"
SAME_SHEET = "tandos: {}: {}: the same sheet as in {}; it is counted twice: " \
             "leave one of them out if that is not meant.\n"


def warns(warnings, expected, *arguments, **options):
    answer = tandos("totals", *arguments, **options)
    equal((answer.status, answer.text, answer.error),
          (DONE, expected, warnings))


@case("totals: the same image twice is said, and counted")
def _():
    week()
    write("copy.img", read("a.img"))
    twice = table({7: 240, 12: 80}, 2)
    warns(SAME_IMAGE.format("a.img", "a.img"), twice, "a.img", "a.img")
    warns(SAME_IMAGE.format("copy.img", "a.img"), twice, "a.img", "copy.img")
    warns(SAME_IMAGE.format("standard input", "a.img"), twice, "a.img", "-",
          given=read("a.img"))
    warns(SAME_IMAGE.format("a.img", "standard input"), twice, "-", "a.img",
          given=read("a.img"))
    warns(SAME_IMAGE.format("copy.img", "a.img")
          + SAME_IMAGE.format("b.img", "b.img")
          + SAME_IMAGE.format("./a.img", "a.img"),
          table({7: 370, 12: 120, 500: 2000}, 7),
          "a.img", "b.img", "copy.img", "b.img", "./a.img")
    warns(SAME_IMAGE.format("b.img", "b.img"), table({500: 2000}, 2), "b.img",
          "b.img", "--sheet", "TUE*")


@case("totals: the same sheet on two discs is said, and counted")
def _():
    sheet, other = records((7, 1)), records((7, 2))
    write_disc("a.img", {"A": sheet, "B": other})
    write_disc("b.img", {"C": other, "A": sheet})
    write_disc("c.img", {"B": other, "A": sheet, "C": other})
    warns(SAME_SHEET.format("b.img", "A", "a.img"), table({7: 6}, 4), "a.img",
          "b.img")
    warns("".join((SAME_SHEET.format("b.img", "A", "a.img"),
                   SAME_SHEET.format("c.img", "B", "a.img"),
                   SAME_SHEET.format("c.img", "A", "a.img"),
                   SAME_SHEET.format("c.img", "C", "b.img"))),
          table({7: 11}, 7), "a.img", "b.img", "c.img")
    warns(SAME_SHEET.format("b.img", "A", "a.img")
          + SAME_IMAGE.format("a.img", "a.img"),
          table({7: 9}, 6), "a.img", "b.img", "a.img")


@case("totals: other names, other bytes and what is not counted are not twice")
def _():
    sheet = records((7, 1))
    write_disc("a.img", {"A": sheet, "D": records((7, 9))})
    write_disc("b.img", {"B": sheet, "D": records((7, 8))})
    write_disc("c.img", {"A": records((7, 1), (8, 0))})
    equal(does("totals", "a.img", "b.img", "c.img").text,
          table({7: 20}, 5))
    write_disc("none.img", {})
    equal(does("totals", "none.img", "none.img").text, table({}, 0))
    write("odd.img", not_plain(disc_of({"ODD": sheet, "BAD": b"x"}),
                               "ODD").data)
    answer = tandos("totals", "odd.img", "odd.img", "--only-good",
                    binary=watched())
    equal((answer.text, answer.status), (table({}, 0), DONE))
    equal("the same" in answer.error, False, answer.error)
    equal(answer.error.count("\n"), 4)
    # Nothing is counted at all where a file is refused.
    answer = tandos("totals", "a.img", "a.img", "odd.img")
    equal(("the same" in answer.error, answer.error.count("\n")), (False, 2))


def charted(totals, bars, sheets):
    """The table with bars of these lengths."""
    head, *rows = table(totals, sheets).splitlines()
    workers = [row + "  " + "#" * bar for row, bar in zip(rows, bars)]
    return "\n".join([head, *workers, *rows[len(bars):]]) + "\n"


@case("totals: bars on a terminal, as wide as it is")
def _():
    write_disc("a.img", {"A": records((1, 1), (2, 250), (3, 500), (4, 1000),
                                      (5, 999))})
    totals = {1: 1, 2: 250, 3: 500, 4: 1000, 5: 999}
    for columns, bars in ((0, (1, 15, 29, 57, 57)), (80, (1, 15, 29, 57, 57)),
                          (123, (1, 25, 50, 100, 100)),
                          (43, (1, 5, 10, 20, 20)), (24, (1, 1, 1, 1, 1))):
        equal(on_terminal("totals", "a.img", columns=columns),
              charted(totals, bars, 1), f"{columns} columns")
    for columns in (1, 22, 23):
        equal(on_terminal("totals", "a.img", columns=columns),
              table(totals, 1))
    for option in ("--json", "--csv"):
        equal(on_terminal("totals", "a.img", option, columns=80),
              does("totals", "a.img", option).text)
    write_disc("few.img", {"A": records((1, 1), (2, 2))})
    equal(on_terminal("totals", "few.img", columns=43),
          charted({1: 1, 2: 2}, (10, 20), 1))
    write_disc("none.img", {})
    equal(on_terminal("totals", "none.img", columns=80), table({}, 0))
