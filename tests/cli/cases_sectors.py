"""Discs of nine sectors a track: --sectors in every subcommand, and what is
said where it is forgotten or stated wrongly."""

import json
import random
import xml.etree.ElementTree as ElementTree

from cases_arrangement import NEEDS_SOUND, gives_no_hint
from cases_map import (SVG, check_svg, check_text_map, corner, damaged_disc,
                       sound_disc, watched, with_history)
from cases_usage import COMMANDS
from disc import Disc, NINE, SECTOR, TEN, USED_COUNT, moved
from support import (DONE, REFUSED, case, does, equal, fails, holds, is_misuse,
                     is_refused, read, sheet_of, tandos, unchanged, write)

STATED = ["--sectors", "9"]

# The options that state each kind of disc.
KINDS = {"plain": [], "moved": ["--moved"], "nine": STATED}

# What is said of a disc of the second kind that is stated as the first.
HINTS = {
    ("plain", "nine"): " With 9 sectors a track the disc is sound: state it "
                       "with --sectors 9.",
    ("moved", "nine"): " With 9 sectors a track the disc is sound: give "
                       "--sectors 9, not --moved.",
    ("nine", "plain"): " With 10 sectors a track the disc is sound: leave "
                       "--sectors out.",
    ("nine", "moved"): " In the moved arrangement the disc is sound: give "
                       "--moved, not --sectors.",
}

# 40 tracks of nine are as long as 36 of ten.
SAME_LENGTH = {NINE: 40, TEN: 36}


def example(tracks=3, sectors=NINE):
    """A disc with A of 300 bytes and B of 1."""
    disc = Disc.blank(tracks, "PIECES", sectors)
    disc.save("A", sheet_of(300))
    disc.save("B", b"x")
    return disc


def write_kinds(nine, ten):
    write("nine.img", nine.data)
    write("plain.img", ten.data)
    write("moved.img", moved(ten.data))


def write_same_length():
    write_kinds(*(example(SAME_LENGTH[sectors], sectors)
                  for sectors in (NINE, TEN)))
    equal({len(read(f"{kind}.img")) for kind in KINDS}, {92160})


def write_other_lengths():
    """Images whose lengths no disc of the other number of sectors has."""
    write_kinds(example(3, NINE), example(3, TEN))


def misstated():
    """The image, the options that state it wrongly, and what is then said."""
    for (stated, kind), hint in HINTS.items():
        yield f"{kind}.img", KINDS[stated], hint


def ends_with(text, hint):
    equal(text.endswith("." + hint), True, text)


@case("nine: the blank disc of the rules, written out by hand")
def _():
    """On each track 1, 4, 7, 2, 5, 8, 3, 6, 9; 0/1 and 0/4 are taken."""
    does("blank", "a.img", "2", "EARLY", *STATED)
    data = read("a.img")
    equal(len(data), 2 * 9 * 256)
    equal(data[:0x10], bytes(16))
    equal(data[0x10:0x18], bytes([7, 0, 4, 0, 16, 0, 0, 0]))
    equal(data[0x18:0x21], b"EARLY    ")
    equal(data[0x40:0x60], b"TANDOS 65 IMAGE 1".ljust(32, b"\0"))
    links = {(0, 7): (0, 2), (0, 2): (0, 5), (0, 5): (0, 8), (0, 8): (0, 3),
             (0, 3): (0, 6), (0, 6): (0, 9), (0, 9): (1, 1), (1, 1): (1, 4),
             (1, 4): (1, 7), (1, 7): (1, 2), (1, 2): (1, 5), (1, 5): (1, 8),
             (1, 8): (1, 3), (1, 3): (1, 6), (1, 6): (1, 9), (1, 9): (0, 0),
             (0, 4): (0, 0)}
    equal(len(links), 17)
    for (track, sector), link in links.items():
        at = 256 * (9 * track + sector - 1)
        equal(tuple(data[at:at + 2]), link, f"link of {track}/{sector}")
        equal(data[at + 2:at + 256], bytes(254))


@case("nine: blank of every number of tracks, --sectors in each form")
def _():
    for tracks in (1, 2, 35, 40, 80):
        does("blank", f"{tracks}.img", str(tracks), "PIECES", *STATED)
        equal(read(f"{tracks}.img"), Disc.blank(tracks, "PIECES", NINE).data)
    for form in (["--sectors=9"], ["--sectors", "0x9"], ["--sectors=$9"]):
        does("blank", *form, "1.img", "3", "D", "--force")
        equal(read("1.img"), Disc.blank(3, "D", NINE).data)
    with unchanged():
        for tracks in ("0", "81", "99999999999999999999"):
            is_refused(1, "a.img", "blank", "a.img", tracks, "D", *STATED)
        is_refused(2, "a.img", "blank", "a.img", "1", "d", *STATED)
        fails("stands already", "blank", "1.img", "1", "D", *STATED)


@case("nine: --sectors 10 is what stands without it")
def _():
    ten = example(3, TEN)
    write_kinds(example(), ten)
    for form in (["--sectors", "10"], ["--sectors=10"], ["--sectors=0xA"]):
        does("blank", "a.img", "3", "D", "--force", *form)
        equal(read("a.img"), Disc.blank(3, "D").data)
        does("blank", "a.img", "3", "D", "--force", "--moved", *form)
        equal(read("a.img"), moved(Disc.blank(3, "D").data))
        for arguments in (["list"], ["list", "--table"], ["list", "--json"],
                          ["map"], ["map", "--svg", "-"], ["check"]):
            equal(does(*arguments, "plain.img", *form).out,
                  does(*arguments, "plain.img").out)
            equal(does(*arguments, "moved.img", "--moved", *form).out,
                  does(*arguments, "moved.img", "--moved").out)
        does("rearrange", "plain.img", "--to", "moved", "-o", "b.img", *form)
        equal(read("b.img"), moved(ten.data))


@case("nine: save, delete, rename and protect leave the image of the rules")
def _():
    expected = example()
    write("a.img", expected.data)
    entry = SECTOR * 3 + 3
    for i in range(16):
        expected.save(f"F{i}", sheet_of(i + 1))
        does("save", "a.img", f"F{i}", "-", *STATED, given=sheet_of(i + 1))
        equal(read("a.img"), expected.data)
    expected.delete("A")
    does("delete", "a.img", "A", *STATED)
    equal(read("a.img"), expected.data)
    expected.save("C", sheet_of(600), 7, 1, 2)
    does("save", *STATED, "a.img", "C", "-", "--page", "7", "--start", "1",
         "--transfer", "2", given=sheet_of(600))
    equal(read("a.img"), expected.data)
    does("rename", "a.img", "B", "NEW.NAM", *STATED)
    expected.data[entry + 16:entry + 25] = b"NEW   NAM"
    equal(read("a.img"), expected.data)
    for word, attribute in (("on", 0x80), ("on", 0x80), ("off", 0)):
        does("protect", "a.img", "NEW.NAM", word, *STATED)
        expected.data[entry + 16 + 15] = attribute
        equal(read("a.img"), expected.data)
    equal(expected.broken_rule(), 0)
    equal(does("check", "a.img", *STATED).text, "a.img: The disc is sound.\n")


@case("nine: a disc of one track holds 1,763 bytes and no more")
def _():
    expected = Disc.blank(1, "D", NINE)
    write("a.img", expected.data)
    with unchanged():
        is_refused(8, "a.img", "save", "a.img", "X", "-", *STATED,
                   given=bytes(1764))
    expected.save("X", sheet_of(1763))
    does("save", "a.img", "X", "-", *STATED, given=sheet_of(1763))
    equal(read("a.img"), expected.data)
    expected.delete("X")
    does("delete", "a.img", "X", *STATED)
    equal(read("a.img"), expected.data)


@case("nine: refusals of the commands write nothing")
def _():
    disc = example()
    disc.data[SECTOR * 3 + 3 + 16 + 15] = 0x80
    write("a.img", disc.data)
    disc.data[SECTOR * 6 + 2] = 0xFE
    write("odd.img", disc.data)
    disc.set_word(USED_COUNT, 9)
    write("bad.img", disc.data)
    with unchanged():
        is_refused(2, "a.img", "delete", "a.img", "X.", *STATED)
        is_refused(3, "bad.img", "delete", "bad.img", "A", *STATED)
        is_refused(4, "a.img", "read", "a.img", "C", *STATED)
        is_refused(5, "a.img", "rename", "a.img", "A", "B", *STATED)
        is_refused(6, "a.img", "delete", "a.img", "B", *STATED)
        is_refused(7, "a.img", "save", "a.img", "C", "-", "--page", "8",
                   *STATED, given=b"x")
        is_refused(8, "a.img", "save", "a.img", "C", "-", *STATED,
                   given=bytes(10000))
        is_refused(9, "odd.img", "read", "odd.img", "A", *STATED)


@case("nine: images of every wrong length")
def _():
    for length in (0, 1, 2303, 2305, 2560, 79 * 2304 + 256, 80 * 2304 - 1,
                   80 * 2304 + 1, 81 * 2304, 80 * 2560, 204801, 10_000_000):
        with open("a.img", "wb") as file:
            file.truncate(length)
        for arguments in (["list", "a.img"], ["view", "a.img", "0/1"],
                          ["delete", "a.img", "A"], ["map", "a.img"]):
            answer = is_refused(1, "a.img", *arguments, *STATED)
            equal("the disc is sound" in answer.error, False, answer.error)
    is_refused(1, "/dev/zero", "list", "/dev/zero", *STATED)


@case("nine: read and its numbers, to a file and from standard input")
def _():
    disc = example()
    write("a.img", disc.data)
    equal(does("read", "a.img", "A", *STATED).out, sheet_of(300))
    equal(does("read", "-", "A", *STATED, given=bytes(disc.data)).out,
          sheet_of(300))
    does("read", "a.img", "A", "-o", "sheet", *STATED)
    equal(read("sheet"), sheet_of(300))
    equal(does("read", "a.img", "B", "--info", *STATED).text,
          "page\t0\nstart\t0x2000\nend\t0x2000\ntransfer\t0x2000\nlength\t1\n")


@case("nine: view of every sector; a tenth is not on the disc")
def _():
    data = bytes((i * i + i // 256) % 256 for i in range(3 * 2304))
    write("a.img", data)
    for number in range(27):
        text = does("view", "a.img", f"{number // 9}/{number % 9 + 1}",
                    *STATED).text
        found = bytes.fromhex("".join(row[3:52] for row in text.splitlines()))
        equal(found, data[SECTOR * number + 2:SECTOR * (number + 1)])
    for place in ("0/10", "2/10", "0/0", "3/1", "0/265", "0/4294967305"):
        answer = is_refused(11, "a.img", "view", "a.img", place, *STATED)
        equal("the disc is sound" in answer.error, False, answer.error)


@case("nine: list states the sectors of a track, as rows, table and JSON")
def _():
    write("a.img", example().data)
    equal(does("list", "a.img", *STATED).text,
          "disc\tPIECES\t3\t22\t3\tnine\nfile\tA\t2\t-\nfile\tB\t1\t-\n")
    equal(does("list", "a.img", *STATED, "--table").text,
          "Disc PIECES: 3 tracks of 9 sectors, 22 sectors free, 3 in 2 files\n"
          "\nNAME        SECTORS\nA                 2\nB                 1\n")
    equal(json.loads(does("list", "a.img", "--json", *STATED).text),
          {"disc": {"name": "PIECES", "tracks": 3, "free": 22, "used": 3,
                    "sectors_per_track": 9},
           "files": [{"name": "A", "sectors": 2, "protected": False},
                     {"name": "B", "sectors": 1, "protected": False}]})
    write("b.img", Disc.blank(1, "B", NINE).data)
    equal(does("list", "b.img", "--table", *STATED).text,
          "Disc B: 1 track of 9 sectors, 7 sectors free, 0 in 0 files\n")
    write("b.img", Disc.blank(40, "B", NINE).data)
    equal(does("list", "b.img", *STATED).text, "disc\tB\t40\t358\t0\tnine\n")


@case("nine: the longest directory, 674 files")
def _():
    disc = Disc.blank(80, "MANY", NINE)
    for i in range(674):
        disc.save(f"F{i}", b"x")
    equal(disc.free().sectors, [])
    write("a.img", disc.data)
    rows = does("list", "a.img", *STATED).text.splitlines()
    equal(rows[0], "disc\tMANY\t80\t0\t674\tnine")
    equal(rows[1:], [f"file\tF{i}\t1\t-" for i in range(674)])
    check_text_map(disc, does("map", "a.img", *STATED))


@case("nine: the map of the example, as it is printed")
def _():
    write("a.img", example(2).data)
    equal(does("map", "a.img", *STATED).text,
          "Disc PIECES: 2 tracks of 9 sectors. The disc is sound.\n\n"
          "track     1     2     3     4     5     6     7     8     9\n"
          "    0   sys     1     .   dir     2     .     1     .     .\n"
          "    1     .     .     .     .     .     .     .     .     .\n\n"
          "  sys  system sector\n"
          "  dir  directory, 1 sector, 0/4\n"
          "    .  free chain, 13 sectors, 0/8 to 1/9\n"
          "    1  A, 2 sectors, 0/7 to 0/2\n"
          "    2  B, 1 sector, 0/5\n")


@case("nine: maps of sound and damaged discs, as text and picture")
def _():
    chance = random.Random(9)
    rules = set()
    for disc in ([sound_disc(chance, NINE) for _ in range(15)]
                 + [damaged_disc(chance, NINE) for _ in range(120)]):
        rules.add(disc.broken_rule())
        write("a.img", disc.data)
        answer = tandos("map", "a.img", *STATED, binary=watched())
        check_text_map(disc, answer)
        tracks = f"{disc.tracks} track{'' if disc.tracks == 1 else 's'}"
        holds(answer.text, f": {tracks} of 9 sectors. ")
        picture = tandos("map", "a.img", *STATED, "--svg", "-",
                         binary=watched()).out
        check_svg(disc, picture)
        holds(picture.decode(), f": {tracks} of 9 sectors</text>")
    equal(rules, set(range(9)), "broken rules, and none")


@case("nine: maps of discs of any bytes")
def _():
    chance = random.Random(10)
    for tracks in (1, 5, 80):
        disc = Disc.blank(tracks, "ANY", NINE)
        for at in range(SECTOR, len(disc.data)):
            disc.data[at] = chance.randrange(11)
        write("a.img", disc.data)
        answer = tandos("map", "a.img", *STATED, binary=watched())
        check_text_map(disc, answer)
        answer = tandos("map", "a.img", *STATED, "--svg", "-",
                        binary=watched())
        check_svg(disc, answer.out)


def columns_of(picture):
    """The places of the sectors' columns, the legend's, and the width."""
    root = ElementTree.fromstring(picture)

    def places(name):
        return sorted({corner(group)[0] for group in root.iter(f"{SVG}g")
                       if group.get("class") == name})
    return places("sector"), places("chain"), int(root.get("width"))


@case("nine: the picture has nine columns, and the legend beside them")
def _():
    write_other_lengths()
    nine = columns_of(does("map", "nine.img", *STATED, "--svg", "-").out)
    ten = columns_of(does("map", "plain.img", "--svg", "-").out)
    equal((len(nine[0]), len(ten[0])), (9, 10))
    equal(nine[0], ten[0][:9])
    width = ten[0][1] - ten[0][0]
    equal([legend + width for legend in nine[1]], ten[1])
    equal(nine[2] + width, ten[2])


@case("hint of the sectors: each refusal of a disc of the other number has it")
def _():
    for number, write_discs in ((3, write_same_length),
                                (1, write_other_lengths)):
        write_discs()
        with unchanged():
            for image, options, hint in misstated():
                for command, rest in NEEDS_SOUND.items():
                    answer = is_refused(number, image, command, image, *rest,
                                        *options, given=b"x")
                    ends_with(answer.error, hint + "\n")
                answer = is_refused(number, "standard input", "list", "-",
                                    *options, given=read(image))
                ends_with(answer.error, hint + "\n")


@case("hint of the sectors: check has it in the line of each image")
def _():
    for beginning, write_discs in (("Rule ", write_same_length),
                                   ("refused with 1, SIZE. ",
                                    write_other_lengths)):
        write_discs()
        for image, options, hint in misstated():
            answer = tandos("check", image, *options)
            holds(answer.text, f"{image}: {beginning}")
            ends_with(answer.text, hint + "\n")
            equal((answer.text.count("\n"), answer.error, answer.status),
                  (1, "", REFUSED))
        answer = tandos("check", "plain.img", "moved.img", "nine.img", *STATED)
        plain, other, nine = answer.text.splitlines()
        ends_with(plain, HINTS["nine", "plain"])
        ends_with(other, HINTS["nine", "moved"])
        equal(nine, "nine.img: The disc is sound.")
        equal(answer.status, REFUSED)


@case("hint of the sectors: the map has it in its head and in the picture")
def _():
    write_same_length()
    for image, options, hint in misstated():
        answer = tandos("map", image, *options)
        ends_with(answer.text.splitlines()[0], hint)
        equal((answer.error, answer.status), ("", REFUSED))
        answer = tandos("map", image, "--svg", "a.svg", *options)
        ends_with(answer.error, hint + "\n")
        equal(answer.status, REFUSED)
        holds(read("a.svg").decode(), f">{hint.strip()}</text>")
    write_other_lengths()
    with unchanged():
        for image, options, hint in misstated():
            for more in ([], ["--svg", "b.svg"]):
                answer = is_refused(1, image, "map", image, *options, *more)
                ends_with(answer.error, hint + "\n")


@case("hint of the sectors: a view is shown as stated, and told of")
def _():
    write_same_length()
    for image, options, hint in misstated():
        answer = tandos("view", image, "1/1", *options)
        holds(answer.error, f"tandos: {image}: Rule ")
        ends_with(answer.error, hint + "\n")
        equal((answer.error.count("\n"), answer.status), (1, DONE))
    # Stated as ten, 1/1 is the eleventh sector, which is 1/2 of nine.
    equal(tandos("view", "nine.img", "1/1").out,
          does("view", "nine.img", "1/2", *STATED).out)
    # Nine have no tenth sector, 36 tracks no 37th.
    for image, options, place, hint in (
            ("plain.img", STATED, "0/10", HINTS["nine", "plain"]),
            ("nine.img", [], "36/1", HINTS["plain", "nine"])):
        answer = is_refused(11, image, "view", image, place, *options)
        ends_with(answer.error, hint + "\n")
    write_other_lengths()
    for image, options, hint in misstated():
        answer = is_refused(1, image, "view", image, "0/1", *options)
        ends_with(answer.error, hint + "\n")


@case("hint of the sectors: none where no kind makes the disc sound, "
      "or it is not asked about")
def _():
    bad = [example(SAME_LENGTH[sectors], sectors) for sectors in (NINE, TEN)]
    for disc in bad:
        disc.set_word(USED_COUNT, 9)
    write_kinds(*bad)
    for image in ("nine.img", "plain.img", "moved.img"):
        for options in KINDS.values():
            gives_no_hint(image, options)
    write_same_length()
    for image, options, _ in misstated():
        answer = is_refused(2, image, "delete", image, "X.", *options)
        equal("the disc is sound" in answer.error, False, answer.error)


@case("hint of the sectors: 40 discs with a history, none changed with the "
      "wrong number")
def _():
    chance = random.Random(11)
    for _ in range(40):
        tenth = chance.choice((1, 2, 4, 8))
        write_kinds(*(with_history(Disc.blank(tracks * tenth, "D", sectors),
                                   chance)
                      for sectors, tracks in ((NINE, 10), (TEN, 9))))
        with unchanged():
            for image, options, hint in misstated():
                answer = is_refused(3, image, "save", image, "NEW", "-",
                                    *options, given=b"x")
                ends_with(answer.error, hint + "\n")


@case("rearrange: discs of nine sectors a track have one arrangement")
def _():
    for number, write_discs in ((3, write_same_length),
                                (1, write_other_lengths)):
        write_discs()
        with unchanged():
            for to in ("moved", "plain"):
                for output in ("new.img", "nine.img", "-"):
                    answer = is_refused(number, "nine.img", "rearrange",
                                        "nine.img", "--to", to, "-o", output)
                    ends_with(answer.error, " With 9 sectors a track the disc "
                              "is sound: it has one arrangement alone.\n")
                is_misuse("tandos rearrange: discs of 9 sectors a track have "
                          "one arrangement alone: use the image as it is, or "
                          "leave out '--sectors 9'\n", "rearrange", "nine.img",
                          "--to", to, "-o", "new.img", *STATED)


@case("misuse: numbers of sectors that no disc has")
def _():
    write_other_lengths()
    with unchanged():
        for command in COMMANDS:
            for text in ("8", "11", "nine"):
                is_misuse(f"tandos {command}: --sectors is 9 or 10, not "
                          f"'{text}'\n", command, "plain.img", "--sectors",
                          text)
            is_misuse(f"tandos {command}: a value is missing after option "
                      "'--sectors'\n", command, "plain.img", "--sectors")
        for text in ("", "0", "-9", " 9", "9 ", "9.0", "0x", "265", "266",
                     "4294967305", "4294967306", "99999999999999999999"):
            for form in (["--sectors", text], [f"--sectors={text}"]):
                is_misuse(f"--sectors is 9 or 10, not '{text}'\n", "list",
                          "plain.img", *form)
        is_misuse("there is no option '--sector'", "list", "plain.img",
                  "--sector", "9")


@case("misuse: --sectors 9 beside --moved")
def _():
    write_other_lengths()
    with unchanged():
        for command in COMMANDS:
            for options in (["--moved", *STATED], ["--sectors=9", "--moved"]):
                is_misuse(f"tandos {command}: there are no moved discs of 9 "
                          "sectors a track: leave out '--moved' or "
                          "'--sectors 9'\n", command, "nine.img", *options)
