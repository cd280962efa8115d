"""The moved arrangement: --moved in every subcommand, what is said where it is
forgotten or stated wrongly, and rearrange."""

import json
import os
import random
import stat
import subprocess

from cases_map import (check_svg, check_text_map, damaged_disc, found_cells,
                       sound_disc, watched)
from disc import Disc, SECTOR, USED_COUNT, moved, unmoved
from support import (DONE, REFUSED, REPAIR_HINT, TANDOS, case, does, equal,
                     fails, holds, is_misuse, is_refused, read, sheet_of,
                     tandos, unchanged, write)

STATE_IT = " In the moved arrangement the disc is sound: state it with " \
           "--moved."
LEAVE_IT = " In the plain arrangement the disc is sound: leave --moved out."
IS_MOVED = " In the moved arrangement the disc is sound: it is moved already."
IS_PLAIN = " In the plain arrangement the disc is sound: it is plain already."


def example():
    """A disc of 3 tracks with A of 300 bytes and B of 1."""
    disc = Disc.blank(3, "PIECES")
    disc.save("A", sheet_of(300))
    disc.save("B", b"x")
    return disc


def miscounted():
    """The same with a used count that breaks rule 7."""
    disc = example()
    disc.set_word(USED_COUNT, 9)
    return disc


def write_both(disc):
    write("plain.img", disc.data)
    write("moved.img", moved(disc.data))


@case("moved: a moved image is another one, and passing order makes it")
def _():
    numbers = [bytes([number]) * SECTOR for number in range(20)]
    found = moved(b"".join(numbers))[::SECTOR]
    equal(list(found), [0, 3, 6, 9, 2, 5, 8, 1, 4, 7,
                        10, 13, 16, 19, 12, 15, 18, 11, 14, 17])
    equal(unmoved(moved(b"".join(numbers))), b"".join(numbers))


@case("moved: blank of every number of tracks")
def _():
    for tracks in (1, 2, 40, 80):
        does("blank", f"{tracks}.img", str(tracks), "PIECES", "--moved")
        equal(read(f"{tracks}.img"), moved(Disc.blank(tracks, "PIECES").data))
    does("blank", "--moved", "--force", "1.img", "2", "D")
    equal(read("1.img"), moved(Disc.blank(2, "D").data))
    with unchanged():
        is_refused(1, "a.img", "blank", "a.img", "81", "D", "--moved")
        is_refused(2, "a.img", "blank", "a.img", "1", "d", "--moved")
        fails("stands already", "blank", "1.img", "1", "D", "--moved")


@case("moved: save, delete, rename and protect leave the moved image")
def _():
    expected = example()
    write_both(expected)

    def on_both(command, *arguments, given=b""):
        does(command, "plain.img", *arguments, given=given)
        does(command, "moved.img", *arguments, "--moved", given=given)
        equal(read("moved.img"), moved(read("plain.img")), command)

    for i in range(16):
        expected.save(f"F{i}", sheet_of(i + 1))
        on_both("save", f"F{i}", "-", given=sheet_of(i + 1))
    expected.delete("A")
    on_both("delete", "A")
    equal(read("moved.img"), moved(expected.data))
    on_both("rename", "B", "NEW.NAM")
    on_both("protect", "NEW.NAM", "on")
    on_both("protect", "NEW.NAM", "off")
    on_both("save", "C", "-", "--page", "7", "--start", "1", "--transfer", "2",
            given=sheet_of(500))
    equal(does("check", "moved.img", "--moved").text,
          "moved.img: The disc is sound.\n")


@case("moved: refusals of the commands write nothing")
def _():
    write_both(example())
    write("wrong.img", bytes(2559))
    does("protect", "moved.img", "B", "on", "--moved")
    with unchanged():
        is_refused(1, "wrong.img", "list", "wrong.img", "--moved")
        is_refused(2, "moved.img", "delete", "moved.img", "X.", "--moved")
        is_refused(4, "moved.img", "read", "moved.img", "C", "--moved")
        is_refused(5, "moved.img", "save", "moved.img", "A", "-", "--moved",
                   given=b"x")
        is_refused(6, "moved.img", "delete", "moved.img", "B", "--moved")
        is_refused(8, "moved.img", "save", "moved.img", "C", "-", "--moved",
                   given=bytes(10000))
        is_refused(11, "moved.img", "view", "moved.img", "3/1", "--moved")


@case("moved: read, its numbers and every sector are those of the plain image")
def _():
    write_both(example())
    for arguments in (["read", "A"], ["read", "A", "--info"], ["read", "B"]):
        command, *rest = arguments
        equal(does(command, "moved.img", *rest, "--moved").out,
              does(command, "plain.img", *rest).out)
    does("read", "moved.img", "A", "--moved", "-o", "sheet")
    equal(read("sheet"), sheet_of(300))
    equal(does("read", "-", "A", "--moved", given=read("moved.img")).out,
          sheet_of(300))
    for number in range(30):
        place = f"{number // 10}/{number % 10 + 1}"
        equal(does("view", "--moved", "moved.img", place).out,
              does("view", "plain.img", place).out)


@case("moved: list states the arrangement, as rows, table and JSON")
def _():
    write_both(example())
    plain = does("list", "plain.img").text
    equal(plain.splitlines()[0], "disc\tPIECES\t3\t25\t3")
    equal(does("list", "moved.img", "--moved").text,
          plain.replace("\t25\t3\n", "\t25\t3\tmoved\n"))
    plain = does("list", "plain.img", "--table").text
    holds(plain, "Disc PIECES: 3 tracks, 25 sectors free")
    equal(does("list", "moved.img", "--moved", "--table").text,
          plain.replace("3 tracks, ", "3 tracks, moved, "))
    plain = json.loads(does("list", "plain.img", "--json").text)
    plain["disc"]["arrangement"] = "moved"
    equal(json.loads(does("list", "moved.img", "--json", "--moved").text),
          plain)


@case("moved: maps are those of the plain image, cell for cell")
def _():
    chance = random.Random(4)
    for disc in ([sound_disc(chance) for _ in range(15)]
                 + [damaged_disc(chance) for _ in range(60)]):
        write_both(disc)
        answer = tandos("map", "moved.img", "--moved", binary=watched())
        check_text_map(disc, answer)
        plain = tandos("map", "plain.img").text
        equal(found_cells(answer.text), found_cells(plain))
        equal(answer.text.replace(", moved. ", ". ", 1), plain)
        picture = tandos("map", "moved.img", "--moved", "--svg", "-",
                         binary=watched()).out
        check_svg(disc, picture)
        equal(picture.replace(b", moved</text>", b"</text>", 1),
              tandos("map", "plain.img", "--svg", "-").out)


# What needs a sound disc, after the image's name.
NEEDS_SOUND = {
    "list": [], "read": ["A"], "save": ["C", "-"], "delete": ["A"],
    "rename": ["A", "C"], "protect": ["A", "on"], "totals": [],
}


def misstated():
    """The image, the options that state it wrongly, and what is then said."""
    return (("moved.img", [], STATE_IT), ("plain.img", ["--moved"], LEAVE_IT))


@case("hint: every refusal for an image in the other arrangement has it")
def _():
    write_both(example())
    with unchanged():
        for image, options, hint in misstated():
            for command, rest in NEEDS_SOUND.items():
                answer = is_refused(3, image, command, image, *rest, *options,
                                    given=b"x")
                equal(answer.error.endswith(hint + "\n"), True, answer.error)
        answer = is_refused(3, "standard input", "list", "-",
                            given=read("moved.img"))
        holds(answer.error, STATE_IT)


@case("hint: check has it in the line of each image")
def _():
    write_both(example())
    write("bad.img", miscounted().data)
    write("wrong.img", bytes(100))
    images = ["plain.img", "moved.img", "bad.img", "wrong.img"]
    answer = tandos("check", *images)
    plain, other, damaged, wrong = answer.text.splitlines()
    equal(plain, "plain.img: The disc is sound.")
    holds(other, "moved.img: Rule ")
    equal(other.endswith("." + STATE_IT), True, other)
    equal(damaged, "bad.img: Rule 7 is broken: the used count is not the sum "
          f"of the file lengths.{REPAIR_HINT}")
    holds(wrong, "wrong.img: refused with 1, SIZE.")
    equal((answer.error, answer.status), ("", REFUSED))
    plain, other, damaged, wrong = tandos(
        "check", *images, "--moved").text.splitlines()
    equal(plain.endswith("." + LEAVE_IT), True, plain)
    equal(other, "moved.img: The disc is sound.")
    equal("arrangement the disc is sound" in damaged + wrong, False)


@case("hint: the map has it in its head, in the picture and with --svg")
def _():
    write_both(example())
    for image, options, hint in misstated():
        answer = tandos("map", image, *options)
        head = answer.text.splitlines()[0]
        equal(head.endswith("." + hint), True, head)
        equal((answer.error, answer.status), ("", REFUSED))
        answer = tandos("map", image, "--svg", "a.svg", *options)
        holds(answer.error, f"tandos: {image}: Rule ")
        equal(answer.error.endswith("." + hint + "\n"), True, answer.error)
        equal(answer.status, REFUSED)
        holds(read("a.svg").decode(), f">{hint.strip()}</text>")


@case("hint: a view is shown as stated, and told of")
def _():
    disc = example()
    write_both(disc)
    for image, options, hint in misstated():
        answer = tandos("view", image, "0/4", *options)
        equal(answer.status, DONE)
        holds(answer.error, f"tandos: {image}: Rule ")
        equal(answer.error.endswith("." + hint + "\n"), True, answer.error)
        equal(answer.error.count("\n"), 1)
    # Stated as plain, the place of 0/4 has what is 0/10 of the moved image.
    equal(tandos("view", "moved.img", "0/4").out,
          does("view", "plain.img", "0/10").out)


def gives_no_hint(image, options):
    """Of a disc that is unsound however it is stated, no command says that it is sound."""
    for command, rest in NEEDS_SOUND.items():
        answer = is_refused(3, image, command, image, *rest, *options, given=b"x")
        equal("the disc is sound" in answer.error, False, answer.error)
    for arguments in (["check", image], ["map", image], ["map", image, "--svg", "-"],
                      ["view", image, "0/1"]):
        answer = tandos(*arguments, *options)
        equal(b"the disc is sound" in answer.out, False)
        equal("the disc is sound" in answer.error, False)


@case("hint: none where the disc is unsound in both, or is not asked about")
def _():
    write_both(miscounted())
    for image in ("plain.img", "moved.img"):
        for options in ([], ["--moved"]):
            gives_no_hint(image, options)
    write_both(example())
    answer = is_refused(2, "moved.img", "delete", "moved.img", "X.")
    equal("the disc is sound" in answer.error, False, answer.error)


@case("hint: 60 discs with a history, none changed in the wrong arrangement")
def _():
    chance = random.Random(6)
    for _ in range(60):
        write_both(sound_disc(chance))
        with unchanged():
            for image, options, hint in misstated():
                answer = is_refused(3, image, "save", image, "NEW", "-",
                                    *options, given=b"x")
                holds(answer.error, hint)


@case("rearrange: there and back, on discs with a history")
def _():
    chance = random.Random(7)
    for _ in range(20):
        data = bytes(sound_disc(chance).data)
        write("a.img", data)
        does("rearrange", "a.img", "--to", "moved", "-o", "b.img")
        equal(read("b.img"), moved(data))
        does("rearrange", "b.img", "--to=plain", "--output=c.img")
        equal(read("c.img"), data)
        equal((read("a.img"), read("b.img")), (data, moved(data)))


@case("rearrange: every byte of every sector, on the longest disc")
def _():
    disc = Disc.blank(80, "LONGEST")
    for number in disc.free().sectors:
        disc.data[SECTOR * number + 2:SECTOR * (number + 1)] = \
            sheet_of(254, number)
    write("a.img", disc.data)
    does("rearrange", "a.img", "--to", "moved", "-o", "b.img")
    equal(read("b.img"), moved(disc.data))
    does("rearrange", "b.img", "--to", "plain", "-o", "c.img")
    equal(read("c.img"), disc.data)


@case("rearrange: standard input and standard output")
def _():
    data = bytes(example().data)
    write("a.img", data)
    with unchanged():
        equal(does("rearrange", "a.img", "--to", "moved", "-o", "-").out,
              moved(data))
        equal(does("rearrange", "-", "--to", "plain", "-o-",
                   given=moved(data)).out, data)
    does("rearrange", "-", "--to", "moved", "-o", "b.img", given=data)
    equal(read("b.img"), moved(data))
    with open("/dev/full", "wb") as full:
        fails("standard output: cannot write: No space left", "rearrange",
              "a.img", "--to", "moved", "-o", "-", stdout=full)


@case("rearrange: a disc that is rearranged already, and a damaged one")
def _():
    write_both(example())
    write("bad.img", miscounted().data)
    write("wrong.img", bytes(2561))
    with unchanged():
        for output in ("new.img", "-", "moved.img"):
            answer = is_refused(3, "moved.img", "rearrange", "moved.img",
                                "--to", "moved", "-o", output)
            equal(answer.error.endswith(IS_MOVED + "\n"), True, answer.error)
        answer = is_refused(3, "plain.img", "rearrange", "plain.img", "--to",
                            "plain", "-o", "plain.img")
        equal(answer.error.endswith(IS_PLAIN + "\n"), True, answer.error)
        for to in ("moved", "plain"):
            answer = is_refused(3, "bad.img", "rearrange", "bad.img", "--to",
                                to, "-o", "new.img")
            equal("the disc is sound" in answer.error, False, answer.error)
            is_refused(1, "wrong.img", "rearrange", "wrong.img", "--to", to,
                       "-o", "new.img")


@case("rearrange: the image itself where -o names it, and only there")
def _():
    data = bytes(example().data)
    write("a.img", data)
    os.chmod("a.img", 0o640)
    os.symlink("a.img", "link")
    does("rearrange", "a.img", "--to", "moved", "-o", "a.img")
    equal(read("a.img"), moved(data))
    equal(stat.S_IMODE(os.stat("a.img").st_mode), 0o640)
    does("rearrange", "a.img", "--to", "plain", "-o", "link")
    equal((os.readlink("link"), read("a.img")), ("a.img", data))
    does("rearrange", "link", "--to", "moved", "-o", "./a.img")
    equal((os.readlink("link"), read("a.img")), ("a.img", moved(data)))
    # A second name of the image becomes the new one; the image stays.
    os.link("a.img", "second")
    does("rearrange", "a.img", "--to", "plain", "-o", "second")
    equal((read("a.img"), read("second")), (moved(data), data))
    equal(sorted(os.listdir(".")), ["a.img", "link", "second"])
    with unchanged(), open("a.img", "rb") as image:
        fails("is the image itself", "rearrange", "-", "--to", "plain", "-o",
              "a.img", given=None, stdin=image)


@case("rearrange: another file is replaced whole, a device written to")
def _():
    data = bytes(example().data)
    write("a.img", data)
    write("b.img", b"old")
    os.chmod("b.img", 0o600)
    does("rearrange", "a.img", "--to", "moved", "-o", "b.img")
    equal((read("b.img"), stat.S_IMODE(os.stat("b.img").st_mode)),
          (moved(data), 0o600))
    os.mkdir("folder")
    with unchanged():
        does("rearrange", "a.img", "--to", "moved", "-o", "/dev/null")
        fails("cannot write", "rearrange", "a.img", "--to", "moved", "-o",
              "/dev/full")
        fails("not a regular file", "rearrange", "a.img", "--to", "moved",
              "-o", "folder")
        fails("cannot make a temporary file", "rearrange", "a.img", "--to",
              "moved", "-o", "none/a.img")
        fails("x: cannot open", "rearrange", "x", "--to", "moved", "-o", "y")
        fails("not a regular file", "rearrange", "folder", "--to", "moved",
              "-o", "folder")


@case("rearrange: in place beside other commands, no save is lost")
def _():
    write("a.img", Disc.blank(40, "D").data)
    names = [f"F{i}" for i in range(20)]
    saves = [subprocess.Popen([TANDOS, "save", "a.img", name, "-"],
                              stdin=subprocess.PIPE, stderr=subprocess.DEVNULL)
             for name in names]
    for i, process in enumerate(saves):
        process.stdin.write(b"x")
        process.stdin.close()
        if i == 10:
            does("rearrange", "a.img", "--to", "moved", "-o", "a.img")
    done = {name for name, process in zip(names, saves)
            if process.wait() == DONE}
    rows = does("list", "a.img", "--moved").text.splitlines()[1:]
    equal({row.split("\t")[1] for row in rows}, done)


@case("rearrange: misuse")
def _():
    write_both(example())
    with unchanged():
        is_misuse("an option is missing: give '--to moved|plain'", "rearrange",
                  "plain.img", "-o", "b.img")
        is_misuse("an option is missing: give '-o FILE'", "rearrange",
                  "plain.img", "--to", "moved")
        for word in ("", "Moved", "other", "1"):
            is_misuse(f"--to is moved or plain, not '{word}'", "rearrange",
                      "plain.img", "--to", word, "-o", "b.img")
        is_misuse("a value is missing after option '--to'", "rearrange",
                  "plain.img", "-o", "b.img", "--to")
        for image, to in (("plain.img", "moved"), ("moved.img", "plain")):
            is_misuse("--to states both arrangements: leave out '--moved'",
                      "rearrange", image, "--moved", "--to", to, "-o", "b.img")
