"""What the subcommands do on an image, and what they refuse."""

import fcntl
import json
import os
import pty
import struct
import subprocess
import termios

from disc import Disc, SECTOR, USED_COUNT
from support import (DONE, REFUSED, REPAIR_HINT, TANDOS, case, does, equal,
                     fails, holds, is_refused, read, sheet_of, tandos,
                     unchanged, write)


def pieces():
    """The rules' worked example: 40 tracks, THU.PCS of 300 bytes."""
    disc = Disc.blank(40, "PIECES")
    disc.save("THU.PCS", sheet_of(300))
    write("a.img", disc.data)
    return disc


def small_unsound():
    disc = Disc.blank(1, "SMALL")
    disc.set_word(USED_COUNT, 1)
    write("bad.img", disc.data)


@case("blank: every number of tracks is the disc of the rules")
def _():
    for tracks in (1, 2, 25, 35, 40, 80):
        does("blank", f"{tracks}.img", str(tracks), "PIECES")
        equal(read(f"{tracks}.img"), Disc.blank(tracks, "PIECES").data)


@case("blank: refuses tracks that no disc has, and wrong names")
def _():
    with unchanged():
        for tracks in ("0", "81", "100000", "99999999999999999999"):
            is_refused(1, "a.img", "blank", "a.img", tracks, "PIECES")
        for name in ("", "TENLETTERS", "lower", "A.B"):
            is_refused(2, "a.img", "blank", "a.img", "40", name)


@case("save: the bytes of the rules' example")
def _():
    expected = pieces()
    does("blank", "b.img", "40", "PIECES")
    write("sheet", sheet_of(300))
    does("save", "b.img", "THU.PCS", "sheet")
    equal(read("b.img"), expected.data)


@case("save: numbers in decimal, 0x and $; transfer follows start")
def _():
    expected = Disc.blank(2, "D")
    write("a.img", expected.data)
    write("s", b"x")
    expected.save("A", b"x", 7, 0xFFFF, 0)
    does("save", "a.img", "A", "s", "--page", "7", "--start=$fFfF",
         "--transfer", "0")
    expected.save("B", b"x", 0, 0x1234)
    does("save", "--start", "0X1234", "a.img", "B", "s")
    expected.save("C", b"x", 1, 4096, 65535)
    does("save", "a.img", "--page=0x1", "C", "--start=4096", "s",
         "--transfer=$FFFF")
    equal(read("a.img"), expected.data)


@case("save: from standard input, and sheets of every boundary length")
def _():
    expected = Disc.blank(80, "D")
    write("a.img", expected.data)
    for i, length in enumerate((1, 245, 246, 498, 499, 57344)):
        expected.save(f"F{i}", sheet_of(length))
        does("save", "a.img", f"F{i}", "-", given=sheet_of(length))
    expected.save("ALL", sheet_of(65536), start=0)
    does("save", "a.img", "ALL", "-", "--start", "0", given=sheet_of(65536))
    equal(read("a.img"), expected.data)


@case("save: the 16th file takes a directory sector")
def _():
    expected = Disc.blank(2, "D")
    write("a.img", expected.data)
    for i in range(16):
        expected.save(f"F{i}", b"x")
        does("save", "a.img", f"F{i}", "-", given=b"x")
    equal(read("a.img"), expected.data)


@case("save: refusals 1, 2, 7, 3, 5, 8 write nothing")
def _():
    pieces()
    small_unsound()
    write("wrong.img", bytes(2559))
    write("long.img", bytes(80 * 2560 + 1))
    full = Disc.blank(1, "FULL")
    full.save("X", sheet_of(2016))
    write("full.img", full.data)
    with unchanged():
        for image in ("wrong.img", "long.img"):
            is_refused(1, image, "save", image, "X", "-", given=b"x")
        is_refused(2, "a.img", "save", "a.img", "SEVENCH", "-", given=b"x")
        is_refused(7, "a.img", "save", "a.img", "X", "-", given=b"")
        is_refused(7, "a.img", "save", "a.img", "X", "-", given=bytes(57345))
        is_refused(7, "a.img", "save", "a.img", "X", "-", "--start", "0",
                   given=bytes(65537))
        is_refused(7, "a.img", "save", "a.img", "X", "-", "--page", "8",
                   given=b"x")
        is_refused(3, "bad.img", "save", "bad.img", "X", "-", given=b"x")
        is_refused(5, "a.img", "save", "a.img", "THU.PCS", "-", given=b"x")
        is_refused(8, "full.img", "save", "full.img", "Y", "-", given=b"x")


@case("save: a disc of one track holds 2,016 bytes and no more")
def _():
    expected = Disc.blank(1, "D")
    write("a.img", expected.data)
    with unchanged():
        is_refused(8, "a.img", "save", "a.img", "X", "-", given=bytes(2017))
    expected.save("X", sheet_of(2016))
    does("save", "a.img", "X", "-", given=sheet_of(2016))
    equal(read("a.img"), expected.data)


@case("read: to standard output, to a file, from standard input")
def _():
    pieces()
    equal(does("read", "a.img", "THU.PCS").out, sheet_of(300))
    equal(does("read", "-", "THU.PCS", given=read("a.img")).out, sheet_of(300))
    equal(does("read", "a.img", "THU.PCS", "-o", "-").out, sheet_of(300))
    for option in (["-o", "s1"], ["-os2"], ["--output", "s3"],
                   ["--output=s4"]):
        equal(does("read", "a.img", "THU.PCS", *option).out, b"")
    for name in ("s1", "s2", "s3", "s4"):
        equal(read(name), sheet_of(300))


@case("read: --info has the numbers of the load module")
def _():
    disc = Disc.blank(40, "D")
    disc.save("A", sheet_of(300), 7, 0x2000, 0xABCD)
    write("a.img", disc.data)
    equal(does("read", "a.img", "A", "--info").text,
          "page\t7\nstart\t0x2000\nend\t0x212B\ntransfer\t0xABCD\n"
          "length\t300\n")


@case("read: refusals 1, 2, 3, 4, 9 write nothing")
def _():
    disc = pieces()
    small_unsound()
    write("wrong.img", b"")
    disc.data[SECTOR * 6 + 2] = 0xFE
    write("odd.img", disc.data)
    with unchanged():
        is_refused(1, "wrong.img", "read", "wrong.img", "A", "-o", "out")
        is_refused(2, "a.img", "read", "a.img", "X.", "-o", "out")
        is_refused(3, "bad.img", "read", "bad.img", "A", "-o", "out")
        is_refused(4, "a.img", "read", "a.img", "THU", "-o", "out")
        is_refused(9, "odd.img", "read", "odd.img", "THU.PCS", "-o", "out")
        is_refused(4, "standard input", "read", "-", "THU",
                   given=read("a.img"))


@case("delete: the bytes of the rules, from a full disc as well")
def _():
    expected = pieces()
    for length in (1, 300):
        expected.save("B", sheet_of(length))
        does("save", "a.img", "B", "-", given=sheet_of(length))
        expected.delete("B")
        does("delete", "a.img", "B")
        equal(read("a.img"), expected.data)
    expected = Disc.blank(1, "FULL")
    expected.save("X", sheet_of(2016))
    write("full.img", expected.data)
    expected.delete("X")
    does("delete", "full.img", "X")
    equal(read("full.img"), expected.data)


@case("delete: refusals 1, 2, 3, 4, 6 write nothing")
def _():
    pieces()
    small_unsound()
    write("wrong.img", bytes(100))
    does("protect", "a.img", "THU.PCS", "on")
    with unchanged():
        is_refused(1, "wrong.img", "delete", "wrong.img", "A")
        is_refused(2, "a.img", "delete", "a.img", ".A")
        is_refused(3, "bad.img", "delete", "bad.img", "A")
        is_refused(4, "a.img", "delete", "a.img", "A")
        is_refused(6, "a.img", "delete", "a.img", "THU.PCS")


@case("rename: nine bytes change, and only those")
def _():
    expected = pieces()
    does("rename", "a.img", "THU.PCS", "FRI")
    at = SECTOR * 3 + 3
    expected.data[at:at + 9] = b"FRI      "
    equal(read("a.img"), expected.data)


@case("rename: refusals 1, 2, 3, 4, 6, 5 write nothing")
def _():
    pieces()
    small_unsound()
    write("wrong.img", bytes(100))
    does("save", "a.img", "B", "-", given=b"x")
    does("protect", "a.img", "B", "on")
    with unchanged():
        is_refused(1, "wrong.img", "rename", "wrong.img", "A", "B")
        is_refused(2, "a.img", "rename", "a.img", "THU.PCS", "a")
        is_refused(2, "a.img", "rename", "a.img", "a", "THU.PCS")
        is_refused(3, "bad.img", "rename", "bad.img", "A", "B")
        is_refused(4, "a.img", "rename", "a.img", "A", "C")
        is_refused(6, "a.img", "rename", "a.img", "B", "THU.PCS")
        is_refused(5, "a.img", "rename", "a.img", "THU.PCS", "B")
        is_refused(5, "a.img", "rename", "a.img", "THU.PCS", "THU.PCS")


@case("protect: on, off, and what already stands")
def _():
    expected = pieces()
    at = SECTOR * 3 + 3 + 15
    for word, byte in (("on", 0x80), ("on", 0x80), ("off", 0), ("off", 0)):
        does("protect", "a.img", "THU.PCS", word)
        expected.data[at] = byte
        equal(read("a.img"), expected.data)


@case("protect: refusals 1, 2, 3, 4 write nothing")
def _():
    pieces()
    small_unsound()
    write("wrong.img", bytes(100))
    with unchanged():
        is_refused(1, "wrong.img", "protect", "wrong.img", "A", "on")
        is_refused(2, "a.img", "protect", "a.img", "A.BCDE", "on")
        is_refused(3, "bad.img", "protect", "bad.img", "A", "off")
        is_refused(4, "a.img", "protect", "a.img", "A", "off")


@case("list: rows into a pipe")
def _():
    pieces()
    does("save", "a.img", "B", "-", given=b"x")
    does("protect", "a.img", "B", "on")
    rows = "disc\tPIECES\t40\t395\t3\nfile\tTHU.PCS\t2\t-\n" \
           "file\tB\t1\tprotected\n"
    equal(does("list", "a.img").text, rows)
    equal(does("list", "-", given=read("a.img")).text, rows)


@case("list: a table with --table")
def _():
    does("blank", "b.img", "1", "B")
    equal(does("list", "--table", "b.img").text,
          "Disc B: 1 track, 8 sectors free, 0 in 0 files\n")
    pieces()
    does("protect", "a.img", "THU.PCS", "on")
    equal(does("list", "--table", "a.img").text,
          "Disc PIECES: 40 tracks, 396 sectors free, 2 in 1 file\n\n"
          "NAME        SECTORS\n"
          "THU.PCS           2  protected\n")


def on_terminal(*arguments, columns=0, **environment):
    """What is printed on a terminal of so many columns; 0 is unknown."""
    master, slave = pty.openpty()
    fcntl.ioctl(slave, termios.TIOCSWINSZ,
                struct.pack("HHHH", 24, columns, 0, 0))
    process = subprocess.run(
        [TANDOS, *arguments], stdout=slave, stderr=subprocess.PIPE,
        env={**os.environ, "TERM": "xterm", **environment}, timeout=60)
    os.close(slave)
    text = b""
    while True:
        try:
            part = os.read(master, 65536)
        except OSError:
            break
        if not part:
            break
        text += part
    os.close(master)
    equal(process.returncode, DONE, "status")
    return text.decode("latin-1").replace("\r\n", "\n")


@case("list: the same table on a terminal")
def _():
    pieces()
    equal(on_terminal("list", "a.img"), does("list", "--table", "a.img").text)


@case("list: JSON of a blank disc, of files, of names of any bytes")
def _():
    does("blank", "b.img", "1", "EMPTY")
    equal(json.loads(does("list", "--json", "b.img").text),
          {"disc": {"name": "EMPTY", "tracks": 1, "free": 8, "used": 0},
           "files": []})
    disc = pieces()
    disc.save("B", b"x")
    for low in range(0, 256, 9):
        name = bytes((low + i) % 256 for i in range(9))
        disc.data[0x18:0x21] = name
        write("a.img", disc.data)
        found = json.loads(does("list", "--json", "a.img").text)
        equal(found["disc"]["name"], name.decode("latin-1").rstrip(" "))
        equal(found["files"],
              [{"name": "THU.PCS", "sectors": 2, "protected": False},
               {"name": "B", "sectors": 1, "protected": False}])


@case("list: names of any bytes are printable in rows and table")
def _():
    disc = pieces()
    disc.data[0x18:0x21] = b"\x1b[2J\t\n\\\xff "
    write("a.img", disc.data)
    shown = r"\x1B[2J\x09\x0A\\\xFF"
    equal(does("list", "a.img").text.split("\t")[1], shown)
    holds(does("list", "--table", "a.img").text, f"Disc {shown}: ")


@case("list: refusals 1 and 3")
def _():
    small_unsound()
    write("wrong.img", bytes(2561))
    for option in ([], ["--json"], ["--table"]):
        is_refused(1, "wrong.img", "list", "wrong.img", *option)
        is_refused(3, "bad.img", "list", "bad.img", *option)


@case("list: 749 files")
def _():
    disc = Disc.blank(80, "MANY")
    for i in range(749):
        disc.save(f"F{i}", b"x")
    write("a.img", disc.data)
    rows = does("list", "a.img").text.splitlines()
    equal(rows[0], "disc\tMANY\t80\t0\t749")
    equal(rows[1:], [f"file\tF{i}\t1\t-" for i in range(749)])


@case("check: one line for each image, and the exit statuses")
def _():
    pieces()
    small_unsound()
    write("wrong.img", bytes(1))
    good = "a.img: The disc is sound.\n"
    bad = "bad.img: Rule 7 is broken: the used count is not the sum of the " \
          f"file lengths.{REPAIR_HINT}\n"
    equal(does("check", "a.img", "a.img").text, good + good)
    answer = tandos("check", "a.img", "bad.img", "a.img")
    equal((answer.text, answer.error, answer.status),
          (good + bad + good, "", REFUSED))
    answer = tandos("check", "wrong.img")
    holds(answer.text, "wrong.img: refused with 1, SIZE. The image is not")
    equal((answer.text.count("\n"), answer.error, answer.status),
          (1, "", REFUSED))
    equal(does("check", "-", given=read("a.img")).text,
          "standard input: The disc is sound.\n")
    answer = tandos("check", "bad.img", "missing.img", "a.img")
    equal(answer.text, bad + good)
    holds(answer.error, "tandos: missing.img: cannot open: No such file")
    equal(answer.status, 2)
    fails("cannot read: Is a directory", "check", ".")


@case("check: each of the eight rules is named")
def _():
    base = Disc.blank(2, "D")
    base.save("A", sheet_of(300))
    base.save("B", b"x")
    entry = SECTOR * 3 + 3
    damages = {1: (0x12, 0), 2: (SECTOR * 3 + 1, 11), 3: (entry, ord("a")),
               4: (entry + 16, ord("A")), 5: (entry + 9, 3), 6: (0x14, 0),
               7: (0x16, 9), 8: None}
    for rule, damage in damages.items():
        disc = Disc(base.data)
        if damage is not None:
            disc.data[damage[0]] = damage[1]
        else:
            free = disc.free().sectors
            disc.set_link(free[-2], None)
            disc.set_word(0x14, len(free) - 1)
        equal(disc.broken_rule(), rule)
        write("d.img", disc.data)
        answer = tandos("check", "d.img")
        holds(answer.text, f"d.img: Rule {rule} is broken: ")
        equal(answer.status, REFUSED)


@case("view: the 254 bytes of every sector")
def _():
    disc = Disc(bytes((i * i + i // 256) % 256 for i in range(2 * 2560)))
    write("a.img", disc.data)
    for number in range(20):
        text = does("view", "a.img", f"{number // 10}/{number % 10 + 1}").text
        rows = text.splitlines()
        equal(len(rows), 16)
        found = bytes.fromhex("".join(row[3:52] for row in rows))
        equal(found, bytes(disc.data[SECTOR * number + 2:SECTOR * (number + 1)]))
        equal([row[:2] for row in rows], ["%02X" % at
                                          for at in range(0, 256, 16)])
        shown = "".join(row[55:71] for row in rows)[2:]
        equal(shown, "".join(chr(b) if 32 <= b < 127 else "." for b in found))


@case("view: an unsound image, standard input, hexadecimal numbers")
def _():
    small_unsound()
    text = does("view", "bad.img", "0/4").text
    equal(does("view", "-", "0/4", given=read("bad.img")).text, text)
    equal(does("view", "bad.img", "$0/0x4").text, text)


@case("view: refusals 1 and 11")
def _():
    pieces()
    write("wrong.img", bytes(99))
    is_refused(1, "wrong.img", "view", "wrong.img", "0/1")
    for place in ("40/1", "0/0", "0/11", "256/1", "0/257", "4294967296/1",
                  "0/99999999999999999999"):
        is_refused(11, "a.img", "view", "a.img", place)
