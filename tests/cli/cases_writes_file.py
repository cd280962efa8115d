"""--writes: the file of the list beside the image, whatever happens."""

import os
import random
import signal
import subprocess
import time

from cases_files import clean_up, limited, mode, unprivileged
from cases_totals_file import full_pipe, wait_until_asleep
from cases_writes import CHANGES
from disc import USED_COUNT, Disc
from support import (TANDOS, case, does, equal, fails, is_misuse,
                     is_refused, read, sheet_of, tandos, unchanged, write)


def small():
    """A disc of 2 tracks with A, in a.img."""
    disc = Disc.blank(2, "D")
    disc.save("A", sheet_of(300))
    write("a.img", disc.data)
    return disc


def saved(disc, name, sheet):
    """The list of a save, and the disc after it."""
    new = Disc(disc.data)
    new.save(name, sheet)
    return new.writes(disc.sectors_of_save(sheet)), new


@case("--writes: a refused command writes no list and leaves the one there")
def _():
    disc = small()
    disc.save("B", b"x")
    disc.protect("B", True)
    write("a.img", disc.data)
    write("stands", b"precious")
    bad = Disc(disc.data)
    bad.set_word(USED_COUNT, 9)
    write("bad.img", bad.data)
    write("wrong.img", bytes(2559))
    with unchanged():
        for path in ("new", "stands", "-", "/dev/null"):
            to = ["--writes", path]
            for command, *rest in CHANGES:
                is_refused(1, "wrong.img", command, "wrong.img", *rest, *to,
                           given=b"x")
                is_refused(3, "bad.img", command, "bad.img", *rest, *to,
                           given=b"x")
                is_refused(2, "a.img", command, "a.img", "X.", *rest[1:], *to,
                           given=b"x")
                if command != "save":
                    is_refused(4, "a.img", command, "a.img", "C", *rest[1:],
                               *to)
            is_refused(5, "a.img", "save", "a.img", "A", "-", *to, given=b"x")
            is_refused(7, "a.img", "save", "a.img", "C", "-", *to, given=b"")
            is_refused(8, "a.img", "save", "a.img", "C", "-", *to,
                       given=bytes(9000))
            is_refused(6, "a.img", "delete", "a.img", "B", *to)
            is_refused(6, "a.img", "rename", "a.img", "B", "C", *to)
            is_refused(5, "a.img", "rename", "a.img", "A", "B", *to)
            is_misuse("'on' or 'off'", "protect", "a.img", "A", "x", *to)
            is_misuse("is wanted", "save", "a.img", "C", "-", "--page", "x",
                      *to, given=b"x")


@case("--writes: a new file has the permissions of any")
def _():
    small()
    for mask, expected in ((0o022, 0o644), (0o077, 0o600)):
        old = os.umask(mask)
        try:
            does("protect", "a.img", "A", "on", "--writes", f"{mask}.lst")
        finally:
            os.umask(old)
        equal(mode(f"{mask}.lst"), expected)
        equal(os.stat(f"{mask}.lst").st_nlink, 1)
    equal(sorted(os.listdir(".")), ["18.lst", "63.lst", "a.img"])


@case("--writes: the file is replaced whole, its permissions and links stay")
def _():
    disc = small()
    os.mkdir("real")
    os.symlink("real/w", "one")
    os.symlink("one", "two")
    for length in (0, 10, 100_000):
        write("real/w", bytes(length))
        os.chmod("real/w", 0o640)
        os.link("real/w", "second")
        os.chmod("a.img", 0o604)
        writes, new = saved(disc, "B", b"x")
        write("a.img", disc.data)
        does("save", "a.img", "B", "-", "--writes", "two", given=b"x")
        equal((os.readlink("two"), os.readlink("one")), ("one", "real/w"))
        equal(read("real/w"), writes)
        equal((mode("real/w"), mode("a.img")), (0o640, 0o604))
        equal(read("second"), bytes(length))
        equal(read("a.img"), new.data)
        equal(os.listdir("real"), ["w"])
        os.unlink("second")


@case("--writes: a file of another folder, by its path")
def _():
    disc = small()
    os.mkdir("lists")
    writes, _ = saved(disc, "B", b"x")
    for path in ("lists/w", "lists/../lists/w", os.path.abspath("lists/w")):
        write("a.img", disc.data)
        does("save", "a.img", "B", "-", f"--writes={path}", given=b"x")
        equal(read("lists/w"), writes)
        equal(os.listdir("lists"), ["w"])
        os.unlink("lists/w")
    equal(sorted(os.listdir(".")), ["a.img", "lists"])


@case("--writes: the image stays where the list cannot be written")
def _():
    small()
    os.symlink("nowhere", "broken")
    os.mkdir("folder")
    with unchanged():
        for command, *rest in CHANGES:
            for path, problem in (
                    ("none/w", "cannot make a temporary file beside it: No "
                               "such file or directory"),
                    ("a.img/w", "cannot write: Not a directory"),
                    ("broken", "cannot write: No such file or directory"),
                    ("folder", "cannot write: not a regular file"),
                    ("/dev/full", "cannot write: No space left on device")):
                answer = tandos(command, "a.img", *rest, "--writes", path,
                                given=b"x")
                equal((answer.status, answer.text, answer.error),
                      (2, "", f"tandos: {path}: {problem}\n"))


@case("--writes: neither the image nor the sheet is written over")
def _():
    small()
    os.symlink("a.img", "link")
    os.link("a.img", "second")
    write("sheet", b"x")
    os.symlink("sheet", "link2")
    with unchanged():
        for path in ("a.img", "./a.img", "link", "second"):
            for command, *rest in CHANGES:
                answer = tandos(command, "a.img", *rest, "--writes", path,
                                given=b"x")
                equal((answer.status, answer.error),
                      (2, f"tandos: {path}: is the image itself: choose "
                          "another file\n"))
        for path in ("sheet", "link2"):
            is_misuse("tandos save: the list of writes does not replace the "
                      f"sheet: '{path}'\n", "save", "a.img", "B", "sheet",
                      "--writes", path)


@case("--writes: standard output, a pipe, a device")
def _():
    disc = small()
    writes, new = saved(disc, "B", sheet_of(1000))
    for form in (["--writes", "-"], ["--writes=-"], ["--writes", "/dev/null"]):
        write("a.img", disc.data)
        equal(does("save", "a.img", "B", "-", *form,
                   given=sheet_of(1000)).out,
              b"" if form[-1] == "/dev/null" else writes)
        equal(read("a.img"), new.data)
    os.mkfifo("pipe")
    write("a.img", disc.data)
    reader = subprocess.Popen(["cat", "pipe"], stdout=subprocess.PIPE)
    does("save", "a.img", "B", "-", "--writes", "pipe", given=sheet_of(1000))
    equal(reader.communicate()[0], writes)
    equal(read("a.img"), new.data)
    equal(sorted(os.listdir(".")), ["a.img", "pipe"])


@case("--writes: the image stays where the list cannot be printed")
def _():
    small()
    with unchanged(), open("/dev/full", "wb") as full:
        for command, *rest in CHANGES:
            answer = tandos(command, "a.img", *rest, "--writes", "-",
                            given=b"x", stdout=full)
            equal((answer.status, answer.error),
                  (2, "tandos: standard output: cannot write: No space left on "
                      "device\n"))


@case("--writes: whom the list is printed to may go: no temporary file stays")
def _():
    small()
    with unchanged():
        for command, *rest in CHANGES:
            reading, writing = os.pipe()
            os.close(reading)
            answer = tandos(command, "a.img", *rest, "--writes", "-",
                            given=b"x", stdout=writing,
                            preexec_fn=lambda: signal.signal(
                                signal.SIGPIPE, signal.SIG_DFL))
            os.close(writing)
            equal(answer.status, -signal.SIGPIPE)


@case("--writes: the image is changed only when the list is out")
def _():
    disc = small()
    writes, new = saved(disc, "B", b"x")
    write("sheet", b"x")
    reading, writing = full_pipe()
    waiting = subprocess.Popen(
        [TANDOS, "save", "a.img", "B", "sheet", "--writes", "-"],
        stdout=writing)
    os.close(writing)
    wait_until_asleep(waiting)
    equal(read("a.img"), disc.data)
    with os.fdopen(reading, "rb") as pipe:
        equal(pipe.read().endswith(writes), True)
    equal(waiting.wait(), 0)
    equal(read("a.img"), new.data)
    equal(sorted(os.listdir(".")), ["a.img", "sheet"])


@case("--writes: read-only folders")
def _():
    options = unprivileged(os.getcwd())
    disc = Disc.blank(2, "D")
    for folder in ("images", "lists"):
        os.mkdir(folder)
    write("images/a.img", disc.data)
    os.chmod("images/a.img", 0o666)
    for closed, said in (("lists", "lists/w"), ("images", "images/a.img")):
        for folder in ("images", "lists"):
            os.chmod(folder, 0o555 if folder == closed else 0o777)
        fails(f"tandos: {said}: cannot make a temporary file beside it: "
              "Permission denied", "save", "images/a.img", "A", "-",
              "--writes", "lists/w", given=b"x", **options)
        equal(read("images/a.img"), disc.data)
        equal((os.listdir("images"), os.listdir("lists")), (["a.img"], []))


AHEAD = "cannot write, the image stays as it was, but the list of its " \
        "change is written; give the command again, or replay the list: " \
        "Operation not permitted\n"


@case("--writes: an image that cannot take its name is behind its list, which "
      "makes up for it")
def _():
    if os.getuid() != 0:
        print("not the superuser: a folder of others' files is left out")
        return
    options = unprivileged(os.getcwd())
    disc = Disc.blank(2, "D")
    writes, new = saved(disc, "A", b"x")
    os.mkdir("sticky")
    os.mkdir("lists")
    os.chmod("lists", 0o777)
    write("sticky/a.img", disc.data)
    os.chmod("sticky/a.img", 0o666)
    # In such a folder only the owner's files can be replaced.
    os.chmod("sticky", 0o1777)
    save = ["save", "sticky/a.img", "A", "-", "--writes", "lists/w"]
    answer = tandos(*save, given=b"x", **options)
    equal((answer.status, answer.error), (2, f"tandos: sticky/a.img: {AHEAD}"))
    equal((read("sticky/a.img"), read("lists/w")), (disc.data, writes))
    equal((os.listdir("sticky"), os.listdir("lists")), (["a.img"], ["w"]))
    write("copy.img", disc.data)
    does("replay", "copy.img", "lists/w")
    equal(read("copy.img"), new.data)
    does(*save, given=b"x")
    equal((read("sticky/a.img"), read("lists/w")), (new.data, writes))
    does("replay", "sticky/a.img", "lists/w")
    equal(read("sticky/a.img"), new.data)


@case("--writes: a write that fails leaves the old image and the old list")
def _():
    disc = Disc.blank(1, "D")
    write("a.img", disc.data)
    write("w", b"old")
    # The image has 2,560 bytes, the list of a save of eight sectors 2,591.
    for limit, said in ((1000, "a.img"), (2570, "w")):
        with unchanged():
            for path in ("w", "new"):
                answer = tandos("save", "a.img", "A", "-", "--writes", path,
                                given=sheet_of(2016), preexec_fn=limited(
                                    True, limit))
                said_of = path if said == "w" else said
                equal((answer.status, answer.error),
                      (2, f"tandos: {said_of}: cannot write, nothing was "
                          "changed: File too large\n"))
                answer = tandos("save", "a.img", "A", "-", "--writes", path,
                                given=sheet_of(2016), preexec_fn=limited(
                                    False, limit))
                equal(answer.status, -signal.SIGXFSZ)
    does("save", "a.img", "A", "-", "--writes", "w", given=sheet_of(2016),
         preexec_fn=limited(True, 2591))


@case("replay: a write that fails leaves the old image")
def _():
    small()
    write("end", b"\0")
    with unchanged():
        answer = tandos("replay", "a.img", "end", preexec_fn=limited(True))
        equal((answer.status, answer.text, answer.error),
              (2, "", "tandos: a.img: cannot write, nothing was changed: File "
                      "too large\n"))


@case("replay: the image keeps its permissions and links")
def _():
    disc = small()
    writes, new = saved(disc, "B", b"x")
    write("w", writes)
    os.chmod("a.img", 0o640)
    os.symlink("a.img", "link")
    does("replay", "link", "w")
    equal((os.readlink("link"), mode("a.img")), ("a.img", 0o640))
    equal(read("a.img"), new.data)
    equal(sorted(os.listdir(".")), ["a.img", "link", "w"])
    os.mkfifo("pipe")
    fails("pipe: cannot change: not a regular file", "replay", "pipe", "w")


@case("replay: the list may be long in coming: the image is not locked then")
def _():
    disc = small()
    writes, _ = saved(disc, "B", b"x")
    waiting = subprocess.Popen([TANDOS, "replay", "a.img", "-"],
                               stdin=subprocess.PIPE, stdout=subprocess.PIPE)
    time.sleep(0.05)
    does("protect", "a.img", "A", "on", "--writes", "w")
    waiting.communicate(writes)
    equal(waiting.returncode, 0)


# Old or new: the image, and the list; None where there is no list.
STATES = {("old", None), ("old", "new"), ("new", "new")}


@case("--writes: signals leave no image without its list, 80 times")
def _():
    chance = random.Random(66)
    disc = Disc.blank(80, "D")
    disc.save("OLD", sheet_of(50000))
    sheet = sheet_of(57344, 3)
    writes, new = saved(disc, "NEW", sheet)
    write("sheet", sheet)
    longest = 0.02
    met = set()
    for attempt in range(80):
        write("a.img", disc.data)
        process = subprocess.Popen([TANDOS, "save", "a.img", "NEW", "sheet",
                                    "--writes", "w"])
        time.sleep(chance.random() * longest)
        is_kill = attempt % 2 == 0
        process.send_signal(signal.SIGKILL if is_kill else signal.SIGTERM)
        process.wait()
        state = ({bytes(disc.data): "old", bytes(new.data): "new"}
                 .get(read("a.img")),
                 {writes: "new"}.get(read("w"), "cut")
                 if os.path.exists("w") else None)
        equal(state in STATES, True, state)
        met.add(state)
        # The machine's speed changes: stay near the end of the command.
        longest *= 0.9 if state[0] == "new" else 1.1
        clean_up(is_kill)
        equal(set(os.listdir(".")) <= {"a.img", "sheet", "w"}, True)
        if state == ("old", "new"):
            does("replay", "a.img", "w")
            equal(read("a.img"), new.data)
        if os.path.exists("w"):
            os.unlink("w")
    equal(met >= {("old", None), ("new", "new")}, True, met)
