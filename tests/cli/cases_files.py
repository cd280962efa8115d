"""Files: what a writing command leaves, whatever happens to it."""

import os
import random
import resource
import shutil
import signal
import stat
import subprocess
import time

from disc import Disc
from support import (TANDOS, case, does, equal, fails, holds, is_refused, read,
                     sheet_of, tandos, unchanged, write)

NOBODY = 65534


def mode(path):
    return stat.S_IMODE(os.stat(path).st_mode)


def blank_image(path="a.img", tracks=2):
    write(path, Disc.blank(tracks, "D").data)


@case("blank: keeps what stands, unless --force is given")
def _():
    write("a.img", b"precious")
    os.symlink("nowhere", "link")
    os.mkdir("folder")
    with unchanged():
        for path in ("a.img", "link", "folder"):
            fails(f"{path}: stands already: give another name, or --force",
                  "blank", path, "1", "D")
        fails("not a regular file", "blank", "folder", "1", "D", "--force")
        fails("No such file", "blank", "link", "1", "D", "--force")
        is_refused(2, "a.img", "blank", "a.img", "1", "d", "--force")
    os.chmod("a.img", 0o640)
    does("blank", "--force", "a.img", "1", "D")
    equal(read("a.img"), Disc.blank(1, "D").data)
    equal(mode("a.img"), 0o640)


@case("blank: a new image has the permissions of any new file")
def _():
    for mask, expected in ((0o022, 0o644), (0o077, 0o600), (0o002, 0o664)):
        old = os.umask(mask)
        try:
            does("blank", f"{mask}.img", "1", "D")
        finally:
            os.umask(old)
        equal(mode(f"{mask}.img"), expected)
        equal(os.stat(f"{mask}.img").st_nlink, 1)


@case("permissions: a changed image keeps its own")
def _():
    for bits in (0o600, 0o644, 0o664, 0o755):
        blank_image()
        os.chmod("a.img", bits)
        does("save", "a.img", "A", "-", given=b"x")
        equal(mode("a.img"), bits)
        does("delete", "a.img", "A")
        equal(mode("a.img"), bits)
    equal(os.listdir("."), ["a.img"])


@case("symbolic links: the real file is written, the link stays")
def _():
    os.mkdir("real")
    blank_image("real/a.img")
    os.symlink("real/a.img", "one")
    os.symlink("one", "two")
    does("save", "two", "A", "-", given=b"x")
    does("rename", "two", "A", "B")
    does("protect", "two", "B", "on")
    equal(os.readlink("two"), "one")
    equal(os.readlink("one"), "real/a.img")
    equal(does("list", "real/a.img").text.splitlines()[1],
          "file\tB\t1\tprotected")
    equal(os.listdir("real"), ["a.img"])
    does("read", "two", "B", "-o", "sheet")
    os.symlink("sheet", "three")
    does("read", "two", "B", "-o", "three")
    equal(os.readlink("three"), "sheet")


@case("folders: an image of another folder, by a relative and a full path")
def _():
    os.mkdir("sub")
    does("blank", "sub/a.img", "1", "D")
    does("save", os.path.abspath("sub/a.img"), "A", "-", given=b"x")
    does("save", "sub/../sub/a.img", "B", "-", given=b"y")
    equal(does("read", "sub/a.img", "B").out, b"y")
    equal(os.listdir("sub"), ["a.img"])
    fails("cannot make a temporary file", "blank", "none/a.img", "1", "D")


@case("special files: never replaced")
def _():
    blank_image()
    os.mkfifo("pipe")
    fails("not a regular file", "save", "pipe", "A", "-", given=b"x")
    fails("not a regular file", "blank", "pipe", "1", "D", "--force")
    fails("not a regular file", "delete", ".", "A")
    equal(stat.S_ISFIFO(os.stat("pipe").st_mode), True)
    does("save", "a.img", "A", "-", given=b"x")
    does("read", "a.img", "A", "-o", "/dev/null")
    equal(stat.S_ISCHR(os.stat("/dev/null").st_mode), True)
    fails("cannot write", "read", "a.img", "A", "-o", "/dev/full")
    fails("not a regular file", "read", "a.img", "A", "-o", ".")


@case("read: the image itself is not written over")
def _():
    blank_image()
    does("save", "a.img", "A", "-", given=b"x")
    os.symlink("a.img", "link")
    os.link("a.img", "second")
    with unchanged():
        for path in ("a.img", "link", "second", "./a.img"):
            fails("is the image itself", "read", "a.img", "A", "-o", path)
        with open("a.img", "rb") as image:
            process = subprocess.run(
                [TANDOS, "read", "-", "A", "-o", "a.img"], stdin=image,
                stderr=subprocess.PIPE)
        equal(process.returncode, 2)


@case("missing files")
def _():
    blank_image()
    for arguments in (["list", "x"], ["read", "x", "A"], ["check", "x"],
                      ["view", "x", "0/1"], ["delete", "x", "A"],
                      ["rename", "x", "A", "B"], ["protect", "x", "A", "on"],
                      ["save", "x", "A", "a.img"], ["save", "a.img", "A", "x"],
                      ["totals", "a.img", "x"], ["replay", "a.img", "x"],
                      ["replay", "x", "a.img"], ["writes", "x"],
                      ["repair", "x"], ["repair", "--dry-run", "x"]):
        fails("x: cannot open", *arguments)
    equal(os.listdir("."), ["a.img"])


@case("images of every wrong length are read no further than needed")
def _():
    for length in (0, 1, 2559, 2561, 204799, 204801, 10_000_000):
        with open("a.img", "wb") as file:
            file.truncate(length)
        for arguments in (["list", "a.img"], ["view", "a.img", "0/1"],
                          ["delete", "a.img", "A"]):
            is_refused(1, "a.img", *arguments)
        equal(os.path.getsize("a.img"), length)
    # An endless file: only the first bytes are read.
    is_refused(1, "/dev/zero", "list", "/dev/zero")


def unprivileged(folder):
    """How to run a copy of the command as a user without rights."""
    if os.getuid() != 0:
        return {}
    copy = os.path.join(folder, "tandos")
    shutil.copy(TANDOS, copy)
    os.chmod(copy, 0o755)
    os.chmod(folder, 0o755)
    return {"user": NOBODY, "group": NOBODY, "extra_groups": [],
            "binary": copy}


@case("read-only folder: an error, and nothing changes")
def _():
    options = unprivileged(os.getcwd())
    os.mkdir("sub")
    blank_image("sub/a.img")
    os.chmod("sub/a.img", 0o666)
    before = read("sub/a.img")
    os.chmod("sub", 0o555)
    fails("sub/a.img: cannot make a temporary file beside it: Permission "
          "denied", "save", "sub/a.img", "A", "-", given=b"x", **options)
    fails("Permission denied", "blank", "sub/b.img", "1", "D", **options)
    equal(read("sub/a.img"), before)
    equal(os.listdir("sub"), ["a.img"])


@case("read-only image: an error, and nothing changes")
def _():
    options = unprivileged(os.getcwd())
    os.mkdir("sub")
    blank_image("sub/a.img")
    os.chmod("sub", 0o777)
    os.chmod("sub/a.img", 0o444)
    before = read("sub/a.img")
    fails("sub/a.img: cannot open for change: Permission denied", "save",
          "sub/a.img", "A", "-", given=b"x", **options)
    equal(tandos("check", "sub/a.img", **options).status, 0)
    equal(read("sub/a.img"), before)
    equal(os.listdir("sub"), ["a.img"])


def limited(ignored, most=1000):
    """Files of at most so many bytes: a write beyond that fails."""
    def prepare():
        resource.setrlimit(resource.RLIMIT_FSIZE, (most, most))
        signal.signal(signal.SIGXFSZ,
                      signal.SIG_IGN if ignored else signal.SIG_DFL)
        resource.setrlimit(resource.RLIMIT_CORE, (0, 0))
    return prepare


@case("a write that fails leaves the old image and no temporary file")
def _():
    blank_image()
    with unchanged():
        fails("cannot write, nothing was changed: File too large", "save",
              "a.img", "A", "-", given=b"x", preexec_fn=limited(True))
        answer = tandos("save", "a.img", "A", "-", given=b"x",
                        preexec_fn=limited(False))
        equal(answer.status, -signal.SIGXFSZ)
        fails("File too large", "blank", "b.img", "1", "D",
              preexec_fn=limited(True))


@case("signals: SIGINT and SIGTERM leave no temporary file, 100 times")
def _():
    interrupt((signal.SIGINT, signal.SIGTERM), 100, may_leave=False)


# TANDOS_KILLS=500 for a long run.
KILLS = int(os.environ.get("TANDOS_KILLS", "50"))


@case(f"signals: SIGKILL leaves the old or the new image whole, {KILLS} times")
def _():
    interrupt((signal.SIGKILL,), KILLS, may_leave=True)


def interrupt(signals, times, may_leave):
    chance = random.Random(65)
    old = Disc.blank(80, "D")
    old.save("OLD", sheet_of(50000))
    new = Disc(old.data)
    new.save("NEW", sheet_of(57344, 3))
    write("sheet", sheet_of(57344, 3))
    write("other", b"other")
    write("b.img", old.data)
    longest = 1.3 * time_of_save(old)
    stood = set()
    for _ in range(times):
        write("a.img", old.data)
        process = subprocess.Popen([TANDOS, "save", "a.img", "NEW", "sheet"])
        time.sleep(chance.random() * longest)
        process.send_signal(chance.choice(signals))
        process.wait()
        found = read("a.img")
        equal(found in (old.data, new.data), True, "old or new, whole")
        stood.add(found == new.data)
        # The machine's speed changes: stay near the end of the command.
        longest *= 0.9 if found == new.data else 1.1
        clean_up(may_leave)
        equal(sorted(os.listdir(".")), ["a.img", "b.img", "other", "sheet"])
    equal(read("b.img"), old.data)
    equal(read("other"), b"other")
    equal(read("sheet"), sheet_of(57344, 3))
    equal(stood, {True, False}, "both images occur")


def time_of_save(old):
    write("a.img", old.data)
    start = time.monotonic()
    for name in ("A", "B", "C"):
        does("save", "a.img", name, "other")
    return (time.monotonic() - start) / 3


def clean_up(may_leave):
    """A killed command cannot remove its temporary file; its name tells it
    from the images."""
    for name in os.listdir("."):
        if may_leave and name.startswith(".tandos-"):
            os.unlink(name)


@case("two commands at once: no save is lost")
def _():
    blank_image("a.img", 40)
    names = [f"F{i}" for i in range(40)]
    processes = [subprocess.Popen([TANDOS, "save", "a.img", name, "-"],
                                  stdin=subprocess.PIPE) for name in names]
    for process in processes:
        process.stdin.write(b"x")
        process.stdin.close()
    equal([process.wait() for process in processes], [0] * 40)
    rows = does("list", "a.img").text.splitlines()[1:]
    equal(sorted(row.split("\t")[1] for row in rows), sorted(names))


@case("standard input may be long in coming: the image is not locked then")
def _():
    blank_image()
    waiting = subprocess.Popen([TANDOS, "save", "a.img", "A", "-"],
                               stdin=subprocess.PIPE)
    time.sleep(0.05)
    does("save", "a.img", "B", "-", given=b"x")
    waiting.stdin.write(b"y")
    waiting.stdin.close()
    equal(waiting.wait(), 0)
    text = does("list", "a.img").text
    holds(text, "file\tA\t")
    holds(text, "file\tB\t")
