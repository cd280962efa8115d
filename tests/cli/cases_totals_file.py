"""totals --add-to: the file in which totals are kept."""

import os
import subprocess
import time

from cases_files import limited, mode, unprivileged
from cases_map import watched
from cases_totals import WEEK, mixed, table, week, write_disc
from disc import records
from support import (REFUSED, TANDOS, case, does, equal, fails, holds,
                     is_misuse, is_refused, read, tandos, unchanged, write)

HEADER = "worker,pieces\n"
ADVICE = " Nothing was changed: correct the line, or give a new file to " \
         "begin from zero.\n"


def rows(totals):
    """A file of {worker: pieces}."""
    return (HEADER + "".join(f"{worker},{pieces}\n" for worker, pieces
                             in sorted(totals.items()))).encode()


@case("totals --add-to: a new file, and sums from week to week")
def _():
    week()
    equal(does("totals", "a.img", "--add-to", "sums.csv").text,
          table({7: 120, 12: 40}, 1))
    equal(read("sums.csv"), b"worker,pieces\n7,120\n12,40\n")
    equal(does("totals", "b.img", "--add-to=sums.csv").text, table(WEEK, 2))
    equal(read("sums.csv"), rows(WEEK))
    twice = {worker: 2 * pieces for worker, pieces in WEEK.items()}
    equal(does("totals", "a.img", "b.img", "--add-to", "sums.csv", "--csv").out,
          rows(twice))
    equal(read("sums.csv"), rows(twice))
    holds(does("totals", "a.img", "--add-to", "sums.csv", "--json").text,
          '{"worker": 7, "pieces": 370}')
    equal(sorted(os.listdir(".")), ["a.img", "b.img", "sums.csv"])


@case("totals --add-to: what --csv prints can be added to")
def _():
    week()
    write("sums.csv", does("totals", "a.img", "b.img", "--csv").out)
    does("totals", "a.img", "--sheet", "*", "--add-to", "sums.csv")
    equal(read("sums.csv"), rows({7: 245, 12: 80, 500: 1000}))
    write_disc("none.img", {})
    does("totals", "none.img", "--add-to", "none.csv")
    equal(read("none.csv"), HEADER.encode())
    does("totals", "none.img", "--add-to", "none.csv")
    equal(read("none.csv"), HEADER.encode())


GOOD_TABLES = {
    "worker,pieces": {},
    "worker,pieces\n7,1": {7: 1},
    "worker,pieces\r\n7,1\r\n8,2\r\n": {7: 1, 8: 2},
    "worker,pieces\r\n7,1\r": {7: 1},
    "worker,pieces\n500,3\n1,1000000000\n007,0004\n8,0\n":
        {1: 10**9, 7: 4, 500: 3},
    HEADER + "".join(f"{w},999999999\r\n" for w in range(500, 0, -1)):
        {w: 999999999 for w in range(1, 501)},
}


@case("totals --add-to: tables that are read")
def _():
    write_disc("none.img", {})
    for text, totals in GOOD_TABLES.items():
        write("sums.csv", text.encode())
        answer = tandos("totals", "none.img", "--add-to", "sums.csv",
                        binary=watched())
        equal((answer.error, answer.text), ("", table(totals, 0)))
        equal(read("sums.csv"), rows(totals))


NOT_HEADER = "not the header 'worker,pieces'"
NOT_DIGITS = "not a worker, a comma and pieces, all in digits"
NOT_WORKER = "the worker is not 1 to 500"
AGAIN = "the worker stands in an earlier line too"
TOO_MANY = "the pieces are more than 1,000,000,000"
TOO_LONG = "too long for a table of 500 workers"

BAD_TABLES = {
    "": (1, NOT_HEADER),
    "\n": (1, NOT_HEADER),
    "\r": (1, NOT_HEADER),
    "7,1\n": (1, NOT_HEADER),
    "worker,piece\n": (1, NOT_HEADER),
    "worker,piecez\n": (1, NOT_HEADER),
    "worker,pieces \n7,1\n": (1, NOT_HEADER),
    "Worker,Pieces\n": (1, NOT_HEADER),
    "\nworker,pieces\n": (1, NOT_HEADER),
    HEADER + "\n": (2, NOT_DIGITS),
    HEADER + "7,1\n\n8,1\n": (3, NOT_DIGITS),
    HEADER + "7\n": (2, NOT_DIGITS),
    HEADER + "7,\n": (2, NOT_DIGITS),
    HEADER + ",7\n": (2, NOT_DIGITS),
    HEADER + ",\n": (2, NOT_DIGITS),
    HEADER + "7;1\n": (2, NOT_DIGITS),
    HEADER + "7,1,2\n": (2, NOT_DIGITS),
    HEADER + "7, 1\n": (2, NOT_DIGITS),
    HEADER + "7,-1\n": (2, NOT_DIGITS),
    HEADER + "7,1.0\n": (2, NOT_DIGITS),
    HEADER + "7,0x1\n": (2, NOT_DIGITS),
    HEADER + "$7,1\n": (2, NOT_DIGITS),
    HEADER + "7,A\n": (2, NOT_DIGITS),
    HEADER + "1,1\n2,2\n3,3\n4,\0\n": (5, NOT_DIGITS),
    HEADER + "7,1\r\r\n": (2, NOT_DIGITS),
    HEADER + "0,1\n": (2, NOT_WORKER),
    HEADER + "1,1\n501,1\n": (3, NOT_WORKER),
    HEADER + "4294967303,1\n": (2, NOT_WORKER),
    HEADER + "7,1\n8,1\n7,1\n": (4, AGAIN),
    HEADER + "7,0\n7,0": (3, AGAIN),
    HEADER + "007,1\n7,1": (3, AGAIN),
    HEADER + "7,1000000001\n": (2, TOO_MANY),
    HEADER + "7,4294967297\n": (2, TOO_MANY),
    HEADER + "7,99999999999999999999999\n": (2, TOO_MANY),
    HEADER + "".join(f"{w},1\n" for w in range(1, 501)) + "1,1": (502, AGAIN),
    HEADER + "7," + "0" * 16384: (2, TOO_LONG),
    HEADER + "7,1\n8," + "0" * 100000 + "1\n": (3, TOO_LONG),
    "x" * 100000: (1, NOT_HEADER),
}


@case("totals --add-to: a file that is no such table is kept as it is")
def _():
    week()
    for text, (line, fault) in BAD_TABLES.items():
        write("sums.csv", text.encode())
        with unchanged():
            answer = tandos("totals", "a.img", "--add-to", "sums.csv",
                            binary=watched())
            equal((answer.status, answer.text, answer.error),
                  (2, "", f"tandos: sums.csv: line {line}: {fault}.{ADVICE}"))


@case("totals --add-to: the longest table is no longer than may be read")
def _():
    write_disc("none.img", {})
    zeros = "0" * (16384 - len(HEADER) - len("7,1\n") - 1)
    write("sums.csv", f"{HEADER}7,{zeros}1\n".encode())
    equal(len(read("sums.csv")), 16383)
    does("totals", "none.img", "--add-to", "sums.csv")
    equal(read("sums.csv"), rows({7: 1}))


@case("totals --add-to: nothing is written where anything is refused")
def _():
    week()
    write("wrong.img", b"short")
    write("full.csv", rows({7: 10**9 - 119}))
    write("sums.csv", rows({1: 1}))
    with unchanged():
        for path in ("sums.csv", "new.csv"):
            to = ["--add-to", path]
            is_refused(1, "wrong.img", "totals", "a.img", "wrong.img", *to)
            equal(tandos("totals", "a.img", "--sheet", "NONE", *to).status,
                  REFUSED)
        for more in ([], ["--only-good"]):
            answer = is_refused(13, "a.img: MON.PCS", "totals", "b.img",
                                "a.img", "--add-to", "full.csv", *more)
            holds(answer.error, " Worker 7 would have 1000000006.\n")
    # Only who would have more is named, and only by records of pieces.
    write("full.csv", rows({3: 10**9, 7: 10**9 - 1}))
    write_disc("c.img", {"DATE": b"\2\7\0\1\0" + records((7, 2))})
    answer = is_refused(13, "c.img: DATE", "totals", "c.img", "--add-to",
                        "full.csv")
    holds(answer.error, " Worker 7 would have 1000000001.\n")
    mixed()
    with unchanged():
        for path in ("sums.csv", "new.csv"):
            equal(tandos("totals", "a.img", "b.img", "--add-to", path).status,
                  REFUSED)
    tandos("totals", "a.img", "b.img", "--add-to", "sums.csv", "--only-good")
    equal(read("sums.csv"), rows({1: 1, 7: 3}))


@case("totals --add-to: the new totals are a new file, with the permissions "
      "of any")
def _():
    week()
    for mask, expected in ((0o022, 0o644), (0o077, 0o600)):
        old = os.umask(mask)
        try:
            does("totals", "a.img", "--add-to", f"{mask}.csv")
        finally:
            os.umask(old)
        equal(mode(f"{mask}.csv"), expected)
        equal(os.stat(f"{mask}.csv").st_nlink, 1)


@case("totals --add-to: the file is replaced, its permissions and links stay")
def _():
    week()
    os.mkdir("real")
    write("real/sums.csv", rows({7: 1}))
    os.chmod("real/sums.csv", 0o640)
    os.link("real/sums.csv", "second")
    os.symlink("real/sums.csv", "one")
    os.symlink("one", "two")
    inode = os.stat("real/sums.csv").st_ino
    does("totals", "a.img", "--add-to", "two")
    equal((os.readlink("two"), os.readlink("one")), ("one", "real/sums.csv"))
    equal(read("real/sums.csv"), rows({7: 121, 12: 40}))
    equal(mode("real/sums.csv"), 0o640)
    equal(os.stat("real/sums.csv").st_ino == inode, False, "the same file")
    equal(read("second"), rows({7: 1}))
    equal(os.listdir("real"), ["sums.csv"])


@case("totals --add-to: what is no file of totals is kept")
def _():
    week()
    os.symlink("a.img", "link")
    os.link("a.img", "hard")
    os.symlink("nowhere", "broken")
    os.mkdir("folder")
    os.mkfifo("pipe")
    with unchanged():
        for path in ("a.img", "./a.img", "link", "hard"):
            is_misuse("tandos totals: totals are not added to an image: "
                      f"'{path}'\n", "totals", "b.img", "a.img", "--add-to",
                      path)
        with open("a.img", "rb") as image:
            process = subprocess.run(
                [TANDOS, "totals", "-", "--add-to", "a.img"], stdin=image,
                stdout=subprocess.PIPE, stderr=subprocess.PIPE)
        equal((process.returncode, process.stdout), (2, b""))
        for path in ("folder", "pipe", "/dev/null"):
            fails(f"tandos: {path}: cannot change: not a regular file\n",
                  "totals", "a.img", "--add-to", path)
        fails("tandos: broken: cannot write: No such file", "totals", "a.img",
              "--add-to", "broken")
        fails("tandos: none/a.csv: cannot make a temporary file beside it: No "
              "such file", "totals", "a.img", "--add-to", "none/a.csv")
        fails("tandos: a.img/x: cannot open for change: Not a directory",
              "totals", "a.img", "--add-to", "a.img/x")
        is_misuse("tandos totals: totals that are added to are a file, not "
                  "'-'\n", "totals", "a.img", "--add-to", "-")


@case("totals --add-to: read-only files and folders")
def _():
    week()
    options = unprivileged(os.getcwd())
    os.mkdir("sub")
    write("sub/sums.csv", rows({7: 1}))
    os.chmod("sub/sums.csv", 0o444)
    fails("tandos: sub/sums.csv: cannot open for change: Permission denied",
          "totals", "a.img", "--add-to", "sub/sums.csv", **options)
    os.chmod("sub/sums.csv", 0o666)
    os.chmod("sub", 0o555)
    fails("tandos: sub/sums.csv: cannot make a temporary file beside it: "
          "Permission denied", "totals", "a.img", "--add-to", "sub/sums.csv",
          **options)
    equal(read("sub/sums.csv"), rows({7: 1}))
    equal(os.listdir("sub"), ["sums.csv"])


@case("totals --add-to: a write that fails leaves the old file")
def _():
    week()
    write("sums.csv", rows({worker: 10**6 for worker in range(1, 201)}))
    with unchanged():
        fails("tandos: sums.csv: cannot write, nothing was changed: File too "
              "large", "totals", "a.img", "--add-to", "sums.csv",
              preexec_fn=limited(True))


@case("totals --add-to: what could not be printed is not added")
def _():
    week()
    write("sums.csv", rows({7: 1}))
    with unchanged(), open("/dev/full", "wb") as full:
        for more in ([], ["--json"], ["--csv"]):
            answer = tandos("totals", "a.img", "--add-to", "sums.csv", *more,
                            stdout=full)
            equal((answer.status, answer.error),
                  (2, "tandos: standard output: cannot write: No space left on "
                      "device\n"))


def at_once(count, path):
    """How many of so many commands at once were done."""
    processes = [subprocess.Popen(
        [TANDOS, "totals", "one.img", "--add-to", path],
        stdout=subprocess.DEVNULL, stderr=subprocess.DEVNULL)
        for _ in range(count)]
    statuses = [process.wait() for process in processes]
    equal(set(statuses) <= {0, 2}, True, statuses)
    return statuses.count(0)


@case("totals --add-to: of two commands at once no sum is lost")
def _():
    write_disc("one.img", {"A": records((7, 1))})
    write("sums.csv", rows({7: 1}))
    equal(at_once(40, "sums.csv"), 40)
    equal(read("sums.csv"), rows({7: 41}))
    # Where none stands, one makes it; another that did not see it is refused.
    for attempt in range(5):
        done = at_once(10, f"{attempt}.csv")
        equal(read(f"{attempt}.csv"), rows({7: done}))


def full_pipe():
    """A pipe into which nothing more can be written."""
    reading, writing = os.pipe()
    os.set_blocking(writing, False)
    try:
        while True:
            os.write(writing, bytes(4096))
    except BlockingIOError:
        pass
    os.set_blocking(writing, True)
    return reading, writing


def wait_until_asleep(process):
    """Until the process has waited for something for a while, or is over."""
    asleep = 0
    while asleep < 10 and process.poll() is None:
        time.sleep(0.01)
        state = read(f"/proc/{process.pid}/stat").rsplit(b")", 1)[1].split()[0]
        asleep = asleep + 1 if state == b"S" else 0


@case("totals --add-to: a file that comes to stand meanwhile is kept")
def _():
    week()
    reading, writing = full_pipe()
    waiting = subprocess.Popen(
        [TANDOS, "totals", "a.img", "--add-to", "sums.csv"], stdout=writing,
        stderr=subprocess.PIPE)
    os.close(writing)
    wait_until_asleep(waiting)
    does("totals", "b.img", "--add-to", "sums.csv")
    with os.fdopen(reading, "rb") as pipe:
        pipe.read()
    error = waiting.communicate()[1]
    equal((waiting.returncode, error),
          (2, b"tandos: sums.csv: cannot write, nothing was changed: File "
              b"exists\n"))
    equal(read("sums.csv"), rows({7: 5, 500: 1000}))
    equal(sorted(os.listdir(".")), ["a.img", "b.img", "sums.csv"])


@case("totals --add-to: standard input may be long in coming: the file is not "
      "locked then")
def _():
    write_disc("one.img", {"A": records((7, 1))})
    write("sums.csv", rows({7: 1}))
    waiting = subprocess.Popen([TANDOS, "totals", "-", "--add-to", "sums.csv"],
                               stdin=subprocess.PIPE, stdout=subprocess.PIPE)
    time.sleep(0.05)
    does("totals", "one.img", "--add-to", "sums.csv")
    waiting.communicate(read("one.img"))
    equal(waiting.returncode, 0)
    equal(read("sums.csv"), rows({7: 3}))
