"""repair: the image's file, whatever happens to it."""

import os
import random
import resource
import signal
import subprocess
import time

from cases_files import clean_up, limited, mode, unprivileged
from cases_repair import copy_of, dry_text, example, sound_text
from cases_repair import break_used_count as damage
from disc import Disc
from support import (TANDOS, case, does, equal, fails, holds, read, sheet_of,
                     tandos, unchanged, write)


def pulled(path="a.img"):
    """An unsound disc in a file, and the repaired one."""
    disc = example()
    damage(disc)
    new = copy_of(disc)
    new.repair()
    write(path, disc.data)
    return disc, new


@case("repair: the image keeps its permissions and links, no file is left")
def _():
    _, new = pulled()
    os.chmod("a.img", 0o640)
    os.symlink("a.img", "link")
    does("repair", "link")
    equal((os.readlink("link"), mode("a.img")), ("a.img", 0o640))
    equal(read("a.img"), new.data)
    equal(sorted(os.listdir(".")), ["a.img", "link"])
    os.mkfifo("pipe")
    fails("pipe: cannot change: not a regular file", "repair", "pipe")


@case("repair: a read-only image or folder is an error, and nothing changes")
def _():
    options = unprivileged(os.getcwd())
    os.mkdir("sub")
    disc, new = pulled("sub/a.img")
    os.chmod("sub", 0o777)
    os.chmod("sub/a.img", 0o444)
    answer = tandos("repair", "sub/a.img", **options)
    equal((answer.status, answer.text, answer.error),
          (2, "", "tandos: sub/a.img: cannot open for change: Permission "
                  "denied\n"))
    equal(does("repair", "--dry-run", "sub/a.img", **options).text,
          dry_text("sub/a.img", disc, new))
    os.chmod("sub/a.img", 0o666)
    os.chmod("sub", 0o555)
    answer = tandos("repair", "sub/a.img", **options)
    equal((answer.status, answer.text, answer.error),
          (2, "", "tandos: sub/a.img: cannot make a temporary file beside it: "
                  "Permission denied\n"))
    write("sub/a.img", new.data)
    equal(does("repair", "sub/a.img", **options).text,
          sound_text("sub/a.img", new))
    equal((read("sub/a.img"), os.listdir("sub")), (new.data, ["a.img"]))


@case("repair: a write that fails leaves the old image, the others are done")
def _():
    _, new = pulled()
    write("small.img", Disc.blank(1, "D").data)
    with unchanged():
        answer = tandos("repair", "a.img", "small.img",
                        preexec_fn=limited(True))
        equal((answer.status, answer.error),
              (2, "tandos: a.img: cannot write, nothing was changed: File too "
                  "large\n"))
        equal(answer.text, sound_text("small.img", Disc.blank(1, "D")))
        equal(tandos("repair", "a.img", preexec_fn=limited(False)).status,
              -signal.SIGXFSZ)
    does("repair", "a.img")
    equal(read("a.img"), new.data)


@case("repair: more images than files can be open at once")
def _():
    _, new = pulled()
    images = [f"{i}.img" for i in range(60)]

    def few_files():
        resource.setrlimit(resource.RLIMIT_NOFILE, (12, 12))
    for image in images:
        write(image, read("a.img"))
    for more in (["--dry-run"], []):
        text = does("repair", *more, *images, preexec_fn=few_files).text
        equal(text.count(".img: Rule 7 is broken: "), 60)
    equal({bytes(read(image)) for image in images}, {bytes(new.data)})
    text = does("repair", *images, preexec_fn=few_files).text
    equal(text.count(".img: The disc is sound. "), 60)


@case("repair: signals leave the old or the new image whole, 40 times")
def _():
    chance = random.Random(67)
    disc = Disc.blank(80, "D")
    disc.save("OLD", sheet_of(50000))
    damage(disc)
    new = copy_of(disc)
    new.repair()
    longest = 0.01
    stood = set()
    for attempt in range(40):
        write("a.img", disc.data)
        process = subprocess.Popen([TANDOS, "repair", "a.img"],
                                   stdout=subprocess.DEVNULL)
        time.sleep(chance.random() * longest)
        is_kill = attempt % 2 == 0
        process.send_signal(signal.SIGKILL if is_kill else signal.SIGTERM)
        process.wait()
        found = read("a.img")
        equal(found in (disc.data, new.data), True, "old or new, whole")
        stood.add(found == new.data)
        # The machine's speed changes: stay near the end of the command.
        longest *= 0.9 if found == new.data else 1.1
        clean_up(is_kill)
        equal(os.listdir("."), ["a.img"])
    equal(stood, {True, False}, "both images occur")


@case("repair: at once with saves, no save is lost")
def _():
    pulled()
    names = [f"F{i}" for i in range(10)]
    repairs = [subprocess.Popen([TANDOS, "repair", "a.img"],
                                stdout=subprocess.DEVNULL) for _ in range(4)]
    saves = [subprocess.Popen([TANDOS, "save", "a.img", name, "-"],
                              stdin=subprocess.PIPE, stderr=subprocess.DEVNULL)
             for name in names]
    for process in saves:
        process.stdin.write(b"x")
        process.stdin.close()
    equal([process.wait() for process in repairs], [0] * 4)
    done = {name for name, process in zip(names, saves)
            if process.wait() == 0}
    rows = does("list", "a.img").text.splitlines()[1:]
    equal({row.split("\t")[1] for row in rows}, done | {"A", "B", "C"})


@case("repair: a full device for what is said is an error")
def _():
    _, new = pulled()
    with open("/dev/full", "wb") as full:
        answer = tandos("repair", "a.img", stdout=full)
    holds(answer.error, "standard output: cannot write: No space left")
    equal((answer.status, read("a.img")), (2, new.data))
