"""The installed copy, a program over it, and the manual pages."""

import os
import re
import shutil
import subprocess

from cases_usage import COMMANDS
from disc import (DIRECTORY_POINTER, FREE_COUNT, Disc, NINE, TEN, USED_COUNT, moved,
                  records)
from support import (ROOT, REFUSALS, TANDOS, case, does, equal, holds, read, sheet_of,
                     tandos, write)

PREFIX = "/usr/local"
INSTALLED = {"bin/tandos", "lib/libtandos.a", "include/tandos.h",
             "lib/pkgconfig/tandos.pc", "share/man/man1/tandos.1",
             "share/man/man3/tandos.3"}
STRICT = ["-std=c99", "-Wall", "-Wextra", "-Wpedantic", "-Werror"]


def make(*arguments):
    # The Makefile's own rt is not called for here: `all` has been built.
    process = subprocess.run(["make", "-C", ROOT, *arguments],
                             stdout=subprocess.PIPE, stderr=subprocess.STDOUT)
    equal(process.returncode, 0, process.stdout.decode())


def files_below(folder):
    return {os.path.relpath(os.path.join(path, name), folder)
            for path, _, names in os.walk(folder) for name in names}


def install():
    """Installs to a folder, and gives that folder with the prefix."""
    stage = os.path.abspath("stage")
    make("install", f"DESTDIR={stage}", f"PREFIX={PREFIX}")
    return stage, stage + PREFIX


@case("install: every file, with its permissions; uninstall removes them")
def _():
    stage, to = install()
    equal(files_below(to), INSTALLED)
    for name in INSTALLED:
        mode = os.stat(os.path.join(to, name)).st_mode & 0o777
        equal(mode, 0o755 if name == "bin/tandos" else 0o644, name)
    write(os.path.join(to, "bin", "other"), b"")
    make("uninstall", f"DESTDIR={stage}", f"PREFIX={PREFIX}")
    equal(files_below(to), {"bin/other"})


@case("install: the installed command runs; tandos.pc has prefix and version")
def _():
    _, to = install()
    installed = os.path.join(to, "bin", "tandos")
    version = does("--version", binary=installed).text.split()[1]
    lines = read(os.path.join(to, "lib/pkgconfig/tandos.pc")).decode()
    holds(lines, f"prefix={PREFIX}\n")
    holds(lines, f"Version: {version}\n")
    equal("@" in lines, False)


def compile_flags(stage, to):
    """By pkg-config; by the paths themselves where it is missing."""
    if shutil.which("pkg-config") is None:
        print("pkg-config is missing: the paths are used")
        return [f"-I{to}/include", f"-L{to}/lib", "-ltandos"]
    process = subprocess.run(
        ["pkg-config", "--cflags", "--libs", "tandos"], check=True,
        stdout=subprocess.PIPE, env={
            **os.environ, "PKG_CONFIG_PATH": f"{to}/lib/pkgconfig",
            "PKG_CONFIG_SYSROOT_DIR": stage})
    return process.stdout.decode().split()


def build_example(name):
    flags = compile_flags(*install())
    shutil.copy(os.path.join(ROOT, "examples", f"{name}.c"), f"{name}.c")
    subprocess.run([os.environ.get("CC", "cc"), *STRICT, f"{name}.c", *flags,
                    "-o", name], check=True)


def go_round(*arguments):
    process = subprocess.run(["./round", *arguments], stdout=subprocess.PIPE,
                             stderr=subprocess.PIPE)
    return process.returncode, process.stdout.decode()


@case("examples/round.c, built against the installed copy")
def _():
    build_example("round")
    expected = Disc.blank(40, "PIECES")
    expected.save("THU1.PCS", sheet_of(300))
    for name in ("a.img", "b.img"):
        write(name, expected.data)
    sheet = sheet_of(500, 9)
    write("sheet", sheet)
    expected.save("THU2.PCS", sheet)
    expected.delete("THU1.PCS")
    status, text = go_round("THU2.PCS", "sheet", "THU1.PCS", "a.img", "b.img")
    equal(status, 0)
    for name in ("a.img", "b.img"):
        equal(read(name), expected.data)
        holds(text, f"{name}\n  The disc is sound.\n  396 sectors free, "
              "2 in files\n  THU1   PCS   2\n  Saved THU2.PCS (500 bytes) and "
              "deleted THU1.PCS.\n")
    holds(text, "2 of 2 discs done.\n")
    holds(tandos("check", "a.img", "b.img").text, "sound")


@case("examples/round.c: images in the moved arrangement")
def _():
    build_example("round")
    expected = Disc.blank(40, "PIECES")
    expected.save("OLD", sheet_of(300))
    before = expected.data[:]
    write("plain.img", before)
    write("moved.img", moved(before))
    write("sheet", b"new")
    expected.save("NEW", b"new")
    expected.delete("OLD")
    status, text = go_round("--moved", "NEW", "sheet", "OLD", "moved.img",
                            "plain.img")
    equal(status, 1)
    equal(read("moved.img"), moved(expected.data))
    equal(read("plain.img"), before)
    holds(text, "1 of 2 discs done.\n")


@case("examples/round.c: images of nine sectors a track")
def _():
    build_example("round")
    expected = {}
    for tracks, sectors in ((40, NINE), (36, TEN)):
        disc = Disc.blank(tracks, "PIECES", sectors)
        disc.save("OLD", sheet_of(300))
        write(f"{sectors}.img", disc.data)
        expected[sectors] = disc
    write("sheet", b"new")
    before = {sectors: disc.data[:] for sectors, disc in expected.items()}
    arguments = ["NEW", "sheet", "OLD", "9.img", "10.img"]
    equal(go_round("--sectors", "9", "--moved", *arguments)[0], 1)
    equal((read("9.img"), read("10.img")), (before[NINE], before[TEN]))
    expected[NINE].save("NEW", b"new")
    expected[NINE].delete("OLD")
    status, text = go_round("--sectors", "9", *arguments)
    equal(status, 1)
    holds(text, "1 of 2 discs done.\n")
    equal((read("9.img"), read("10.img")), (expected[NINE].data, before[TEN]))


@case("examples/round.c: a disc on which anything is refused stays as it was")
def _():
    build_example("round")
    good = Disc.blank(2, "GOOD")
    good.save("OLD", b"x")
    bad = Disc(good.data)
    bad.set_word(USED_COUNT, 9)
    protected = Disc(good.data)
    protected.data[256 * 3 + 3 + 15] = 0x80
    discs = {"good.img": good.data, "bad.img": bad.data,
             "protected.img": protected.data, "short.img": b"short"}
    for name, data in discs.items():
        write(name, data)
    write("sheet", b"new")
    before = set(os.listdir("."))
    status, text = go_round("NEW", "sheet", "OLD", *discs, "missing.img")
    equal(status, 1)
    for name in ("bad.img", "protected.img", "short.img"):
        equal(read(name), discs[name])
    equal(does("read", "good.img", "NEW").out, b"new")
    holds(text, "Rule 7 is broken")
    holds(text, "refused with 6, PROTECTED.")
    holds(text, "refused with 1, SIZE.")
    holds(text, "1 of 5 discs done.\n")
    equal(set(os.listdir(".")), before)


@case("examples/week.c, built against the installed copy")
def _():
    build_example("week")
    for name, files in (("a.img", {"MON.PCS": records((7, 120), (500, 1))}),
                        ("b.img", {"TUESDA.PCS": records((7, 5)),
                                   "W": records((12, 40))}),
                        ("bad.img", {"NOTES": b"hello",
                                     "THU.X": records((7, 1))})):
        disc = Disc.blank(3, "WEEK")
        for file, sheet in files.items():
            disc.save(file, sheet)
        write(name, disc.data)
    write("short.img", b"short")

    def add_up(*images):
        process = subprocess.run(["./week", *images], stdout=subprocess.PIPE,
                                 stderr=subprocess.PIPE)
        return (process.returncode, process.stdout.decode(),
                process.stderr.decode())
    equal(add_up("a.img", "b.img"),
          (0, "worker 7: 125 pieces\nworker 12: 40 pieces\n"
              "worker 500: 1 pieces\n", ""))
    status, text, error = add_up("bad.img", "short.img", "none.img", "b.img")
    equal((status, text), (1, "worker 7: 6 pieces\nworker 12: 40 pieces\n"))
    holds(error, "bad.img: NOTES: refused with 12, BAD SHEET. ")
    holds(error, "short.img: the list: refused with 1, SIZE. ")
    holds(error, "none.img: ")
    equal(error.count("\n"), 3)


def mend(*arguments):
    process = subprocess.run(["./mend", *arguments], stdout=subprocess.PIPE,
                             stderr=subprocess.PIPE)
    return process.returncode, process.stdout.decode()


def pulled(tracks, sectors=TEN):
    """A disc with OLD, and the same with only the first write of a save."""
    disc = Disc.blank(tracks, "PIECES", sectors)
    disc.save("OLD.PCS", sheet_of(300))
    before = disc.data[:]
    disc.save("NEW", sheet_of(500))
    return before, disc.data[:256] + before[256:]


@case("examples/mend.c, built against the installed copy")
def _():
    build_example("mend")
    sound, cut = pulled(3)
    lost = bytearray(sound)
    lost[FREE_COUNT] += 1
    broken = bytearray(cut)
    broken[DIRECTORY_POINTER] = 0
    images = {"cut.img": cut, "sound.img": sound, "lost.img": lost,
              "broken.img": broken, "short.img": b"short"}
    for name, data in images.items():
        write(name, data)
    before = set(os.listdir("."))
    listed = "  26 sectors free, 2 in files\n  OLD    PCS   2\n"
    status, text = mend(*images, "missing.img")
    equal(status, 1)
    holds(text, "cut.img\n  Rule 7 is broken: the used count is not the sum of "
          f"the file lengths.\n  Repaired.\n{listed}")
    holds(text, f"sound.img\n  The disc is sound.\n{listed}")
    holds(text, f"  Repaired.\n{listed}broken.img\n  Rule 1 is broken")
    holds(text, "The repair was refused with 3, UNSOUND. ")
    holds(text, "The check was refused with 1, SIZE. ")
    holds(text, "3 of 6 discs are sound.\n")
    for name in ("cut.img", "sound.img", "lost.img"):
        equal(read(name), sound)
    for name in ("broken.img", "short.img"):
        equal(read(name), images[name])
    equal(set(os.listdir(".")), before)
    equal(mend("cut.img", "lost.img")[0], 0)
    equal(mend()[0], 2)


@case("examples/mend.c: a disc of another kind than the one stated")
def _():
    build_example("mend")
    plain, cut = pulled(40)
    nine, nine_cut = pulled(40, NINE)
    images = {"plain.img": plain, "cut.img": cut, "nine.img": nine,
              "nine-cut.img": nine_cut}
    for name, data in images.items():
        write(name, data)
    status, text = mend("--moved", "plain.img", "cut.img")
    equal((status, text.count("looks like a disc of another kind")), (1, 2))
    status, text = mend("nine.img", "nine-cut.img")
    equal((status, text.count("looks like a disc of another kind")), (1, 2))
    for name, data in images.items():
        equal(read(name), data)
    equal(mend("--sectors", "9", "nine.img", "nine-cut.img")[0], 0)
    equal(read("nine-cut.img"), nine)
    write("moved.img", moved(cut))
    equal(mend("--moved", "moved.img")[0], 0)
    equal(read("moved.img"), moved(plain))
    equal(mend("--sectors", "9", "--moved", "nine.img")[0], 1)


def page(section):
    return os.path.join(ROOT, "man", f"tandos.{section}")


@case("manual pages: no warning of groff")
def _():
    if shutil.which("groff") is None:
        print("groff is missing: the manual pages are not formatted")
        return
    for section in (1, 3):
        process = subprocess.run(
            ["groff", "-mandoc", "-ww", "-Tutf8", page(section)],
            stdout=subprocess.PIPE, stderr=subprocess.PIPE)
        equal((process.returncode, process.stderr), (0, b""))


@case("manual page tandos(1): every command, option and refusal")
def _():
    text = read(page(1)).decode()
    for command in COMMANDS:
        holds(text, f".It Cm {command} " if command not in ("save", "map", "totals")
              else f".Cm {command} ")
        for option in re.findall(r"-(-[a-z]+)", does(command, "--help").text):
            holds(text, f"Fl {option}")
    for number, (name, _) in REFUSALS.items():
        holds(text, f".It {number}\\ \\ {name}\n")


@case("manual page tandos(1): the examples run as they stand")
def _():
    text = read(page(1)).decode().split(".Sh EXAMPLES")[1]
    blocks = re.findall(r"\.Bd .*?\n(.*?)\.Ed", text, re.DOTALL)
    script = "set -e\n" + "".join(blocks).replace("\\e", "\\")
    write("thursday.txt", sheet_of(300))
    os.symlink(TANDOS, "tandos")
    process = subprocess.run(
        ["sh", "-c", script], stdout=subprocess.PIPE, stderr=subprocess.PIPE,
        env={**os.environ, "PATH": f"{os.getcwd()}:{os.environ['PATH']}"})
    equal((process.returncode, process.stderr), (0, b""))
    equal(read("again.txt"), sheet_of(300))
    holds(process.stdout.decode("latin-1"), "pieces.img: The disc is sound.\n")
    equal(os.path.exists("pieces.svg"), True)


@case("manual page tandos(3): every call and refusal of the header")
def _():
    text = read(page(3)).decode()
    header = read(os.path.join(ROOT, "include", "tandos.h")).decode()
    header = re.sub(r"/\*.*?\*/", "", header, flags=re.DOTALL)
    calls = re.findall(r"\b(tandos_\w+)\(", header)
    equal(len(calls), 17)
    for call in calls:
        holds(text, f".Nm {call}")
        holds(text, f".It Fn {call}\n")
    refusals = re.search(r"enum tandos_refusal \{.*?\}", header, re.DOTALL)
    for name, number in re.findall(r"(TANDOS_\w+) = (\w+)", header):
        is_refusal = name in refusals.group(0)
        holds(text, f".It Dv {name} Pq {number}\n" if is_refusal else name)
    for name in ("TANDOS_ON", "TANDOS_TEXT", "tandos_image"):
        holds(text, name)
