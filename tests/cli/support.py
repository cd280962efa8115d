"""Cases, and the command run in them."""

import contextlib
import os
import subprocess
import tempfile
import traceback

ROOT = os.path.dirname(os.path.dirname(os.path.dirname(
    os.path.abspath(__file__))))
TANDOS = os.environ.get("TANDOS", os.path.join(ROOT, "build", "tandos"))
SANITIZED = os.path.join(ROOT, "build", "tandos-sanitized")

DONE, REFUSED, FAILED = 0, 1, 2

# The beginnings of the sentences that go with the refusals.
REFUSALS = {
    1: ("SIZE", "The image is not as long as 1 to 80 tracks"),
    2: ("NAME", "The name breaks its rule"),
    3: ("UNSOUND", "The disc is damaged"),
    4: ("ABSENT", "No file on the disc has this name"),
    5: ("TAKEN", "A file on the disc has the new name already"),
    6: ("PROTECTED", "The file is protected"),
    7: ("MODULE", "The page is above 7"),
    8: ("ROOM", "The disc has too few free sectors"),
    9: ("NOT PLAIN", "The file is not a plain load module"),
    11: ("NO SECTOR", "There is no such sector on the disc"),
    12: ("BAD SHEET", "The file is no sheet of records"),
    13: ("TOTAL", "A worker's total is, or would become, more than "
                  "1,000,000,000"),
    14: ("BAD LIST", "The file is no list of writes"),
}

# Where a repair would make an unsound disc sound.
REPAIR_HINT = " A repair would make the disc sound: 'tandos repair --dry-run' " \
              "shows what it would do."

_cases = []


def case(name):
    """Each case runs in an empty folder of its own."""
    def add(function):
        _cases.append((name, function))
        return function
    return add


@contextlib.contextmanager
def empty_folder():
    before = os.getcwd()
    with tempfile.TemporaryDirectory(prefix="tandos-test-") as folder:
        os.chdir(folder)
        try:
            yield folder
        finally:
            os.chdir(before)
            for entry in os.scandir(folder):
                if entry.is_dir(follow_symlinks=False):
                    os.chmod(entry.path, 0o755)


def run_cases(word=""):
    """Runs the cases whose name has the word."""
    chosen = [case for case in _cases if word in case[0]]
    failed = 0
    for name, function in chosen:
        try:
            with empty_folder():
                function()
            print(f"passed: {name}", flush=True)
        except Exception:
            failed += 1
            print(f"FAILED: {name}\n{traceback.format_exc()}", flush=True)
    print(f"cli tests: {len(chosen) - failed} passed, {failed} failed")
    return 1 if failed or not chosen else 0


class Answer:
    def __init__(self, process):
        self.status = process.returncode
        self.out = process.stdout or b""
        self.text = self.out.decode("latin-1")
        self.error = process.stderr.decode("latin-1")


def tandos(*arguments, given=b"", binary=None, **options):
    options.setdefault("stdout", subprocess.PIPE)
    return Answer(subprocess.run([binary or TANDOS, *arguments], input=given,
                                 stderr=subprocess.PIPE, timeout=60,
                                 **options))


def equal(found, expected, what="answer"):
    if found != expected:
        raise AssertionError(f"{what}: expected {short(expected)}, "
                             f"found {short(found)}")


def holds(text, part):
    if part not in text:
        raise AssertionError(f"{part!r} is not in {short(text)}")


def short(value):
    text = repr(value)
    return text if len(text) < 400 else text[:400] + ".."


def does(*arguments, **options):
    """The command is done, and says nothing on standard error."""
    answer = tandos(*arguments, **options)
    equal(answer.error, "", "standard error")
    equal(answer.status, DONE, "status")
    return answer


def is_refused(number, image, *arguments, **options):
    name, sentence = REFUSALS[number]
    answer = tandos(*arguments, **options)
    equal(answer.out, b"", "standard output")
    holds(answer.error, f"tandos: {image}: refused with {number}, {name}. "
                        f"{sentence}")
    equal(answer.error.count("\n"), 1, "lines")
    equal(answer.status, REFUSED, "status")
    return answer


def is_misuse(part, *arguments, **options):
    answer = tandos(*arguments, **options)
    equal(answer.out, b"", "standard output")
    holds(answer.error, part)
    holds(answer.error, "--help'.")
    equal(answer.status, FAILED, "status")


def fails(part, *arguments, **options):
    """An error of input or output."""
    answer = tandos(*arguments, **options)
    holds(answer.error, part)
    equal(answer.status, FAILED, "status")


def write(path, data):
    with open(path, "wb") as file:
        file.write(data)


def read(path):
    with open(path, "rb") as file:
        return file.read()


@contextlib.contextmanager
def unchanged():
    """The folder and every file in it stay as they are."""
    def look():
        return {name: (os.lstat(name).st_ino, os.lstat(name).st_mtime_ns,
                       read(name) if os.path.isfile(name) else None)
                for name in os.listdir(".")}
    before = look()
    yield
    equal(sorted(look()), sorted(before), "names in the folder")
    equal(look() == before, True, "files as they were")


def sheet_of(length, seed=0):
    return bytes((seed + 7 * i + i // 251) % 256 for i in range(length))
