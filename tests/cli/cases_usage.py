"""Help, version, misuse."""

from disc import END_RECORD, Disc
from support import case, does, equal, fails, holds, is_misuse, unchanged, write

COMMANDS = {
    "blank": "IMAGE TRACKS NAME [--force] [--moved | --sectors 9]",
    "list": "IMAGE [--table | --json] [--moved | --sectors 9]",
    "read": "IMAGE NAME [-o FILE | --info] [--moved | --sectors 9]",
    "save": "IMAGE NAME FILE [OPTION..]",
    "delete": "IMAGE NAME [--writes FILE] [--moved | --sectors 9]",
    "rename": "IMAGE OLD NEW [--writes FILE] [--moved | --sectors 9]",
    "protect": "IMAGE NAME on|off [--writes FILE] [--moved | --sectors 9]",
    "replay": "IMAGE FILE [--moved | --sectors 9]",
    "writes": "FILE [--json]",
    "check": "IMAGE.. [--moved | --sectors 9]",
    "repair": "IMAGE.. [--dry-run] [--moved | --sectors 9]",
    "view": "IMAGE TRACK/SECTOR [--moved | --sectors 9]",
    "map": "IMAGE [--color=WHEN] [--svg FILE] [--moved | --sectors 9]",
    "rearrange": "IMAGE --to moved|plain -o FILE",
    "totals": "IMAGE.. [OPTION..]",
}


@case("help: of the whole, with every command")
def _():
    text = does("--help").text
    equal(does("-h").text, text)
    holds(text, "Usage: tandos COMMAND")
    for command in COMMANDS:
        holds(text, f"\n  {command} ")


@case("help: of each command, wherever --help stands")
def _():
    for command, synopsis in COMMANDS.items():
        text = does(command, "--help").text
        holds(text, f"Usage: tandos {command} {synopsis}\n")
        for option in ("  --moved ", "  --sectors 9 "):
            equal(option in text, command not in ("rearrange", "writes"),
                  command)
        equal(does(command, "a", "b", "c", "d", "-h").text, text)


@case("help: no line is longer than a terminal's")
def _():
    for arguments in [["--help"]] + [[name, "--help"] for name in COMMANDS]:
        for line in does(*arguments).text.splitlines():
            equal(len(line) <= 79, True, line)


@case("version")
def _():
    text = does("--version").text
    equal(text.split()[0], "tandos")
    equal(len(text.split()), 2)


@case("misuse: no command, an unknown one, an unknown option")
def _():
    is_misuse("tandos: a command is missing")
    is_misuse("tandos: there is no command 'frobnicate'", "frobnicate")
    is_misuse("tandos: there is no command '--frob'", "--frob")
    for command in COMMANDS:
        is_misuse(f"tandos {command}: there is no option '--frob'", command,
                  "--frob", "a.img")


@case("misuse: too few and too many arguments")
def _():
    for command in COMMANDS:
        is_misuse(f"tandos {command}: arguments are missing", command)
        if command not in ("check", "repair", "totals"):
            is_misuse(f"tandos {command}: there is no use for the argument "
                      "'fifth'", command, *(["x"] * count(command)), "fifth")


def count(command):
    return {"list": 1, "map": 1, "rearrange": 1, "writes": 1, "read": 2,
            "delete": 2, "view": 2, "replay": 2}.get(command, 3)


@case("misuse: numbers that are none, or out of 16 bits")
def _():
    write("a.img", Disc.blank(1, "D").data)
    with unchanged():
        for option in ("--page", "--start", "--transfer"):
            for text in ("", "-1", "x", "0x", "$", "1 ", "12a", "0xG", "$-1"):
                is_misuse(f"not '{text}'", "save", "a.img", "A", "-", option,
                          text, given=b"x")
            for text in ("65536", "$10000", "0x10000", "4294967296",
                         "99999999999999999999"):
                is_misuse("a number of 0 to 65535 is wanted", "save", "a.img",
                          "A", "-", option, text, given=b"x")
            is_misuse(f"a value is missing after option '{option}'", "save",
                      "a.img", "A", "-", option, given=b"x")
        for text in ("", "/", "1", "1/", "/1", "a/b", "1/2/3", "-1/1"):
            is_misuse("TRACK/SECTOR is wanted", "view", "--", "a.img", text)
        for text in ("", "ten", "-1", "1.5"):
            is_misuse("a number of tracks is wanted", "blank", "b.img", "--",
                      text, "D")


@case("misuse: options that exclude each other, values where none goes")
def _():
    is_misuse("exclude each other", "list", "--json", "--table", "a.img")
    is_misuse("exclude each other", "read", "--info", "-o", "x", "a.img", "A")
    is_misuse("exclude each other", "totals", "--json", "--csv", "a.img")
    is_misuse("no value goes with option '--json'", "list", "--json=1", "a.img")
    is_misuse("no value goes with option '--moved'", "list", "--moved=1",
              "a.img")
    is_misuse("'on' or 'off' is wanted, not 'maybe'", "protect", "a.img", "A",
              "maybe")


@case("misuse: an option with a value is given twice")
def _():
    for command, option, values in (("save", "--page", ["--page", "1"]),
                                    ("read", "--output", ["-ox"]),
                                    ("list", "--sectors", ["--sectors=9"]),
                                    ("save", "--writes", ["--writes", "x"]),
                                    ("delete", "--writes", ["--writes=x"]),
                                    ("rename", "--writes", ["--writes", "x"]),
                                    ("protect", "--writes", ["--writes=x"]),
                                    ("totals", "--sheet", ["--sheet", "A"])):
        is_misuse(f"tandos {command}: there is no use for a second option "
                  f"'{option}'\n", command, "a.img", "A", *values, option, "1")


@case("misuse: standard input as an image that is changed")
def _():
    for arguments in (["blank", "-", "1", "D"], ["save", "-", "A", "s"],
                      ["delete", "-", "A"], ["rename", "-", "A", "B"],
                      ["protect", "-", "A", "on"], ["replay", "-", "s"],
                      ["repair", "-"]):
        write("s", b"x")
        is_misuse("is a file, not '-'", *arguments)


@case("arguments: after -- nothing is an option")
def _():
    write("-a.img", Disc.blank(1, "D").data)
    equal(does("list", "--", "-a.img").text, "disc\tD\t1\t8\t0\n")
    does("save", "--page", "1", "--", "-a.img", "A", "-", given=b"x")
    fails("cannot open", "list", "--", "--json")


@case("output: a full device is an error")
def _():
    write("a.img", Disc.blank(1, "D").data)
    write("list", END_RECORD)
    with open("/dev/full", "wb") as full:
        for arguments in (["--help"], ["--version"], ["list", "a.img"],
                          ["check", "a.img"], ["view", "a.img", "0/1"],
                          ["totals", "a.img"], ["totals", "a.img", "--csv"],
                          ["writes", "list"], ["replay", "a.img", "list"],
                          ["repair", "a.img"]):
            fails("standard output: cannot write: No space left", *arguments,
                  stdout=full)
