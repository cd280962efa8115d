"""Where a repair would help: the hints of the other commands, and discs that
are stated as another kind than they are."""

from cases_arrangement import NEEDS_SOUND
from cases_repair import (DAMAGES, REFUSED_DISCS, RULE, break_free_pointer,
                          break_used_count, example, lose_sectors)
from cases_sectors import (KINDS as STATED, ends_with, misstated,
                           write_other_lengths, write_same_length)
from disc import Disc, NINE, TEN, moved, unmoved
from support import (DONE, REFUSED, REPAIR_HINT, case, does, equal, holds,
                     is_refused, read, sheet_of, tandos, unchanged, write)


@case("repair: an image that is sound as another kind is not repaired")
def _():
    for number, write_discs in ((3, write_same_length),
                                (1, write_other_lengths)):
        write_discs()
        with unchanged():
            for image, options, hint in misstated():
                for more in ([], ["--dry-run"]):
                    answer = is_refused(number, image, "repair", image,
                                        *options, *more)
                    ends_with(answer.error, hint + "\n")
    write_same_length()
    with unchanged():
        for image, options in (("moved.img", []), ("plain.img", ["--moved"])):
            answer = is_refused(3, image, "repair", image, *options)
            holds(answer.error, "arrangement the disc is sound: ")


# By the kind stated and the kind that the disc is of: what is said.
REPAIR_AS = {
    ("plain", "moved"): " In the moved arrangement a repair would make the "
                        "disc sound: state it with --moved.",
    ("plain", "nine"): " With 9 sectors a track a repair would make the disc "
                       "sound: state it with --sectors 9.",
    ("moved", "plain"): " In the plain arrangement a repair would make the "
                        "disc sound: leave --moved out.",
    ("moved", "nine"): " With 9 sectors a track a repair would make the disc "
                       "sound: give --sectors 9, not --moved.",
    ("nine", "plain"): " With 10 sectors a track a repair would make the disc "
                       "sound: leave --sectors out.",
    ("nine", "moved"): " In the moved arrangement a repair would make the "
                       "disc sound: give --moved, not --sectors.",
}


# Files of six sectors, and so few that a plain disc that is read as a moved one
# has an empty directory, and could be repaired to a disc without them.
MANY = (("A", 300), ("B", 1), ("C", 700))
FEW = (("A", 300),)


def write_cards(tracks, damage, files=MANY):
    """The same files on a disc of each kind, with the same damage."""
    for kind, sectors, count, form in (("plain", TEN, tracks * 9, bytes),
                                       ("moved", TEN, tracks * 9, moved),
                                       ("nine", NINE, tracks * 10, bytes)):
        disc = Disc.blank(count, "CARD", sectors)
        for name, length in files:
            disc.save(name, sheet_of(length))
        damage(disc)
        write(f"{kind}.img", form(disc.data))


def tells_the_kind(image, options, hint):
    """Whatever is asked of a card that is stated wrongly."""
    with unchanged():
        for command, rest in ({**NEEDS_SOUND, "replay": ["w"],
                               "repair": []}).items():
            answer = is_refused(3, image, command, image, *rest, *options,
                                given=b"x")
            ends_with(answer.error, hint + "\n")
        ends_with(tandos("check", image, *options).text, hint + "\n")
        answer = tandos("view", image, "0/1", *options)
        ends_with(answer.error, hint + "\n")


@case("repair: a pulled card that is stated as another kind is not repaired, "
      "and the right kind is told")
def _():
    write("w", b"\0")
    for damage in (break_used_count, lose_sectors):
        for files, rule in ((MANY, 3), (FEW, 6)):
            write_cards(4, damage, files)
            as_moved = Disc(unmoved(read("plain.img")))
            equal((as_moved.broken_rule(), as_moved.entries() == []),
                  (rule, rule == 6))
            for (stated, kind), hint in REPAIR_AS.items():
                tells_the_kind(f"{kind}.img", STATED[stated], hint)
                does("repair", "--dry-run", f"{kind}.img", *STATED[kind])
            # Read as the kind that it is not, it is not to be repaired.
            for image, to in (("plain.img", "plain"), ("moved.img", "moved")):
                answer = is_refused(3, image, "rearrange", image, "--to", to,
                                    "-o", "b.img")
                equal("A repair" in answer.error, False, answer.error)


@case("repair: a disc that has more files as another kind is not repaired")
def _():
    for files in (MANY, FEW):
        write_cards(4, break_free_pointer, files)
        for stated, kind in (("plain", "moved"), ("moved", "plain"),
                             ("nine", "moved")):
            image = f"{kind}.img"
            with unchanged():
                answer = is_refused(3, image, "repair", image,
                                    *STATED[stated])
                ends_with(answer.error, REPAIR_AS[stated, kind] + "\n")
        does("repair", "moved.img", "--moved")
        rows = does("list", "moved.img", "--moved").text.splitlines()
        equal(len(rows), 1 + len(files))


@case("hint of the repair: where it would help, and nowhere else")
def _():
    discs = [(example(), 0)]
    for damage, rule in DAMAGES:
        discs.append((example(), rule))
        damage(discs[-1][0])
    for rule, change, _ in REFUSED_DISCS:
        discs.append((example(), rule))
        change(discs[-1][0])
    for disc, rule in discs:
        write("a.img", disc.data)
        expected = REPAIR_HINT if rule > 5 else ""
        sentence = RULE.get(rule, "The disc is sound.")
        answer = tandos("check", "a.img")
        equal((answer.text, answer.status),
              (f"a.img: {sentence}{expected}\n", DONE if rule == 0
               else REFUSED))
        head = tandos("map", "a.img").text.splitlines()[0]
        equal(head, f"Disc PIECES: 3 tracks. {sentence}{expected}")
        picture = tandos("map", "a.img", "--svg", "-")
        equal("A repair would make the disc sound" in picture.text, rule > 5)
        equal(picture.error, "" if rule == 0 else
              f"tandos: a.img: {sentence}{expected}\n")
        equal(does("view", "a.img", "0/1").error, "")
        answer = is_refused(11, "a.img", "view", "a.img", "9/9")
        equal("repair" in answer.error, False)
        if rule == 0:
            continue
        with unchanged():
            for command, rest in NEEDS_SOUND.items():
                answer = is_refused(3, "a.img", command, "a.img", *rest,
                                    given=b"x")
                equal(answer.error.endswith(REPAIR_HINT + "\n"), rule > 5)
                equal("A repair" in answer.error, rule > 5, answer.error)
            answer = is_refused(3, "a.img", "rearrange", "a.img", "--to",
                                "moved", "-o", "b.img")
            equal(answer.error.endswith(REPAIR_HINT + "\n"), rule > 5)


@case("hint of the repair: none with a refusal of what was asked")
def _():
    disc = example()
    break_used_count(disc)
    write("a.img", disc.data)
    write("wrong.img", bytes(100))
    for number, image, *arguments in (
            (2, "a.img", "delete", "a.img", "X."),
            (7, "a.img", "save", "a.img", "X", "-"),
            (1, "wrong.img", "list", "wrong.img")):
        answer = is_refused(number, image, *arguments)
        equal("repair" in answer.error, False)
