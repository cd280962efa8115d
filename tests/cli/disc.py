"""TANDOS 65 discs, computed from the rules of the format alone.

Nothing here calls the library or the command: these are the discs, the broken
rules and the maps that the tests expect of them.
"""

NINE, TEN = 9, 10
# By the number of sectors of a track, the order in which they pass.
PASSING_ORDER = {NINE: (1, 4, 7, 2, 5, 8, 3, 6, 9),
                 TEN: (1, 4, 7, 10, 3, 6, 9, 2, 5, 8)}
SECTOR = 256
LETTERS = b"ABCDEFGHIJKLMNOPQRSTUVWXYZ0123456789"

DIRECTORY_POINTER = 0x12
FREE_POINTER = 0x10
FREE_COUNT = 0x14
USED_COUNT = 0x16


def moved(data):
    """The moved image of a plain one of ten sectors a track: the sectors of
    each track stand in the order in which they pass."""
    return b"".join(bytes(data[at:at + SECTOR])
                    for track in range(0, len(data), TEN * SECTOR)
                    for at in (track + SECTOR * (sector - 1)
                               for sector in PASSING_ORDER[TEN]))


def unmoved(data):
    """The plain image of a moved one."""
    image = bytearray(data)
    for track in range(0, len(data), TEN * SECTOR):
        for place, sector in enumerate(PASSING_ORDER[TEN]):
            to, at = track + SECTOR * (sector - 1), track + SECTOR * place
            image[to:to + SECTOR] = data[at:at + SECTOR]
    return image


def stored_name(typed):
    name, _, extension = typed.partition(".")
    return name.ljust(6).encode() + extension.ljust(3).encode()


def typed_name(stored):
    name = stored[:6].decode("latin-1").rstrip(" ")
    extension = stored[6:].decode("latin-1").rstrip(" ")
    return name + ("." + extension if extension else "")


def is_legal(stored):
    """Nine bytes that some typed name is stored as."""
    name, extension = stored[:6].rstrip(b" "), stored[6:].rstrip(b" ")
    return len(name) > 0 and all(byte in LETTERS for byte in name + extension)


class Entry:
    def __init__(self, data):
        self.name = bytes(data[:9])
        self.length = data[9] + 256 * data[10]
        self.first = (data[12], data[11])
        self.last = (data[14], data[13])
        self.attribute = data[15]


class Walk:
    """A chain followed from a (track, sector) pair: its sectors in order, and
    why it stopped: 'end', 'off' (the disc), 'system' or 'again'. Only the free
    chain may be empty."""

    def __init__(self, disc, pair, may_be_empty=False):
        self.sectors = []
        self.off_from = None
        met = set()
        while True:
            track, sector = pair
            if sector == 0 and (self.sectors or may_be_empty):
                self.stop = "end"
                return
            if not disc.is_on(pair):
                self.stop = "off"
                self.off_to = pair
                return
            number = disc.sectors * track + sector - 1
            if number == 0 or number in met:
                self.stop = "system" if number == 0 else "again"
                self.stopped_at = number
                return
            met.add(number)
            self.sectors.append(number)
            self.off_from = number
            pair = disc.link(number)


class Disc:
    """A disc by its plain image and the number of sectors of a track."""

    def __init__(self, data, sectors=TEN):
        self.data = bytearray(data)
        self.sectors = sectors
        self.tracks = len(data) // (sectors * SECTOR)
        self.count = sectors * self.tracks

    @classmethod
    def blank(cls, tracks, name, sectors=TEN):
        disc = cls(bytes(tracks * sectors * SECTOR), sectors)
        order = disc.blank_order()[2:]
        for number, following in zip(order, order[1:]):
            disc.set_link(number, following)
        disc.set_pair(FREE_POINTER, order[0])
        disc.set_pair(DIRECTORY_POINTER, 3)
        disc.set_word(FREE_COUNT, len(order))
        disc.data[0x18:0x21] = name.ljust(9).encode()
        disc.data[0x40:0x51] = b"TANDOS 65 IMAGE 1"
        return disc

    def blank_order(self):
        """The numbers of all sectors, in the order of a blank disc."""
        return [self.sectors * track + sector - 1
                for track in range(self.tracks)
                for sector in PASSING_ORDER[self.sectors]]

    def is_on(self, pair):
        return pair[0] < self.tracks and 1 <= pair[1] <= self.sectors

    def pair_of(self, number):
        """The (track, sector) of a sector by its number."""
        return (number // self.sectors, number % self.sectors + 1)

    def place(self, number):
        return "%d/%d" % self.pair_of(number)

    def word(self, at):
        return self.data[at] + 256 * self.data[at + 1]

    def set_word(self, at, value):
        self.data[at:at + 2] = value.to_bytes(2, "little")

    def pair(self, at):
        """A pair of the system sector or of an entry, as (track, sector)."""
        return (self.data[at + 1], self.data[at])

    def set_pair(self, at, number):
        self.data[at:at + 2] = bytes(reversed(self.pair_of(number)))

    def link(self, number):
        at = SECTOR * number
        return (self.data[at], self.data[at + 1])

    def set_link(self, number, following):
        at = SECTOR * number
        self.data[at:at + 2] = (b"\0\0" if following is None else
                                bytes(self.pair_of(following)))

    def directory(self):
        return Walk(self, self.pair(DIRECTORY_POINTER))

    def slots(self):
        """(position of the slot, its sixteen bytes) in directory order."""
        for number in self.directory().sectors:
            for slot in range(15):
                at = SECTOR * number + 3 + 16 * slot
                yield at, self.data[at:at + 16]

    def entries(self):
        return [Entry(data) for _, data in self.slots() if any(data)]

    def free(self):
        return Walk(self, self.pair(FREE_POINTER), may_be_empty=True)

    def save(self, typed, sheet, page=0, start=0x2000, transfer=None):
        """What a save that is not refused does."""
        transfer = start if transfer is None else transfer
        bodies = module_bodies(sheet, page, start, transfer)
        open_slots = [at for at, data in self.slots() if not any(data)]
        free = self.free().sectors
        taken = free[:len(bodies)]
        for number, body, following in zip(taken, bodies, taken[1:] + [None]):
            self.data[SECTOR * number + 2:SECTOR * (number + 1)] = body
            self.set_link(number, following)
        used = len(taken)
        if not open_slots:
            open_slots = [self.grow(free[used])]
            used += 1
        self.put_entry(open_slots[0], stored_name(typed), taken)
        self.set_word(FREE_COUNT, self.word(FREE_COUNT) - used)
        self.set_word(USED_COUNT, self.word(USED_COUNT) + len(taken))
        if used < len(free):
            self.set_pair(FREE_POINTER, free[used])
        else:
            self.data[FREE_POINTER:FREE_POINTER + 2] = b"\0\0"

    def delete(self, typed):
        """What a delete that is not refused does."""
        at, entry = self.find(typed)
        sectors = Walk(self, entry.first).sectors
        free = self.free().sectors
        self.data[at:at + 16] = bytes(16)
        self.data[SECTOR * (at // SECTOR) + 2] -= 1
        self.set_link(sectors[-1], free[0] if free else None)
        self.set_pair(FREE_POINTER, sectors[0])
        self.set_word(FREE_COUNT, self.word(FREE_COUNT) + len(sectors))
        self.set_word(USED_COUNT, self.word(USED_COUNT) - len(sectors))

    def rename(self, typed, new_name):
        """What a rename that is not refused does."""
        at, _ = self.find(typed)
        self.data[at:at + 9] = stored_name(new_name)

    def protect(self, typed, on):
        """What a protect that is not refused does."""
        at, _ = self.find(typed)
        self.data[at + 15] = 0x80 if on else 0x00

    def repair(self):
        """What a repair that is not refused does."""
        taken = {0, *self.directory().sectors}
        for entry in self.entries():
            taken.update(Walk(self, entry.first).sectors)
        order = [number for number in self.blank_order()
                 if number not in taken]
        for number, following in zip(order, order[1:] + [None]):
            self.set_link(number, following)
        self.data[FREE_POINTER:FREE_POINTER + 2] = b"\0\0"
        if order:
            self.set_pair(FREE_POINTER, order[0])
        self.set_word(FREE_COUNT, len(order))
        self.set_word(USED_COUNT, sum(e.length for e in self.entries()))

    def find(self, typed):
        """Position and entry of a file that stands."""
        return next((at, Entry(data)) for at, data in self.slots()
                    if data[:9] == stored_name(typed))

    def sectors_of_save(self, sheet):
        """The numbers of the sectors that a save writes, in order; of the disc
        before it. So the next two."""
        count = len(module_bodies(sheet, 0, 0, 0))
        free = self.free().sectors
        for at, data in self.slots():
            if not any(data):
                return [0, *free[:count], at // SECTOR]
        return [0, *free[:count + 1], self.directory().sectors[-1]]

    def sectors_of_delete(self, typed):
        at, entry = self.find(typed)
        return [at // SECTOR, Walk(self, entry.first).sectors[-1], 0]

    def sectors_of_entry(self, typed):
        """Of a rename or protect."""
        return [self.find(typed)[0] // SECTOR]

    def writes(self, numbers):
        """The list of writes of these sectors as they stand."""
        return b"".join(write_record(*self.pair_of(number),
                                     self.data[SECTOR * number:
                                               SECTOR * (number + 1)])
                        for number in numbers) + END_RECORD

    def replay(self, writes):
        """What a replay that is not refused does."""
        for at in range(0, len(writes) - 1, WRITE_RECORD):
            to = SECTOR * (self.sectors * writes[at + 1] + writes[at + 2] - 1)
            self.data[to:to + SECTOR] = writes[at + 3:at + WRITE_RECORD]

    def grow(self, number):
        self.set_link(self.directory().sectors[-1], number)
        self.data[SECTOR * number:SECTOR * (number + 1)] = bytes(SECTOR)
        return SECTOR * number + 3

    def put_entry(self, at, stored, taken):
        self.data[at:at + 9] = stored
        self.set_word(at + 9, len(taken))
        self.set_pair(at + 11, taken[0])
        self.set_pair(at + 13, taken[-1])
        self.data[SECTOR * (at // SECTOR) + 2] += 1

    def broken_rule(self):
        """The lowest-numbered broken rule, or 0."""
        pointer = self.pair(DIRECTORY_POINTER)
        if not self.is_on(pointer) or pointer == (0, 1):
            return 1
        if self.directory().stop != "end":
            return 2
        if not self.entries_are_right():
            return 3
        names = [entry.name for entry in self.entries()]
        if len(set(names)) < len(names):
            return 4
        met = set(self.directory().sectors)
        for entry in self.entries():
            walk = Walk(self, entry.first)
            if not self.is_file_chain(walk, entry, met):
                return 5
            met |= set(walk.sectors)
        free = self.free()
        if (free.stop != "end" or met & set(free.sectors)
                or len(free.sectors) != self.word(FREE_COUNT)):
            return 6
        if self.word(USED_COUNT) != sum(e.length for e in self.entries()):
            return 7
        met |= set(free.sectors)
        return 8 if len(met) < self.count - 1 else 0

    def is_file_chain(self, walk, entry, met):
        return (walk.stop == "end" and len(walk.sectors) == entry.length
                and self.pair_of(walk.sectors[-1]) == entry.last
                and not met & set(walk.sectors))

    def entries_are_right(self):
        for number in self.directory().sectors:
            start = SECTOR * number + 3
            slots = [self.data[at:at + 16]
                     for at in range(start, start + 240, 16)]
            entries = [Entry(data) for data in slots if any(data)]
            if self.data[SECTOR * number + 2] != len(entries):
                return False
            if not all(is_legal(e.name) and e.length >= 1
                       and e.attribute in (0x00, 0x80) for e in entries):
                return False
        return True

    def chains(self):
        """(label, Walk) of every chain: directory, files, free."""
        files = [(str(i + 1), Walk(self, entry.first))
                 for i, entry in enumerate(self.entries())]
        return [("dir", self.directory())] + files + [("free", self.free())]

    def meetings(self):
        """For each sector, the chains that meet it, once for each meeting."""
        met = [[] for _ in range(self.count)]
        met[0].append("sys")
        for label, walk in self.chains():
            for number in walk.sectors:
                met[number].append(label)
            if walk.stop in ("system", "again"):
                met[walk.stopped_at].append(label)
        return met


def module_bodies(sheet, page, start, transfer):
    """The 254 bytes after the link of each sector of a load module."""
    end = start + len(sheet) - 1
    header = bytes([0xFF, page]) + b"".join(
        word.to_bytes(2, "little") for word in (start, end, transfer))
    parts = [sheet[:245]] + [sheet[at:at + 253]
                             for at in range(245, len(sheet), 253)]
    bodies = [bytes([len(part)]) + part for part in parts]
    bodies[0] = header + bodies[0]
    return [body.ljust(254, b"\0") for body in bodies]


# The records of a sheet.
END_RECORD = b"\0"
DATE_RECORD = b"\2\x16\x11\x26\0"
WORKERS = 500


def pieces_record(worker, pieces):
    return (b"\1" + worker.to_bytes(2, "little")
            + pieces.to_bytes(2, "little"))


def records(*pairs):
    """A sheet with a date and these (worker, pieces)."""
    return (DATE_RECORD + b"".join(pieces_record(*pair) for pair in pairs)
            + END_RECORD)


# The records of a list of writes; its end is that of a sheet.
WRITE_RECORD = 259


def write_record(track, sector, data):
    return bytes([3, track, sector]) + bytes(data)


def write_fault(writes, tracks=80, sectors=TEN):
    """The first thing that is wrong with a list of writes for a disc, in
    words; None if nothing is."""
    for record in range(len(writes) // WRITE_RECORD + 1):
        at = WRITE_RECORD * record
        left = writes[at:]
        where = f"record {record + 1}, byte {at}: "
        if not left:
            return where + "the list stops without its end"
        if left[0] == 0:
            more = len(left) - 1
            return where + (f"the end, with {more} byte"
                            f"{'' if more == 1 else 's'} after it") \
                if more else None
        if left[0] != 3:
            return where + f"kind {left[0]}, which is neither 3 nor 0"
        if len(left) < WRITE_RECORD:
            return where + f"cut short after {len(left)} of its 259 bytes"
        if left[1] >= tracks or not 1 <= left[2] <= sectors:
            return where + (f"sector {left[1]}/{left[2]}, which is not on a "
                            f"disc of {tracks} track"
                            f"{'' if tracks == 1 else 's'} of {sectors} "
                            "sectors")
    raise AssertionError("a list has an end or a fault")


def sheet_fault(sheet):
    """The first thing that is wrong with a sheet, in words; None if nothing
    is."""
    at = 0
    while at < len(sheet):
        kind, left = sheet[at], len(sheet) - at - 1
        if kind == 0:
            return f"{left} byte{'' if left == 1 else 's'} after the end" \
                if left else None
        if kind > 2:
            return f"byte {at}: a record of kind {kind}"
        if left < 4:
            return "the last record is cut short"
        worker = sheet[at + 1] + 256 * sheet[at + 2]
        if kind == 1 and not 1 <= worker <= WORKERS:
            return f"byte {at}: worker {worker}"
        at += 5
    return "no end"
