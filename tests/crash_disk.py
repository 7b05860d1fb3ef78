"""A folder as a power cut could leave it, from the log that tests/disk.c writes of what a program did to its files.

What was synced stays. Each file is left by itself, whatever the others are: of what was written or cut since its last sync, nothing is there, or all, or the first part,
and in that part each write whole, up to an octet, by some blocks of 512 octets, or not at all. Where a file was made longer than what is there of it, the rest has zeros,
octets by chance, or octets that were written elsewhere before. A name is there as it was when the folder was synced last, and behind that the changes of names up to one of
them: so a file may be missing though it was synced itself, and a name may stand for the file that it stood for before. What stood behind a sync that failed is there or not,
whatever was synced later. Folders below the folder aren't known."""
import os
import random
import struct
import subprocess

RECORD = struct.Struct("<4I2Q")
OPENED, WRITTEN, CUT, SYNC, SYNCED, UNSYNCED, RENAMED, REMOVED, LINKED = range(1, 10)
OPEN, SURE, DOUBTFUL = range(3)
BLOCK = 512
PIECES = 64
TOP = os.path.dirname(os.path.dirname(os.path.abspath(__file__)))


def library(room):
    """The library that is put in front of the C library, made in a folder."""
    path = f"{room}/disk.so"
    subprocess.run([os.environ.get("CC", "cc"), "-O2", "-shared", "-fPIC", "-o", path, f"{TOP}/tests/disk.c"], check=True)
    return path


def octets_of(path):
    with open(path, "rb") as file:
        return file.read()


def told(path):
    """The records of a log: kind, inode, place, the two names and the octets. One that a kill tore isn't whole, and is the last."""
    octets, at = octets_of(path), 0
    while at + RECORD.size <= len(octets):
        kind, first, second, size, inode, place = RECORD.unpack_from(octets, at)
        at += RECORD.size
        if at + first + second + size > len(octets):
            break
        names = octets[at : at + first].decode(), octets[at + first : at + first + second].decode()
        at += first + second + size
        yield kind, inode, place, *names, octets[at - size : at]


class Done:
    """What was done to a file or a folder, the number of its record, and whether it is known to be on the disk."""

    def __init__(self, number, *what):
        self.number, self.what, self.known = number, what, OPEN


class Kept:
    """What a sync can be asked of: what was done since what is sure, in order."""

    def __init__(self):
        self.done = []

    def do(self, number, *what):
        self.done.append(Done(number, *what))

    def settle(self, before, known):
        for each in self.done:
            if each.number < before and each.known == OPEN:
                each.known = known

    def first_open(self):
        """How many are there for sure, or were in front of one that is."""
        return max((at + 1 for at, each in enumerate(self.done) if each.known == SURE), default=0)


class File(Kept):
    def __init__(self, sure=b""):
        super().__init__()
        self.sure = sure

    def left(self, chance, pieces):
        """The octets that are left of it."""
        octets, first = bytearray(self.sure), self.first_open()
        way = chance.choice(("nothing", "all", "part", "part"))
        end = {"nothing": first, "all": len(self.done)}.get(way, chance.randint(first, len(self.done)))
        for at, each in enumerate(self.done[:end]):
            place, written = each.what
            is_there = each.known == SURE or way == "all" and each.known == OPEN
            if written is None:
                # lengths come in order, but one that is doubtful
                if each.known != DOUBTFUL or chance.random() < 0.5:
                    octets = made_long(octets, place, None, pieces)
            elif is_there:
                put(octets, place, written, [(0, len(written))], None, pieces)
            elif at == end - 1 and chance.random() < 0.3:
                # the file isn't longer than what is there
                torn = written[: chance.randint(0, len(written))]
                put(octets, place, torn, [(0, len(torn))], None, pieces)
            else:
                put(octets, place, written, there_of(len(written), chance), chance, pieces)
        return bytes(octets)


def made_long(octets, size, chance, pieces):
    """Octets made so many: what is there behind the end is zeros, or where chance says so others."""
    missing = size - len(octets)
    if missing <= 0:
        return octets[:size]
    way = chance.randrange(3) if chance else 0
    if way == 1:
        return octets + chance.randbytes(missing)
    if way == 2 and pieces:
        piece = chance.choice(pieces)
        return octets + (piece * (missing // max(1, len(piece)) + 1))[:missing]
    return octets + bytes(missing)


def put(octets, place, written, parts, chance, pieces):
    """Writes the parts that are there, over a file that is long enough for the whole."""
    if place + len(written) > len(octets):
        octets[:] = made_long(octets, place + len(written), chance, pieces)
    for begin, end in parts:
        octets[place + begin : place + end] = written[begin:end]


def there_of(size, chance):
    """Which parts of a write are there."""
    way = chance.randrange(4)
    if way == 0:
        return []
    if way == 1:
        return [(0, size)]
    if way == 2:
        return [(0, chance.randint(0, size))]
    return [(at, min(at + BLOCK, size)) for at in range(0, size, BLOCK) if chance.random() < 0.5]


class Folder(Kept):
    """Names, as they are, and as they are on the disk."""

    def __init__(self, names):
        super().__init__()
        self.sure, self.now = dict(names), dict(names)

    def set(self, number, changes):
        """Names get files, or none."""
        if any("/" in name for name in changes):
            raise ValueError(f"a folder below the folder isn't known: {sorted(changes)}")
        enter(self.now, changes)
        self.do(number, changes)

    def left(self, chance):
        names, first = dict(self.sure), self.first_open()
        end = chance.randint(first, len(self.done))
        for each in self.done[:end]:
            if each.known != DOUBTFUL or chance.random() < 0.5:
                enter(names, each.what[0])
        return names


def enter(names, changes):
    for name, file in changes.items():
        if file is None:
            names.pop(name, None)
        else:
            names[name] = file


class Disk:
    """A folder that a program with the library has for itself, time and again."""

    def __init__(self, made, folder, seed):
        self.library, self.folder, self.log = made, os.path.realpath(folder), f"{os.path.realpath(folder)}.log"
        self.chance = random.Random(seed)

    def environment(self, **faults):
        """What a program is started with; faults are the library's, as FAIL=3."""
        self.begun = {entry.name: entry.inode() for entry in os.scandir(self.folder)}
        self.octets = {name: octets_of(f"{self.folder}/{name}") for name in self.begun}
        if os.path.exists(self.log):
            os.unlink(self.log)
        return {"LD_PRELOAD": self.library, "DISK_DIR": self.folder, "DISK_LOG": self.log, **{f"DISK_{name}": str(number) for name, number in faults.items()}}

    def state(self):
        """The folder and its files behind the whole log, with pieces of what was written."""
        files = {inode: File(self.octets[name]) for name, inode in self.begun.items()}
        folder = Folder({name: files[inode] for name, inode in self.begun.items()})
        files[os.stat(self.folder).st_ino] = folder
        pieces, begun = [], {}
        for number, (kind, inode, place, first, second, octets) in enumerate(told(self.log)):
            if kind == OPENED and place == 1:
                files[inode] = File()
                folder.set(number, {first: files[inode]})
            elif kind == OPENED or kind == CUT:
                files[inode].do(number, 0 if kind == OPENED else place, None)
            elif kind == WRITTEN:
                files[inode].do(number, place, octets)
                pieces.append(octets)
            elif kind == SYNC:
                begun[place] = number
            elif kind in (SYNCED, UNSYNCED):
                files[inode].settle(begun[place], SURE if kind == SYNCED else DOUBTFUL)
            elif kind == RENAMED:
                folder.set(number, {first: None, second: folder.now[first]})
            elif kind == REMOVED:
                folder.set(number, {first: None})
            elif kind == LINKED:
                folder.set(number, {second: folder.now[first]})
        return folder, pieces[-PIECES:]

    def cut(self):
        """Puts into the folder what a power cut could leave there, and tells whether that is other than what the program left. The program has to be ended."""
        if not os.path.exists(self.log):
            return False
        folder, pieces = self.state()
        left = {name: file.left(self.chance, pieces) for name, file in folder.left(self.chance).items()}
        was = {}
        for entry in os.scandir(self.folder):
            was[entry.name] = octets_of(entry.path)
            os.unlink(entry.path)
        for name, octets in left.items():
            with open(f"{self.folder}/{name}", "wb") as file:
                file.write(octets)
        return was != left
