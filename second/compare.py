"""Holds the program slipcheck to the second implementation.

compare.py PROGRAM [SCRATCH_DIR]

Each case is a seal and a slip, good or damaged. The program is run with the
seal as the file `seal` in its working folder and the slip as standard input;
what it prints must be the line that reference.check gives, and its exit
status must be 0.
"""

import os
import subprocess
import sys
import tempfile

import reference
import samples

# Where the fields of a slip before its path start, and where each ends.
SLIP_FIELDS = [(0, 4), (4, 11), (11, 18), (18, 1045)]

LARGE_NUMBERS = [4097, 65536, 2**32 - 1]
BAD_KINDS = [0, 3, 255]

BLOCKS = samples.blocks(4096)
OTHER_BLOCKS = [bytes(255 - byte for byte in block) for block in BLOCKS[:8]]


class Sample:
    """A seal and a slip of one file, and their parts to put together otherwise."""

    def __init__(self, kind, count, number, blocks=None, tree=None):
        blocks = BLOCKS[:count] if blocks is None else blocks
        tree = reference.Tree(kind, blocks) if tree is None else tree
        self.name = f"kind {kind}, block {number} of {count}"
        self.kind, self.count, self.number = kind, count, number
        self.block, self.path, self.root = blocks[number], tree.path(number), tree.root()

    def seal(self, **changed):
        """The seal, with some parts changed."""
        parts = {"kind": self.kind, "count": self.count, "root": self.root}
        return reference.seal(**(parts | changed))

    def slip(self, **changed):
        """The slip, with some parts changed."""
        parts = {"kind": self.kind, "count": self.count, "number": self.number}
        parts |= {"block": self.block, "path": self.path}
        return reference.slip(**(parts | changed))

    def slip_fields(self):
        """Where the fields of this slip start and end."""
        return SLIP_FIELDS + [(1045, len(self.slip()))]


# Each function below gives cases: a name, a seal (None for no file) and a slip.


def good():
    """Slips as they are made."""
    numbers = {
        40: [0, 1, 31, 32, 38, 39],
        4095: [0, 2047, 2048, 4092, 4093, 4094],
        4096: [0, 1, 2047, 2048, 4094, 4095],
    }
    for kind in (1, 2):
        for count in (1, 2, 3, 5, 7, 8, 40, 4095, 4096):
            tree = reference.Tree(kind, BLOCKS[:count])
            for number in numbers.get(count, range(count)):
                sample = Sample(kind, count, number, tree=tree)
                assert reference.check(sample.seal(), sample.slip()) == f"accepted {number} of {count}"
                yield "good", sample.seal(), sample.slip()


def missing(sample):
    """A file that is not there, and empty ones."""
    yield "no seal", None, sample.slip()
    yield "no seal and no slip", None, b""
    yield "empty slip", sample.seal(), b""
    yield "empty seal and slip", b"", b""


def cut(sample):
    """Seals and slips that end too soon."""
    seal, slip = sample.seal(), sample.slip()
    for size in range(len(seal)):
        yield f"seal cut to {size}", seal[:size], slip
    sizes = set()
    for start, end in sample.slip_fields():
        sizes |= {start - 1, start, start + 1, start + 2, start + 3, (start + end) // 2, end - 1}
    for size in sorted(size for size in sizes if 0 <= size < len(slip)):
        yield f"slip cut to {size}", seal, slip[:size]


def longer(sample):
    """Seals and slips with bytes added."""
    seal, slip = sample.seal(), sample.slip()
    for extra in (1, 2, 32, 3000):
        yield f"slip and {extra} bytes of 0", seal, slip + b"\x00" * extra
    yield "slip and a byte of 6", seal, slip + b"\x06"
    yield "slip and a field", seal, slip + reference.field(7, b"more")
    yield "slip twice", seal, slip + slip
    yield "byte before the slip", seal, b"\x00" + slip
    yield "seal and 1 byte", seal + b"\x00", slip
    yield "seal and 2 bytes", seal + b"\x00\x00", slip
    yield "seal twice", seal + seal, slip
    yield "byte before the seal", b"\x01" + seal, slip


def with_byte(data, place, value):
    """The data with one byte changed."""
    return data[:place] + bytes([value]) + data[place + 1 :]


def changes(data, places):
    """Each byte at these places set to 0, to 255, one up, and with a bit flipped."""
    for place in places:
        old = data[place]
        for value in sorted({0, 255, (old + 1) % 256, old ^ 64} - {old}):
            yield f"byte {place} is {value}", with_byte(data, place, value)


def changed_headers(sample):
    """Tags, lengths and small contents, byte by byte."""
    seal, slip = sample.seal(), sample.slip()
    for name, other in changes(seal, range(14)):
        yield f"seal's {name}", other, slip
    for name, other in changes(slip, [*range(21), 1045, 1046, 1047]):
        yield f"slip's {name}", seal, other


def changed_contents(sample):
    """Bytes of the root, of the block and of the path."""
    seal, slip = sample.seal(), sample.slip()
    for place in (14, 15, 30, 44, 45):
        yield f"root's byte {place}", with_byte(seal, place, seal[place] ^ 1), slip
    places = [21, 22, 532, 533, 1043, 1044]
    places += [at for at in range(1048, len(slip)) if (at - 1048) % 32 in (0, 15, 31)]
    for place in places:
        yield f"slip's byte {place}", seal, with_byte(slip, place, slip[place] ^ 128)
    yield "block of zeros", seal, sample.slip(block=bytes(1024))
    yield "path of zeros", seal, sample.slip(path=[bytes(32)] * len(sample.path))


def values(sample):
    """Kinds, counts and numbers out of range."""
    seal, slip = sample.seal(), sample.slip()
    for kind in BAD_KINDS:
        yield f"seal's kind {kind}", sample.seal(kind=kind), slip
        yield f"slip's kind {kind}", seal, sample.slip(kind=kind)
        yield f"kind {kind} in both", sample.seal(kind=kind), sample.slip(kind=kind)
    for count in LARGE_NUMBERS:
        yield f"seal's count {count}", sample.seal(count=count), slip
        yield f"slip's count {count}", seal, sample.slip(count=count)
        yield f"count {count} in both", sample.seal(count=count), sample.slip(count=count)
    for number in (sample.count, sample.count + 1, 2**31, 2**32 - 1):
        yield f"number {number}", seal, sample.slip(number=number)
    yield "slip's count 0", seal, sample.slip(count=0)
    yield "slip's count and number 0", seal, sample.slip(count=0, number=0)


def empty_files(sample):
    """Seals of no blocks."""
    for kind in (1, 2):
        right = reference.digest(kind, b"")
        other = reference.digest(3 - kind, b"")
        wrong = {"the other kind's": other, "a file's": sample.root, "zeros as": bytes(32)}
        seal = reference.seal(kind, 0, right)
        yield f"kind {kind}, count 0", seal, sample.slip()
        yield f"kind {kind}, count 0 in both", seal, sample.slip(count=0, number=0)
        yield f"kind {kind}, count 0, empty slip", seal, b""
        for name, root in wrong.items():
            yield f"kind {kind}, count 0, {name} root", reference.seal(kind, 0, root), sample.slip()
        yield f"kind {kind}, a file's seal with the empty root", sample.seal(root=right), sample.slip()


def wrong_paths(sample):
    """Paths too short, too long, and in another order."""
    seal, path = sample.seal(), sample.path
    yield "path without its first", seal, sample.slip(path=path[1:])
    yield "path without its last", seal, sample.slip(path=path[:-1])
    yield "no path", seal, sample.slip(path=[])
    yield "path and its last again", seal, sample.slip(path=path + path[-1:])
    yield "path and its first before it", seal, sample.slip(path=path[:1] + path)
    yield "path and 20 more", seal, sample.slip(path=path + path[:1] * 20)
    yield "path turned round", seal, sample.slip(path=path[::-1])
    for at in range(len(path) - 1):
        swapped = path[:at] + [path[at + 1], path[at]] + path[at + 2 :]
        yield f"path with {at} and {at + 1} swapped", seal, sample.slip(path=swapped)


def changed_numbers(sample):
    """A block and a path under another number."""
    for number in range(sample.count):
        yield f"as number {number}", sample.seal(), sample.slip(number=number)


def other_files():
    """Slips that belong to another seal."""
    for kind in (1, 2):
        mine, theirs = Sample(kind, 8, 2), Sample(kind, 8, 2, OTHER_BLOCKS)
        yield f"kind {kind}, another file's slip", mine.seal(), theirs.slip()
        yield f"kind {kind}, another file's seal", theirs.seal(), mine.slip()
        yield f"kind {kind}, another file's block", mine.seal(), mine.slip(block=theirs.block)
        yield f"kind {kind}, another file's path", mine.seal(), mine.slip(path=theirs.path)
        yield f"kind {kind}, another file's seal and slip", theirs.seal(), theirs.slip()


def stale():
    """One block of the file is replaced; seals and slips from before and after are mixed."""
    for kind in (1, 2):
        for changed in range(5):
            blocks = BLOCKS[:5]
            blocks[changed] = OTHER_BLOCKS[changed]
            for number in range(5):
                old, new = Sample(kind, 5, number), Sample(kind, 5, number, blocks)
                name = f"kind {kind}, block {changed} of 5 replaced, slip of {number}"
                yield f"{name} is old", new.seal(), old.slip()
                yield f"{name} is new", old.seal(), new.slip()


def other_kinds():
    """Kinds mixed between the seal and the slip."""
    for kind in (1, 2):
        mine, theirs = Sample(kind, 5, 2), Sample(3 - kind, 5, 2)
        name = f"kind {kind}"
        yield f"{name}, slip of the other kind", mine.seal(), theirs.slip()
        yield f"{name}, slip says the other kind", mine.seal(), mine.slip(kind=3 - kind)
        yield f"{name}, other slip says this kind", mine.seal(), theirs.slip(kind=kind)
        yield f"{name}, seal says the other kind", mine.seal(kind=3 - kind), mine.slip()
        yield f"{name}, both say the other kind", mine.seal(kind=3 - kind), mine.slip(kind=3 - kind)
        yield f"{name}, slip of kind 7", mine.seal(), mine.slip(kind=7)


def other_counts():
    """Counts mixed between the seal and the slip."""
    for kind in (1, 2):
        mine = Sample(kind, 5, 0)
        for count in (1, 2, 3, 4, 6, 7, 8, 9, 40, 256, 257, 4096):
            theirs = Sample(kind, count, 0)
            name = f"kind {kind}, 5 and {count} blocks"
            yield f"{name}, slip of the other file", mine.seal(), theirs.slip()
            yield f"{name}, slip says the other count", mine.seal(), mine.slip(count=count)
            yield f"{name}, seal says the other count", mine.seal(count=count), mine.slip()
            both = mine.seal(count=count), mine.slip(count=count)
            yield f"{name}, both say the other count", *both


class PairedTree(reference.Tree):
    """A wrong tree: an odd last node is paired with itself."""

    def levels(self):
        """The digests of each level, the leaves first."""
        level = list(self.leaves)
        while len(level) > 1:
            level += level[-1:] * (len(level) % 2)
            yield level
            pairs = zip(level[::2], level[1::2])
            level = [reference.node(self.kind, left, right) for left, right in pairs]
        yield level

    def root(self, start=0, count=None):
        """The digest at the top."""
        *_, top = self.levels()
        return top[0]

    def path(self, number):
        """The sibling on each level below the top."""
        *below, _ = self.levels()
        return [level[(number >> height) ^ 1] for height, level in enumerate(below)]


def paired_trees():
    """Paths and roots of a tree that pairs an odd last node with itself."""
    for kind in (1, 2):
        for count in (3, 5, 6, 7):
            tree = PairedTree(kind, BLOCKS[:count])
            for number in range(count):
                right = Sample(kind, count, number)
                wrong = Sample(kind, count, number, tree=tree)
                name = f"kind {kind}, paired tree, block {number} of {count}"
                yield f"{name}, slip", right.seal(), wrong.slip()
                yield f"{name}, seal", wrong.seal(), right.slip()
                yield f"{name}, seal and slip", wrong.seal(), wrong.slip()
            doubled = Sample(kind, count + 1, count, BLOCKS[:count] + BLOCKS[count - 1 : count])
            name = f"kind {kind}, {count} blocks, last doubled"
            yield f"{name}, slip", Sample(kind, count, 0).seal(), doubled.slip()
            yield f"{name}, count put right", right.seal(), right.slip(path=doubled.path)


def orders(sample):
    """Two faults at once: the first in order is named."""
    bad_seal, other_seal = sample.seal()[:-1], sample.seal(root=bytes(32))
    cut_slip, other_slip = sample.slip()[:-1], sample.slip(kind=3 - sample.kind)
    wrong_block = sample.slip(block=bytes(1024))
    yield "bad seal, cut slip", bad_seal, cut_slip
    yield "bad seal, other kind", bad_seal, other_slip
    yield "bad seal, wrong block", bad_seal, wrong_block
    yield "other kind, cut", sample.seal(), other_slip[:-1]
    yield "other kind, longer", sample.seal(), other_slip + b"\x00"
    yield "other kind, wrong root", other_seal, other_slip
    yield "wrong block, cut", sample.seal(), wrong_block[:-1]
    yield "wrong block, longer", sample.seal(), wrong_block + b"\x00"
    yield "number and kind", sample.seal(), sample.slip(number=sample.count, kind=0)
    yield "number and count", sample.seal(), sample.slip(number=2**32 - 1, count=4097)
    yield "count of the seal, kind of the slip", sample.seal(count=4097), sample.slip(kind=0)


def all_cases():
    """Every case, named."""
    for name, seal, slip in good():
        yield f"{name}: {reference.check(seal, slip)}, kind {seal[3]}", seal, slip
    samples_used = [Sample(1, 7, 3), Sample(2, 5, 4), Sample(2, 4096, 4095), Sample(1, 1, 0)]
    families = [missing, cut, longer, changed_headers, changed_contents]
    families += [values, empty_files, orders]
    for sample in samples_used:
        for family in families:
            for name, seal, slip in family(sample):
                yield f"{sample.name}: {name}", seal, slip
    for sample in (Sample(1, 7, 3), Sample(2, 8, 5), Sample(1, 5, 4), Sample(2, 13, 10)):
        for family in (wrong_paths, changed_numbers):
            for name, seal, slip in family(sample):
                yield f"{sample.name}: {name}", seal, slip
    for family in (other_files, stale, other_kinds, other_counts, paired_trees):
        yield from family()


def run(program, folder, seal, slip):
    """What the program prints and its exit status."""
    place = os.path.join(folder, "seal")
    if os.path.lexists(place):
        os.remove(place)
    if seal is not None:
        with open(place, "wb") as file:
            file.write(seal)
    try:
        done = subprocess.run([program], cwd=folder, input=slip, capture_output=True, timeout=60)
    except subprocess.TimeoutExpired:
        return b"", "none after 60 seconds"
    return done.stdout, done.returncode


def compare(program, folder):
    """Runs all cases, prints those that differ, and gives how many cases and differences there are."""
    count, differ, names = 0, 0, set()
    for name, seal, slip in all_cases():
        assert name not in names, f"two cases have the name {name}"
        names.add(name)
        count += 1
        wanted = reference.check(seal or b"", slip)
        printed, status = run(program, folder, seal, slip)
        if (printed, status) != (wanted.encode() + b"\n", 0):
            differ += 1
            print(f"{name}: wanted {wanted!r}, printed {printed[:200]!r}, status {status}")
    return count, differ


def main(words):
    """The command."""
    if len(words) not in (1, 2):
        print("usage: compare.py PROGRAM [SCRATCH_DIR]", file=sys.stderr)
        return 2
    program = os.path.abspath(words[0])
    if not os.access(program, os.X_OK):
        print(f"second program: {words[0]} is no program")
        return 2
    if len(words) == 2:
        os.makedirs(words[1], exist_ok=True)
        count, differ = compare(program, words[1])
    else:
        with tempfile.TemporaryDirectory() as folder:
            count, differ = compare(program, folder)
    if differ:
        print(f"second program: {differ} of {count} cases differ")
        return 1
    print(f"second program: {count} cases agree")
    return 0


if __name__ == "__main__":
    sys.exit(main(sys.argv[1:]))
