"""The stores, written a second time from the rules alone.

A place is a tuple: ("b", number) is a block, ("n", level, number) a node.
Nothing here is shared with the crates.
"""

import bisect

import reference
from reference import BLOCK_SIZE, DIGEST_SIZE, MOST_BLOCKS

TOP_LEVEL = 12

# Why a store refuses.
NOTHING, OUTSIDE, LENGTH, FULL = 1, 2, 3, 4

# The refusal of bytes that are no log.
LOG_FORM = 14

# The tags of a log's records, and how long the longest record is.
BLOCK_TAG, NODE_TAG = 16, 17
LONGEST = 3 + 2 + BLOCK_SIZE


class Refused(Exception):
    """A store's refusal, with its cause."""

    def __init__(self, cause):
        super().__init__(f"refused {cause}")


def record_size(place):
    """How long the record at a place is."""
    return BLOCK_SIZE if place[0] == "b" else DIGEST_SIZE


def is_inside(place, span):
    """Whether a block, or every block that a node covers, is among the first `span` blocks."""
    level, number = (0, place[1]) if place[0] == "b" else place[1:]
    return (number + 1) << level <= span


class Store:
    """What every truthful store does; each make has its span and room, and finds and keeps records."""

    def admit(self, place, length):
        """Refuses a record, or a buffer, of another length, and then a place outside."""
        if length != record_size(place):
            raise Refused(LENGTH)
        if not is_inside(place, self.span):
            raise Refused(OUTSIDE)

    def get(self, place, length):
        """The record at a place, for a buffer of this length."""
        self.admit(place, length)
        record = self.find(place)
        if record is None:
            raise Refused(NOTHING)
        return record

    def put(self, place, record):
        """Sets the record at a place."""
        self.admit(place, len(record))
        if self.room == 0:
            raise Refused(FULL)
        self.keep(place, record)


# Flat: a place for every record


def places(span):
    """The places inside a span, in the order of their bytes."""
    for number in range(span):
        yield "b", number
    for level in range(TOP_LEVEL + 1):
        for number in range(span // 2**level):
            yield "n", level, number


def layout_size(span):
    """How many bytes the records of a span take up."""
    nodes = sum(span // 2**level for level in range(TOP_LEVEL + 1))
    return BLOCK_SIZE * span + DIGEST_SIZE * nodes


LAYOUT_SIZES = [layout_size(span) for span in range(MOST_BLOCKS + 1)]


def flat_span(length):
    """The largest span whose layout fits so many bytes."""
    return bisect.bisect_right(LAYOUT_SIZES, length) - 1


class Flat(Store):
    """Bytes with a place for every record; it has a table of where each one starts."""

    room = 2**32 - 1

    def __init__(self, data):
        self.data = bytearray(data)
        self.span = flat_span(len(data))
        self.starts = {}
        at = 0
        for place in places(self.span):
            self.starts[place] = at
            at += record_size(place)

    def find(self, place):
        """The bytes at the place."""
        at = self.starts[place]
        return bytes(self.data[at : at + record_size(place)])

    def keep(self, place, record):
        """Changes the bytes at the place."""
        at = self.starts[place]
        self.data[at : at + len(record)] = record

    @property
    def parts(self):
        """The stores that have bytes of their own."""
        return [self]


# Log: records one after another


def record_bytes(place, record):
    """A record of a log."""
    if place[0] == "b":
        return reference.field(BLOCK_TAG, place[1].to_bytes(2, "big") + record)
    _, level, number = place
    return reference.field(NODE_TAG, bytes([level]) + number.to_bytes(2, "big") + record)


def read_record(tag, content):
    """The place and the record that a field of a log holds; None if it is no record."""
    if (tag, len(content)) == (BLOCK_TAG, 2 + BLOCK_SIZE):
        place = "b", int.from_bytes(content[:2], "big")
        record = content[2:]
    elif (tag, len(content)) == (NODE_TAG, 3 + DIGEST_SIZE):
        place = "n", content[0], int.from_bytes(content[1:3], "big")
        record = content[3:]
    else:
        return None
    return (place, record) if is_inside(place, MOST_BLOCKS) else None


def records(data):
    """Gives the place and the record of each field of a log; refusal 14 where no record stands."""
    for at, tag, content in reference.fields(data):
        if at == len(data):
            return
        found = read_record(tag, content)
        if found is None:
            raise reference.Refusal(LOG_FORM, at)
        yield found


class Log(Store):
    """Bytes with one record after another; it has a table of the last record for each place."""

    span = MOST_BLOCKS

    def __init__(self, data, used=0):
        """The log of the first bytes; refusal 14 if they are not all records."""
        if used > len(data):
            raise reference.Refusal(LOG_FORM, len(data))
        self.data = bytearray(data)
        self.used = used
        self.table = dict(records(data[:used]))

    @property
    def room(self):
        """How many of the longest records the free bytes take."""
        return (len(self.data) - self.used) // LONGEST

    def find(self, place):
        """The last record for the place."""
        return self.table.get(place)

    def keep(self, place, record):
        """Writes a record behind the last one."""
        added = record_bytes(place, record)
        self.data[self.used : self.used + len(added)] = added
        self.used += len(added)
        self.table[place] = record

    @property
    def parts(self):
        """The stores that have bytes of their own."""
        return [self]


# Stores over stores


class Split(Store):
    """Blocks in one store, and nodes in another."""

    def __init__(self, blocks, nodes):
        self.blocks, self.nodes = blocks, nodes

    @property
    def span(self):
        """The smaller span."""
        return min(self.blocks.span, self.nodes.span)

    @property
    def room(self):
        """The smaller room."""
        return min(self.blocks.room, self.nodes.room)

    def part(self, place):
        """The store that the place is in."""
        return self.blocks if place[0] == "b" else self.nodes

    def find(self, place):
        """What the part finds."""
        return self.part(place).find(place)

    def keep(self, place, record):
        """Has the part keep the record."""
        self.part(place).keep(place, record)

    @property
    def parts(self):
        """The stores that have bytes of their own."""
        return self.blocks.parts + self.nodes.parts


class Rewind:
    """Answers block 0 with the first block that its store accepted there, and passes on all else."""

    def __init__(self, store):
        self.store = store
        self.first = None

    @property
    def span(self):
        """The store's."""
        return self.store.span

    @property
    def room(self):
        """The store's."""
        return self.store.room

    def get(self, place, length):
        """The first block, or what the store gets."""
        if self.first is not None and (place, length) == (("b", 0), BLOCK_SIZE):
            return self.first
        return self.store.get(place, length)

    def put(self, place, record):
        """Has the store put the record."""
        self.store.put(place, record)
        if self.first is None and place == ("b", 0):
            self.first = record

    @property
    def parts(self):
        """The stores that have bytes of their own."""
        return self.store.parts
