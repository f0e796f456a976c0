"""The commands that stores are tried with."""

import samples
from stores import MOST_BLOCKS, TOP_LEVEL, flat_span

LEVELS = range(TOP_LEVEL + 1)

# The fewest bytes that a flat store of 4,096 blocks is made over.
WHOLE = 4456416

HIGHEST = 2**32 - 1


def size(place):
    """How long the record at a place is."""
    return 1024 if place.startswith("b") else 32


def get(*places):
    """Gets the record at each place."""
    return [f"get {place} {size(place)}" for place in places]


def put(place, start):
    """Puts bytes of the pattern at a place."""
    return f"put {place} {size(place)} {start}"


def node_count(level, span=MOST_BLOCKS):
    """How many nodes a level has inside a span."""
    return span >> level


# A log of a node, a block and the same node again, and the offsets of its records.

LOG_LENGTH = 2134
NODE, BLOCK = "n 3 5", "b 5"
FIRST, SECOND, THIRD, END = 0, 38, 1067, 1105
BLOCK_START = 40000


def sample_log():
    """Makes the log, and takes its bytes back."""
    yield from (f"zeros {LOG_LENGTH}", "log")
    yield from (put(NODE, 700), put(BLOCK, BLOCK_START), put(NODE, 900), "back")


def opened(used, *places):
    """Opens the bytes as a log, and shows the room and what lies at some places."""
    yield from (f"open {used}", "room", *get(*places), "back")


def cut_logs():
    """The log cut at every byte, and used lengths past it and past the bytes."""
    yield from sample_log()
    past = [1143, 2096, LOG_LENGTH - 1, LOG_LENGTH, LOG_LENGTH + 1, 4096, 65536, 2**32, 2**64 - 1]
    for used in [*range(END + 2), *past]:
        yield from opened(used, NODE, BLOCK)


def changed_headers():
    """Each tag and each length byte of the log changed to every other value."""
    yield from sample_log()
    for start, header in ((FIRST, (17, 0, 35)), (SECOND, (16, 4, 2)), (THIRD, (17, 0, 35))):
        for at, old in enumerate(header, start):
            for value in (value for value in range(256) if value != old):
                yield f"set {at} {value}"
                yield from opened(END, NODE)
            yield f"set {at} {old}"
    yield from opened(END, NODE, BLOCK)


def set_bytes(at, *values):
    """Changes bytes from an offset on."""
    for place, value in enumerate(values, at):
        yield f"set {place} {value}"


def other_records():
    """Records of the one kind made into whole records of the other."""
    yield from sample_log()
    yield from set_bytes(SECOND, 17, 0, 35)
    node = f"n 0 {5 * 256 + samples.pattern(BLOCK_START, 1)[0]}"
    yield from opened(END, NODE, BLOCK, node)
    yield from opened(SECOND + 38, NODE, BLOCK, node)
    yield from sample_log()
    yield from set_bytes(THIRD, 16, 4, 2)
    block = f"b {3 * 256}"
    yield from opened(END, NODE, BLOCK, block)
    yield from opened(THIRD + 1029, NODE, BLOCK, block)
    yield from opened(THIRD + 1028, NODE, BLOCK, block)


def other_places():
    """The places in the log changed to those at the limit and beyond it."""
    yield from sample_log()
    for number in (0, 255, 256, 4094, 4095, 4096, 4097, 8191, 32768, 65535):
        yield from set_bytes(SECOND + 3, *divmod(number, 256))
        yield from opened(END, NODE, BLOCK, f"b {number}")
    yield from set_bytes(SECOND + 3, 0, 5)
    for level in [*LEVELS, 13, 14, 31, 32, 33, 63, 64, 65, 128, 255]:
        for number in sorted({0, max(node_count(level), 1) - 1, node_count(level), 65535}):
            yield from set_bytes(FIRST + 3, level, *divmod(number, 256))
            yield from opened(END, NODE, f"n {level} {number}")
    yield from set_bytes(FIRST + 3, 3, 0, 5)
    for level, number in ((0, 4095), (0, 4096), (12, 0), (12, 1), (13, 0), (255, 0)):
        yield from set_bytes(THIRD + 3, level, *divmod(number, 256))
        yield from opened(END, NODE, f"n {level} {number}")


# Logs that are not damaged


def causes(inside, outside):
    """Gets and puts with lengths that are wrong, at places inside and outside."""
    for place in (*inside, *outside):
        for length in (0, 1, 31, 32, 33, 1023, 1024, 1025, 65536):
            if length != size(place):
                yield from (f"get {place} {length}", f"put {place} {length} 5")
    for place in outside:
        yield from (*get(place), put(place, 5))


def log_rooms():
    """Logs with little room: the longest record takes 1,029 bytes."""
    for length in (0, 1, 37, 38, 1028, 1029, 1066, 1067, 2057, 2058, 2095, 2096):
        for places in (("b 0", "b 1", "n 0 0"), ("n 0 0", "b 0", "n 1 0")):
            yield from (f"zeros {length}", "log", "span", "room")
            for start, place in enumerate(places):
                yield from (put(place, start), "room")
            yield from (*get(*places), "put b 4096 1024 5", "put b 0 32 5", "back")


def last_records():
    """Places that are put again and again: the last record counts."""
    places = ["b 0", "n 0 0", "b 1", "n 1 0", "b 4095", "n 12 0"]
    yield from ("zeros 20000", "log", *get(*places))
    for turn in range(3):
        for at, place in enumerate(places):
            yield from (put(place, 5000 * turn + 700 * at), *get(*places))
    yield from ("room", "back")


def log_limits():
    """The first and the last place inside, and places outside, of every kind."""
    inside = ["b 0", "b 1", "b 4095"]
    outside = [f"b {number}" for number in (4096, 4097, 65535, 65536, HIGHEST)]
    for level in LEVELS:
        count = node_count(level)
        inside += [f"n {level} {number}" for number in sorted({0, count // 2, count - 1})]
        outside += [f"n {level} {number}" for number in (count, count + 1, 65535, 65536, HIGHEST)]
    yield from ("zeros 60000", "log")
    for start, place in enumerate(inside):
        yield put(place, 100 * start)
    yield from (*get(*inside), *causes(inside[:4], outside), "room", "back")


def round_trips():
    """Logs taken apart and opened again, with a record more each time."""
    shown = ["b 7", "n 2 1", "b 8", "b 9"]
    yield from ("zeros 4200", "log", put("b 7", 1), put("n 2 1", 2), "back")
    used = 1029 + 38
    for turn, place in enumerate(("b 7", "n 2 1", "b 8", "n 2 1", "b 9"), 3):
        yield from (f"open {used}", "room", put(place, 1000 * turn), "room", *get(*shown), "back")
        used += 1029 if place.startswith("b") else 38
    yield from opened(used, *shown)


def written_over():
    """Empty logs over bytes that hold other things, and what is put there."""
    shown = ["b 1", NODE, BLOCK]
    for order in ("log", f"open {END - 1}", f"open {LOG_LENGTH + 1}"):
        yield from sample_log()
        yield from (order, "room", *get(*shown), put("b 1", 9), put(NODE, 10), *get(*shown), "back")
        for used in (1029, 1067, END):
            yield from opened(used, *shown)
    for length in (0, 1, 3000):
        yield f"pattern {length}"
        for used in (0, 1, length, length + 1):
            yield from opened(used, "b 0")


# Flat stores


def flat_spans():
    """Spans and rooms by the length of the bytes."""
    lengths = [0, 1, 1055, 1056, 1057, 2143, 2144, 4319, 4320, 5000, 65536, 1000000]
    for length in [*lengths, WHOLE - 1, WHOLE, 4500000]:
        yield from (f"zeros {length}", "flat", "span", "room", "back")


def shown_places(span):
    """The first, the second, the last inside and the first outside, of blocks and of each level."""
    for number in sorted({0, 1, max(span, 1) - 1, span}):
        yield f"b {number}"
    for level in LEVELS:
        count = node_count(level, span)
        for number in sorted({0, 1, max(count, 1) - 1, count}):
            yield f"n {level} {number}"


def flat_layouts():
    """What lies at the places of flat stores over the pattern."""
    for length in (1056, 2144, 3200, 4320, 5000, 65536, 1000000, WHOLE):
        shown = shown_places(flat_span(length))
        yield from (f"pattern {length}", "flat", "span", *get(*shown), "back")


def flat_puts():
    """Puts, what lies there and beside it then, and the bytes after them."""
    for length in (1056, 5000, 65536, WHOLE):
        shown = list(shown_places(flat_span(length)))
        yield from (f"pattern {length}", "flat", *filled(shown), *get(*shown), "back")
    yield from ("zeros 5000", "flat", put("n 2 0", 8), "back", "set 4300 1", "set 4999 2")
    yield from ("flat", *get("n 2 0", "n 1 1", "b 3"), "back")


def flat_causes():
    """Every cause that a flat store has."""
    for length in (1055, 1056, 5000, 65536):
        span = flat_span(length)
        inside = ["b 0", "n 0 0"] if span else []
        outside = [f"b {number}" for number in (span, 4095, 4096, HIGHEST)]
        for level in LEVELS:
            outside += [f"n {level} {number}" for number in (node_count(level, span), HIGHEST)]
        yield from (f"pattern {length}", "flat", *causes(inside, outside), "back")


# Stores over stores


def filled(places):
    """Puts at places, each with the room and what lies there."""
    for start, place in enumerate(places):
        yield from (put(place, 3000 * start), "room", *get(place))


def split(order, second, first, places):
    """A split over two rows of bytes, and what is put into it."""
    shown = [*shown_places(1), *shown_places(4), "b 4095", "n 12 0"]
    yield from (second, "swap", first, order, "span", "room", *get(*shown))
    yield from (*filled(places), *get(*shown))
    outside = ["b 4", "b 4095", "b 4096", "n 0 4", "n 2 1", "n 12 0"]
    yield from (*causes(["b 0", "n 0 0"], outside), "back")


def splits():
    """Splits of logs and of flat stores of four blocks and of one, with what each store then holds."""
    places = ["b 0", "n 0 0", "b 3", "n 2 0", "b 4", "n 0 4", "n 3 0", "n 1 1", "b 0", "n 1 1", "b 1"]
    shown = list(shown_places(4))
    yield from split("split log flat", "pattern 5000", "zeros 3200", places)
    yield from (*opened(3 * 1029, *shown), "swap", "flat", *get(*shown), "back")
    yield from split("split flat log", "zeros 1140", "pattern 5000", places)
    yield from ("flat", *get(*shown), "back", "swap", *opened(3 * 38, *shown))
    yield from split("split flat flat", "pattern 5000", "pattern 1056", places)
    yield from ("flat", *get(*shown), "back", "swap", "flat", *get(*shown), "back")
    yield from split("split flat flat", "pattern 1056", "pattern 5000", places)
    yield from ("flat", *get(*shown), "back", "swap", "flat", *get(*shown), "back")


def split_sizes():
    """Splits whose flat store has no place, or a place for every block."""
    for length in (0, 1055, WHOLE):
        places = ["b 0", "n 0 0", "b 4095", "n 12 0", "b 4096", "n 12 1"]
        yield from split("split log flat", f"zeros {length}", "zeros 5145", places)
        yield from split("split flat log", "zeros 5145", f"zeros {length}", places)


def rewinds():
    """Block 0 put again and again, and what is remembered of it."""
    places = ["b 0", "b 0", "b 1", "b 1", "n 0 0", "n 0 0", "b 0"]
    for order, length in (("rewind flat", 5000), ("rewind log", 6500)):
        yield from (f"pattern {length}", order, "span", "room", *get("b 0", "n 0 0"))
        yield from ("put b 0 1023 1", "put b 0 32 1", "put b 4096 1024 1", *get("b 0"))
        yield from (*filled(places), *causes(["b 0", "n 0 0"], ["b 4096", "n 12 1"]))
        yield from (*get("b 0", "b 1"), put("b 0", 50), put("b 0", 51), *get("b 0"), "room", "back")
    for used in (4 * 1029 + 2 * 38, 6 * 1029 + 2 * 38):
        yield from opened(used, "b 0", "b 1", "n 0 0")
    for order, length in (("rewind flat", 1055), ("rewind log", 1028), ("rewind log", 1029)):
        yield from (f"zeros {length}", order, *filled(["b 0", "b 0", "n 0 0"]), "back")


# Lines that are no commands

ODD_ORDERS = ["", "hello world", "Flat", "span", "room", "get b 0 1024", "put b 0 1024 1", "back"]
ODD_ORDERS += ["zeros", "zeros 1 1", "zeros x", "zeros -1", "zeros 8388609", f"zeros {2**64}"]
ODD_ORDERS += ["pattern 8388609", "set", "set 1", "set 0 256", "set -1 0", "set 2000 1", "set 0 1 1"]
ODD_ORDERS += ["swap 1", "flat 1", "log 1", "open", "open x", f"open {2**64}", "open 0 0"]
ODD_ORDERS += ["rewind", "rewind split", "rewind flat flat"]
ODD_ORDERS += ["split", "split log", "split log log", "split log flat log"]

ODD_QUESTIONS = ["", "hello world", "Back", "back 1", "zeros 1", "set 0 1", "flat", "open 0"]
ODD_QUESTIONS += ["span 1", "room 1", "get", "get b", "get b 0", "get b 0 x", "get b x 1024"]
ODD_QUESTIONS += ["get b -1 1024", "get b 0 1024 1", f"get b {2**32} 1024", "get b 0 65537"]
ODD_QUESTIONS += ["get c 0 1024", "get n 0 32", f"get n 0 {2**32} 32", "get n 13 0 32"]
ODD_QUESTIONS += ["get n 255 0 32", "get n 256 0 32", "put n 13 0 32 1", "put n 0 0 32 1 1"]
ODD_QUESTIONS += ["put b 0 1024", "put b 0 1024 x", f"put b 0 1024 {2**32}", "put b 0 65537 1"]


def odd_lines():
    """Lines that are no commands, with and without a store; they change nothing."""
    for order in ("flat", "log"):
        yield from ("pattern 2000", *ODD_ORDERS, order, *ODD_QUESTIONS, "back")
        yield from ("set 1999 1", order, "back")


TRIALS = [cut_logs, changed_headers, other_records, other_places]
TRIALS += [log_rooms, last_records, log_limits, round_trips, written_over]
TRIALS += [flat_spans, flat_layouts, flat_puts, flat_causes]
TRIALS += [splits, split_sizes, rewinds, odd_lines]


def lines():
    """All commands, in order."""
    for trial in TRIALS:
        yield from trial()
