"""Prints what the program `logspeed` must write: for each count of records, a checksum of many gets."""

import stores

GETS = 5_000_000
COUNTS = [10, 1_000, 10_000]

# Five blocks and five nodes: the places that are asked for.
PLACES = [("n", k, 1) if k % 2 else ("b", 400 * k) for k in range(10)]


def place_of(number, count):
    """Where a record lies: each tenth part of the log begins with one of the ten, and the others are blocks by number."""
    part, rest = divmod(number, count // 10)
    return PLACES[part] if rest == 0 else ("b", number % 4096)


def filled(count):
    """A log of this many records."""
    log = stores.Log(bytes(stores.LONGEST * count))
    for number in range(count):
        place = place_of(number, count)
        log.put(place, bytes((number + at) % 251 for at in range(stores.record_size(place))))
    return log


def checksum(log):
    """The sum over a byte of each record got, with the sum before it 31-fold."""
    got = [log.get(place, stores.record_size(place)) for place in PLACES]
    total = 0
    for turn in range(GETS):
        record = got[7 * turn % 10]
        total = (31 * total + record[turn % len(record)]) % 2**32
    return total


if __name__ == "__main__":
    for count in COUNTS:
        print(count, checksum(filled(count)))
