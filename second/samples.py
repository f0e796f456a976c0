"""The bytes that the vectors, the comparison, the example and the stores' trials are made of."""

import functools


def message(length):
    """The first bytes of the pattern message."""
    return bytes(i % 251 for i in range(length))


def block(number):
    """Block `number` of the sample file."""
    return bytes((131 * number + 17 * k + number // 256) % 251 for k in range(1024))


def blocks(count):
    """The sample file's first blocks."""
    return [block(number) for number in range(count)]


@functools.cache
def pattern(start, length):
    """Bytes of the stores' pattern, from `start` on."""
    mixed = (at * 2654435761 % 2**32 for at in range(start, start + length))
    return bytes((value >> 7 ^ value >> 22) & 255 for value in mixed)
