"""Prints what the program `vectors` must write."""

import reference
import samples

LENGTHS = [0, 1, 55, 56, 57, 63, 64, 65, 111, 112, 113, 119, 120, 121, 127, 128, 129]
LENGTHS += [135, 136, 137, 191, 192, 193, 271, 272, 273, 1025, 2049]

MOST_PART = 65536
TOO_LONG = 7

TWO_BLOCKS = b"abcdbcdecdefdefgefghfghighijhijkijkljklmklmnlmnomnopnopq"
FOUR_BLOCKS = (
    b"abcdefghbcdefghicdefghijdefghijkefghijklfghijklmghijklmn"
    b"hijklmnoijklmnopjklmnopqklmnopqrlmnopqrsmnopqrstnopqrstu"
)

# The digests as the standards' examples give them.
PUBLISHED = [
    (1, "empty", b"", "e3b0c44298fc1c149afbf4c8996fb92427ae41e4649b934ca495991b7852b855"),
    (1, "abc", b"abc", "ba7816bf8f01cfea414140de5dae2223b00361a396177a9cb410ff61f20015ad"),
    (1, "two-blocks", TWO_BLOCKS, "248d6a61d20638b8e5c026930c3e6039a33ce45964ff2167f6ecedd419db06c1"),
    (1, "four-blocks", FOUR_BLOCKS, "cf5b16a778af8380036ce59e7b0492370b249b11e8f07a51afac45037afee9d1"),
    (2, "empty", b"", "a7ffc6f8bf1ed76651c14756a061d662f580ff4de43b49fa82d80a4b80f8434a"),
    (2, "abc", b"abc", "3a985da74fe225b2045c172d6bd390bd855f086e3e9d525b46bfe24511431532"),
    (2, "two-blocks", TWO_BLOCKS, "41c0dba2a9d6240849100376a8235e2c82e1b9998a999e21db32dd97496d3376"),
    (2, "four-blocks", FOUR_BLOCKS, "916f6061fe879741ca6469b43971dfdb28b1a32dc36cb3254e812be27aad1d18"),
    (2, "a3x200", b"\xa3" * 200, "79f38adec5c20307a98ef76e8324afbfd46cfd81b22e3973c65fa1bd9de31787"),
]

PATH_LENGTHS = [(0, 1), (4, 5), (6, 7), (3, 7), (0, 4096)]


def digests(kind):
    """Digests of messages handed over in two parts, and parts that are too long."""
    for length in LENGTHS:
        value = reference.digest(kind, samples.message(length)).hex()
        for cut in (0, length // 3, length // 2, length):
            yield f"digest {kind} {length} {cut} {value}"
    longest = reference.digest(kind, b"\x00" * MOST_PART + b"\x01" * MOST_PART)
    yield f"long {kind} {MOST_PART} {MOST_PART} {longest.hex()}"
    for _part in ("first", "second"):
        yield f"refused {kind} {TOO_LONG}"


def published():
    """The standards' own examples."""
    for kind, name, data, value in PUBLISHED:
        assert reference.digest(kind, data).hex() == value, (kind, name)
        yield f"published {kind} {name} {value}"


def shown_numbers(count):
    """The blocks whose path and slip are shown."""
    if count <= 8:
        return range(count)
    if count < 4095:
        return []
    return [n for n in (0, 1, 2047, 2048, 4093, 4094, 4095) if n < count]


def tree(kind, blocks):
    """Root, seal, paths and slips of one file."""
    count = len(blocks)
    whole = reference.Tree(kind, blocks)
    yield f"root {kind} {count} {whole.root().hex()}"
    yield f"seal {kind} {count} {reference.seal(kind, count, whole.root()).hex()}"
    if 1 <= count <= 40:
        joined = b"".join(b"".join(whole.path(number)) for number in range(count))
        yield f"paths {kind} {count} {reference.digest(kind, joined).hex()}"
    for number in shown_numbers(count):
        path = whole.path(number)
        yield " ".join([f"path {kind} {count} {number} {len(path)}"] + [d.hex() for d in path])
        slip = reference.slip(kind, count, number, blocks[number], path)
        yield f"slip {kind} {count} {number} {len(slip)} {reference.digest(kind, slip).hex()}"


def lines():
    """All lines, in order."""
    for kind in (1, 2):
        yield from digests(kind)
    yield from published()
    blocks = samples.blocks(4096)
    for kind in (1, 2):
        for count in list(range(41)) + [4095, 4096]:
            yield from tree(kind, blocks[:count])
    for number, count in PATH_LENGTHS:
        yield f"length {number} {count} {reference.path_length(number, count)}"


if __name__ == "__main__":
    for line in lines():
        print(line)
