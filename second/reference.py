"""Seals and slips, written a second time from the rules alone.

The tree is that of RFC 6962, section 2.1, over blocks of 1,024 bytes.
Nothing here is shared with the crates.
"""

import hashlib

BLOCK_SIZE = 1024
DIGEST_SIZE = 32
MOST_BLOCKS = 4096

SHA_256 = 1
SHA3_256 = 2
HASHES = {SHA_256: hashlib.sha256, SHA3_256: hashlib.sha3_256}


class Refusal(Exception):
    """A refusal with its number and its place."""

    def __init__(self, number, place=0):
        super().__init__(f"refused {number} at {place}")


# Digests and the tree


def digest(kind, data):
    """The digest of data by the hash of this kind."""
    return HASHES[kind](data).digest()


def leaf(kind, block):
    """The digest of a block's leaf string."""
    return digest(kind, b"\x00" + block)


def node(kind, left, right):
    """The digest of the node string over two digests."""
    return digest(kind, b"\x01" + left + right)


def split(count):
    """The largest power of two below count (count is 2 or more)."""
    return 1 << ((count - 1).bit_length() - 1)


class Tree:
    """The tree over some blocks; each root of a part is worked out once."""

    def __init__(self, kind, blocks):
        self.kind = kind
        self.count = len(blocks)
        self.leaves = [leaf(kind, block) for block in blocks]
        self.known = {}

    def root(self, start=0, count=None):
        """The root over count blocks from start on (over all of them if no count is given)."""
        count = self.count if count is None else count
        if count == 0:
            return digest(self.kind, b"")
        if count == 1:
            return self.leaves[start]
        part = (start, count)
        if part not in self.known:
            k = split(count)
            left, right = self.root(start, k), self.root(start + k, count - k)
            self.known[part] = node(self.kind, left, right)
        return self.known[part]

    def path(self, number):
        """The audit path of a block, lowest sibling first."""
        siblings = []
        start, count = 0, self.count
        while count > 1:
            k = split(count)
            if number < start + k:
                siblings.append(self.root(start + k, count - k))
                count = k
            else:
                siblings.append(self.root(start, k))
                start, count = start + k, count - k
        return siblings[::-1]


def path_length(number, count):
    """How many digests the path of block `number` of `count` has."""
    if count == 1:
        return 0
    k = split(count)
    if number < k:
        return 1 + path_length(number, k)
    return 1 + path_length(number - k, count - k)


def root_from_path(kind, number, count, block, path):
    """The root that block and path lead to; None where the path is too short or too long.

    It goes up from the leaf by the digits of the number and of the last
    block's number, as RFC 9162, section 2.1.3.2, does.
    """
    here, last = number, count - 1
    value = leaf(kind, block)
    for sibling in path:
        if last == 0:
            return None
        if here & 1 or here == last:
            value = node(kind, sibling, value)
            while here and not here & 1:
                here, last = here >> 1, last >> 1
        else:
            value = node(kind, value, sibling)
        here, last = here >> 1, last >> 1
    return value if last == 0 else None


# Seals and slips as bytes


def field(tag, content):
    """A tagged field: tag, two-byte length, content."""
    return bytes([tag]) + len(content).to_bytes(2, "big") + content


def seal(kind, count, root):
    """The bytes of a seal."""
    return field(1, bytes([kind])) + field(2, count.to_bytes(4, "big")) + field(3, root)


def slip(kind, count, number, block, path):
    """The bytes of a slip."""
    return b"".join(
        [
            field(1, bytes([kind])),
            field(2, count.to_bytes(4, "big")),
            field(4, number.to_bytes(4, "big")),
            field(5, block),
            field(6, b"".join(path)),
        ]
    )


def fields(data):
    """Gives (place, tag, content) of each field, read by its own length, one after the other.

    Where no whole field stands, at the end or before it, the tag is None and nothing follows.
    """
    place = 0
    while True:
        size = int.from_bytes(data[place + 1 : place + 3], "big")
        after = place + 3 + size
        if after > len(data):
            yield place, None, b""
            return
        yield place, data[place], data[place + 3 : after]
        place = after


class Form:
    """Holds the fields of some bytes to the form that is wanted, in order."""

    def __init__(self, data, refusal):
        self.size = len(data)
        self.fields = fields(data)
        self.refusal = refusal

    def content(self, tag, size, is_good=lambda content: True):
        """The content of the next field, which is to have this tag and size and a good value."""
        place, found, content = next(self.fields)
        if found != tag or len(content) != size or not is_good(content):
            raise Refusal(self.refusal, place)
        return content

    def number(self, tag, size, is_good):
        """The same for a field that holds a number."""
        content = self.content(tag, size, lambda content: is_good(int.from_bytes(content, "big")))
        return int.from_bytes(content, "big")

    def end(self):
        """After the last field no byte is left."""
        place, _, _ = next(self.fields)
        if place != self.size:
            raise Refusal(self.refusal, place)


def read_seal(data):
    """The kind, count and root of a seal; refusal 20, always at 0, if it is not a sound one."""
    form = Form(data, 20)
    try:
        kind = form.number(1, 1, lambda kind: kind in HASHES)
        count = form.number(2, 4, lambda count: count <= MOST_BLOCKS)
        root = form.content(3, DIGEST_SIZE, lambda root: count > 0 or root == digest(kind, b""))
        form.end()
    except Refusal:
        raise Refusal(20) from None
    return kind, count, root


def read_slip(data):
    """The kind, count, number, block and path of a slip; refusal 30 at the first bad field."""
    form = Form(data, 30)
    kind = form.number(1, 1, lambda kind: kind != 0)
    count = form.number(2, 4, lambda count: 1 <= count <= MOST_BLOCKS)
    number = form.number(4, 4, lambda number: number < count)
    block = form.content(5, BLOCK_SIZE)
    joined = form.content(6, DIGEST_SIZE * path_length(number, count))
    form.end()
    path = [joined[at : at + DIGEST_SIZE] for at in range(0, len(joined), DIGEST_SIZE)]
    return kind, count, number, block, path


def check(seal_bytes, slip_bytes):
    """The line that slipcheck prints for this seal and this slip, without its line end."""
    try:
        kind, count, root = read_seal(seal_bytes)
        slip_kind, slip_count, number, block, path = read_slip(slip_bytes)
        if (slip_kind, slip_count) != (kind, count):
            raise Refusal(31)
        if root_from_path(kind, number, count, block, path) != root:
            raise Refusal(32)
    except Refusal as refusal:
        return str(refusal)
    return f"accepted {number} of {count}"
