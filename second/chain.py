"""Prints what the program `speed` must write: for each hash, the last digest of a chain.

Each of 1,024 parts of 65,536 bytes is hashed together with the digest before it.
"""

import reference

TURNS = 1024
PART = b"\x5a" * 65536


def chained(kind):
    """The last digest of the chain."""
    last = bytes(reference.DIGEST_SIZE)
    for _ in range(TURNS):
        last = reference.digest(kind, PART + last)
    return last


if __name__ == "__main__":
    for name, kind in (("sha256", reference.SHA_256), ("sha3", reference.SHA3_256)):
        print(name, chained(kind).hex())
