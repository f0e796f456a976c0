"""Writes an example: a seal, and the slip of block 2 of its five-block file.

example.py DIR
"""

import os
import sys

import reference
import samples


def write(folder, name, data):
    """Writes one file of the example."""
    with open(os.path.join(folder, name), "wb") as file:
        file.write(data)


def main(folder):
    """Writes both files."""
    kind, count, number = 1, 5, 2
    blocks = samples.blocks(count)
    tree = reference.Tree(kind, blocks)
    os.makedirs(folder, exist_ok=True)
    write(folder, "seal", reference.seal(kind, count, tree.root()))
    write(folder, "slip", reference.slip(kind, count, number, blocks[number], tree.path(number)))


if __name__ == "__main__":
    if len(sys.argv) != 2:
        sys.exit("usage: example.py DIR")
    main(sys.argv[1])
