"""Prints the commands for the program `trials`, or the replies that it must give.

    trials.py commands | replies

There is a reply for each command; crates/trials/src/main.rt says what the commands are.
"""

import sys

import commands
import reference
import samples
import stores

MOST_BYTES = 2**23
MOST_RECORD = 2**16

# Each part of this size is hashed together with the digest before it.
PART = 65536


class Odd(Exception):
    """A line that is no command."""


def number(word, most):
    """A word as a number up to `most`."""
    if not (word.isascii() and word.isdigit()) or int(word) > most:
        raise Odd("unknown")
    return int(word)


def read_place(words):
    """Words as a place."""
    match words:
        case ["b", block]:
            return "b", number(block, 2**32 - 1)
        case ["n", level, node]:
            if number(level, 255) > stores.TOP_LEVEL:
                raise Odd("no such level")
            return "n", int(level), number(node, 2**32 - 1)
    raise Odd("unknown")


def fingerprint(data):
    """The first eight bytes of the last digest of a chain over the parts."""
    last = bytes(reference.DIGEST_SIZE)
    for at in range(0, len(data), PART):
        last = reference.digest(reference.SHA_256, data[at : at + PART] + last)
    return last[:8].hex()


class Desk:
    """The bytes, the spare bytes and the store over them; follows one command after another."""

    def __init__(self):
        self.data, self.spare = b"", b""
        self.store = None

    def reply(self, line):
        """Does what the line says, and gives the reply."""
        try:
            return (self.order if self.store is None else self.ask)(line.split())
        except (Odd, stores.Refused) as refused:
            return str(refused)

    def order(self, words):
        """A command without a store."""
        match words:
            case ["zeros", length]:
                self.data = bytes(number(length, MOST_BYTES))
            case ["pattern", length]:
                self.data = samples.pattern(0, number(length, MOST_BYTES))
            case ["set", at, value]:
                self.set(number(at, len(self.data) - 1), number(value, 255))
            case ["swap"]:
                self.data, self.spare = self.spare, self.data
            case ["open", used]:
                return self.open(number(used, 2**64 - 1))
            case _:
                self.store = self.made(words)
        return "ok"

    def set(self, at, value):
        """Changes a byte."""
        self.data = self.data[:at] + bytes([value]) + self.data[at + 1 :]

    def open(self, used):
        """Makes a log of the bytes; where they are refused, the empty one."""
        try:
            self.store = stores.Log(self.data, used)
        except reference.Refusal as refusal:
            self.store = stores.Log(self.data)
            return str(refusal)
        return "ok"

    def made(self, words):
        """The store that the words name."""
        match words:
            case ["flat"]:
                return stores.Flat(self.data)
            case ["log"]:
                return stores.Log(self.data)
            case ["rewind", "flat" | "log" as below]:
                return stores.Rewind(self.made([below]))
            case ["split", "log", "flat"]:
                return stores.Split(stores.Log(self.data), stores.Flat(self.spare))
            case ["split", "flat", "log"]:
                return stores.Split(stores.Flat(self.data), stores.Log(self.spare))
            case ["split", "flat", "flat"]:
                return stores.Split(stores.Flat(self.data), stores.Flat(self.spare))
        raise Odd("unknown")

    def ask(self, words):
        """A command to the store."""
        match words:
            case ["span"]:
                return str(self.store.span)
            case ["room"]:
                return str(self.store.room)
            case ["get", *place, length]:
                record = self.store.get(read_place(place), number(length, MOST_RECORD))
                return f"ok {fingerprint(record)}"
            case ["put", *place, length, start]:
                place, length = read_place(place), number(length, MOST_RECORD)
                self.store.put(place, samples.pattern(number(start, 2**32 - 1), length))
                return "ok"
            case ["back"]:
                return self.back()
        raise Odd("unknown")

    def back(self):
        """Takes the bytes back."""
        parts, self.store = self.store.parts, None
        self.data = bytes(parts[0].data)
        if len(parts) == 2:
            self.spare = bytes(parts[1].data)
        return ", ".join(described(part) for part in parts)


def described(part):
    """The bytes of a store, in short."""
    said = f"{len(part.data)} {fingerprint(part.data)}"
    if isinstance(part, stores.Log):
        return f"log {said} used {part.used}"
    return f"flat {said}"


def main(words):
    """The command."""
    if words not in (["commands"], ["replies"]):
        print("usage: trials.py commands | replies", file=sys.stderr)
        return 2
    desk = Desk()
    for line in commands.lines():
        print(line if words == ["commands"] else desk.reply(line))
    return 0


if __name__ == "__main__":
    sys.exit(main(sys.argv[1:]))
