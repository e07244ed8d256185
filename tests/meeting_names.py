#!/usr/bin/python3
"""Names of siblings that meet in one place of the index of names, under one known key.

    tests/meeting_names.py > tests/meeting_names.txt    searches them: some minutes

A model of how crates/bw_tree finds a group: the key of a path at a seed, the hash of the kit's
table, and the table itself. Names that meet have the same first group of lanes and the same tag,
so each look-up compares with each name before it.
"""
import string
import sys
from collections.abc import Iterator
from pathlib import Path

FILE = Path(__file__).with_suffix(".txt")
# Each random byte of the process whose key is known.
KNOWN_BYTE = 0
NUMBER = 2250
WORD = 2**64 - 1
# The greatest prime below 2^32.
PRIME = 4294967291
# The low bits choose the first group of a table of 256 groups, the high ones are the tag.
PLACE = 0xFF0000FF
DIGITS = string.digits + string.ascii_lowercase
LANES, LOAD = 12, 9


def rotated(word: int, bits: int) -> int:
    """A word of 64 bits, rotated to the left."""
    return (word << bits | word >> (64 - bits)) & WORD


def siphash(key: int, text: bytes) -> int:
    """SipHash-1-3 of a text of less than 8 bytes, under two keys that are the same."""
    first = (0x736F6D6570736575, 0x646F72616E646F6D, 0x6C7967656E657261, 0x7465646279746573)
    v0, v1, v2, v3 = (key ^ word for word in first)
    last = len(text) << 56 | int.from_bytes(text, "little")
    for before, after in ((last, last), (0, 0), (0, 0), (0, 0)):
        v3 ^= before
        v0, v2 = (v0 + v1) & WORD, (v2 + v3) & WORD
        v1, v3 = rotated(v1, 13) ^ v0, rotated(v3, 16) ^ v2
        v0 = rotated(v0, 32)
        v2, v0 = (v2 + v1) & WORD, (v0 + v3) & WORD
        v1, v3 = rotated(v1, 17) ^ v2, rotated(v3, 21) ^ v0
        v2 = rotated(v2, 32)
        v0 ^= after
        v2 ^= 0xFF if after else 0
    return v0 ^ v1 ^ v2 ^ v3


def seed_of(byte: int) -> int:
    """The seed of a tree whose random bytes are all the same."""
    return siphash(int.from_bytes(bytes([byte] * 8), "little"), b"\xff") % PRIME


def value_with(seed: int, value: int, word: int) -> int:
    """The value of a polynomial at a seed, with one more coefficient."""
    return (value * seed + word) % PRIME


def words_of(path: str) -> list[int]:
    """The coefficients of a path: its words of four bytes, and the last bytes after a one."""
    text = path.encode()
    words = [text[at:at + 4] for at in range(0, len(text) - 3, 4)]
    last = b"\x01" + text[4 * len(words):]
    return [int.from_bytes(word, "big") for word in [*words, last]]


def key_of(seed: int, path: str) -> int:
    """The key of a path."""
    value = 1
    for word in [*words_of(path), 0]:
        value = value_with(seed, value, word)
    return value


def hash_of(key: int) -> int:
    """The 32 bits by which the table places a key."""
    product = (0x243F6A8885A308D3 ^ key) * (0x9E3779B97F4A7C15 ^ 16)
    state = product & WORD ^ product >> 64
    return (state ^ state >> 32) & 0xFFFFFFFF


def name_of(number: int) -> str:
    """A name of seven letters: `n` and six digits to the base 36."""
    return "n" + "".join(DIGITS[number // 36**place % 36] for place in range(5, -1, -1))


def meeting(seed: int) -> Iterator[str]:
    """The names, in order, that meet the first one at a seed."""
    place = hash_of(key_of(seed, name_of(0))) & PLACE
    ends = [(name_of(number)[4:], words_of(name_of(number))[1]) for number in range(36**3)]
    for number in range(36**3):
        stem = name_of(number * 36**3)
        before = value_with(seed, 1, words_of(stem)[0])
        for end, last in ends:
            key = value_with(seed, value_with(seed, before, last), 0)
            if hash_of(key) & PLACE == place:
                yield stem[:4] + end


class Table:
    """The kit's index of a hash map: groups of 12 lanes, of which on average 9 are taken.

    `steps` counts the groups that are looked at and the entries that are compared.
    """

    def __init__(self) -> None:
        self.groups: list[list[int]] = []
        # Tags of hashes that found a group full, by their five low bits.
        self.passed: list[set[int]] = []
        self.hashes: list[int] = []
        self.steps = 0

    def look_up(self, hashed: int) -> None:
        """Looks for an entry that is not there, or for the last one with this hash."""
        at, tag = hashed % len(self.groups), max(1, hashed >> 24)
        while True:
            self.steps += 1 + self.groups[at].count(tag)
            if tag % 32 not in self.passed[at]:
                return
            at = (at + 1) % len(self.groups)

    def put(self, hashed: int) -> None:
        """Stores a hash at the first free lane."""
        at, tag = hashed % len(self.groups), max(1, hashed >> 24)
        self.steps += 1
        while len(self.groups[at]) == LANES:
            self.passed[at].add(tag % 32)
            at = (at + 1) % len(self.groups)
            self.steps += 1
        self.groups[at].append(tag)

    def add(self, hashed: int) -> None:
        """Looks a new name up, and adds it. A full table doubles."""
        if len(self.hashes) == LOAD * len(self.groups):
            count = max(1, 2 * len(self.groups))
            self.groups = [[] for _ in range(count)]
            self.passed = [set() for _ in range(count)]
            for each in self.hashes:
                self.put(each)
        self.look_up(hashed)
        self.put(hashed)
        self.hashes.append(hashed)


def steps(names: list[str], byte: int) -> int:
    """The steps of the table in which siblings are made, and each is looked up."""
    seed, table = seed_of(byte), Table()
    hashes = [hash_of(key_of(seed, name)) for name in names]
    for hashed in hashes:
        table.add(hashed)
    for hashed in hashes:
        table.look_up(hashed)
    return table.steps


def main() -> None:
    """Prints the names."""
    for at, name in enumerate(meeting(seed_of(KNOWN_BYTE)), 1):
        print(name)
        if at % 50 == 0:
            print(f"meeting_names: {at} of {NUMBER}", file=sys.stderr)
        if at == NUMBER:
            return


if __name__ == "__main__":
    main()
