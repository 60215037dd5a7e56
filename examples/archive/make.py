#!/usr/bin/env python3
"""Makes an archive of accounts, and the answer that a run over it has to give.

    python3 examples/archive/make.py FOLDER [ROWS]

FOLDER gets two files of rows, the metadata of two versions, versions.txt, and answer.json. The
package scaleview isn't used: the bytes of accounts are packed here, and the answer is what was
packed.
"""

from __future__ import annotations

import hashlib
import json
import pathlib
import random
import struct
import sys
from typing import Any, Dict, Iterator, List, NamedTuple, Tuple

CHAIN = pathlib.Path(__file__).resolve().parent.parent / "chain"
ROWS = 1_000_000
ROWS_OF_A_BLOCK = 10
# One row of so many is spoilt.
SPOILT = 997
# The hashes of "System" and "Account", with which the keys of accounts begin.
PREFIX = bytes.fromhex("26aa394eea5630e07c48ae0c9558cef7b99d880ec681799c0cf30e8886371da9")
SUFFICIENTS = b"\x01\x2csufficients\x04\x01\x20RefCount\x00"
FIVE_FIELDS, FOUR_FIELDS = b"\x14\x01\x14nonce", b"\x10\x01\x14nonce"


class Account(NamedTuple):
    """An account of the newer version. The older one has no `sufficients`."""

    nonce: int
    consumers: int
    providers: int
    sufficients: int
    free: int
    reserved: int
    frozen: int
    flags: int

    def packed(self, is_old: bool) -> bytes:
        counters = self[: 3 if is_old else 4]
        balances = b"".join(balance.to_bytes(16, "little") for balance in self[4:])
        return struct.pack(f"<{len(counters)}I", *counters) + balances


class Row(NamedTuple):
    """A row as it is written, and what is expected of it."""

    line: str
    #: The field, the reason and the place of a row that is spoilt, or None.
    error: Any


def old_metadata(new: bytes) -> bytes:
    """The metadata before accounts had `sufficients`."""
    assert new.count(SUFFICIENTS) == 1 and new.count(FIVE_FIELDS) == 1
    return new.replace(SUFFICIENTS, b"").replace(FIVE_FIELDS, FOUR_FIELDS)


def key_of(owner: bytes) -> str:
    return "0x" + (PREFIX + hashlib.blake2b(owner, digest_size=16).digest() + owner).hex()


def line_of(block: int, key: str, value: str) -> str:
    return f'{{"block": {block}, "key": "{key}", "value": "{value}"}}'


def spoilt(kind: int, block: int, key: str, value: str, other: str) -> Row:
    """A row that is spoilt in one of several ways. `other` has the layout of the other version."""
    size, other_size = len(value) // 2 - 1, len(other) // 2 - 1
    wrong_layout = "Truncated" if other_size < size else "TrailingBytes"
    ways: List[Tuple[str, Any]] = [
        (line_of(block, key, value[:-2]), ("value", "Truncated", size - 1)),
        (line_of(block, key, value + "00"), ("value", "TrailingBytes", size)),
        (line_of(block, key, value[:-1]), ("value", "OddHex", 2 * size + 1)),
        (line_of(block, key, value[:20] + "g" + value[21:]), ("value", "BadHex", 20)),
        (line_of(block, key, other), ("value", wrong_layout, min(size, other_size))),
        (line_of(block, key[:-2], value), ("key", "Truncated", 79)),
        (f'{{"block": {block}, "key": "{key}"}}', ("value", "NoField", None)),
        ("this isn't JSON", (None, "NotJson", 0)),
        (f"[{line_of(block, key, value)}]", (None, "NotObject", None)),
    ]
    return Row(*ways[kind % len(ways)])


def account_of(chance: random.Random) -> Account:
    low, high = chance.getrandbits(64), chance.getrandbits(128)
    counters = (low & 0xFFFFF, low >> 20 & 7, low >> 24 & 0xFFFF, low >> 40 & 3)
    return Account(*counters, high >> 40, high & 0xFFFF, low, 1 << 127)


def rows_of(count: int, sums: Dict[str, int]) -> Iterator[Row]:
    """The rows of the archive. The first half of the blocks has the older version."""
    chance = random.Random(79)
    border = first_new_block(count)
    for at in range(count):
        block, account = at // ROWS_OF_A_BLOCK, account_of(chance)
        owner = hashlib.blake2b(at.to_bytes(8, "little"), digest_size=32).digest()
        is_old = block < border
        key, value = key_of(owner), "0x" + account.packed(is_old).hex()
        if at % SPOILT == SPOILT // 2:
            yield spoilt(at // SPOILT, block, key, value, "0x" + account.packed(not is_old).hex())
            continue
        sums["old rows" if is_old else "new rows"] += 1
        sums["blocks"] += block
        sums["owners"] += int.from_bytes(owner[:4], "big")
        for name, number in zip(Account._fields, account):
            sums[name] += 0 if is_old and name == "sufficients" else number
        yield Row(line_of(block, key, value), None)


def first_new_block(count: int) -> int:
    return count // ROWS_OF_A_BLOCK // 2 + 1


def make(folder: pathlib.Path, count: int) -> None:
    """Writes the archive and the answer."""
    folder.mkdir(parents=True, exist_ok=True)
    new, border = (CHAIN / "chain.metadata").read_bytes(), first_new_block(count)
    (folder / "new.metadata").write_bytes(new)
    (folder / "old.metadata").write_bytes(old_metadata(new))
    (folder / "versions.txt").write_text(f"# first last file\n0 {border - 1} old.metadata\n")
    sums = dict.fromkeys(["old rows", "new rows", "blocks", "owners", *Account._fields], 0)
    errors: List[List[Any]] = []
    rows = rows_of(count, sums)
    # The second file begins inside of a block and of the older version.
    for name, its in (("first.jsonl", count // 3), ("second.jsonl", count - count // 3)):
        with open(folder / name, "w", encoding="ascii") as file:
            for number, row in zip(range(1, its + 1), rows):
                file.write(row.line + "\n")
                if row.error:
                    errors.append([name, number, *row.error])
    answer = {"rows": count, "errors": errors, "sums": sums}
    (folder / "answer.json").write_text(json.dumps(answer) + "\n")


if __name__ == "__main__":
    if len(sys.argv) not in (2, 3):
        sys.exit("usage: make.py FOLDER [ROWS]")
    make(pathlib.Path(sys.argv[1]), int(sys.argv[2]) if len(sys.argv) == 3 else ROWS)
