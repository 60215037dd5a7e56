"""Compares three ways to Python values, in microseconds a value and the best of several runs:

- `decode`, and for comparison `decode_json` and `encode`;
- `json.loads` of the text that `decode_json` makes, which is there beforehand;
- decoders by hand with `struct`: one for accounts, and one that turns the types of a registry into closures.

Then it compares values of a chain by the position of their type and by their name.

    PYTHONPATH=clients/out/python python3 clients/python/bench.py
"""

from __future__ import annotations

import json
import pathlib
import struct
import timeit
from typing import Any, Callable, Dict, Iterator, List, Tuple

from scaleview import Arm, Field, Metadata, Registry, Type, Variant

EXAMPLES = pathlib.Path(__file__).resolve().parents[2] / "examples"
ACCOUNT = struct.Struct("<IIIIQQQQQQQQ")


def account_by_hand(data: bytes) -> Dict[str, Any]:
    if len(data) != ACCOUNT.size:
        raise ValueError("the length is wrong")
    nonce, consumers, providers, sufficients, *halves = ACCOUNT.unpack(data)
    free, reserved, frozen, flags = (low | high << 64 for low, high in zip(halves[::2], halves[1::2]))
    balances = {"free": free, "reserved": reserved, "frozen": frozen, "flags": flags}
    return {"nonce": nonce, "consumers": consumers, "providers": providers, "sufficients": sufficients, "data": balances}


Reader = Callable[[bytes, int], Tuple[Any, int]]
FORMATS = dict(zip("u8 u16 u32 u64 i8 i16 i32 i64 bool".split(), "<B <H <I <Q <b <h <i <q <?".split()))


def read_compact(data: bytes, at: int) -> Tuple[int, int]:
    first = data[at]
    mode = first & 3
    if mode == 0:
        return first >> 2, at + 1
    if mode == 1:
        return (first | data[at + 1] << 8) >> 2, at + 2
    if mode == 2:
        return int.from_bytes(data[at : at + 4], "little") >> 2, at + 4
    end = at + 5 + (first >> 2)
    return int.from_bytes(data[at + 1 : end], "little"), end


class ByHand:
    """A decoder of all types, without most of the checks that `decode` makes. A type is looked at once."""

    def __init__(self, registry: Registry) -> None:
        self.types = registry.types
        self.readers: Dict[int, Reader] = {}

    def reader(self, type_id: int) -> Reader:
        if type_id not in self.readers:
            self.readers[type_id] = lambda data, at: self.readers[type_id](data, at)
            self.readers[type_id] = self.make(self.types[type_id])
        return self.readers[type_id]

    def make(self, found: Type) -> Reader:
        if found.size_class == "Empty":
            return lambda data, at: (None, at)
        if found.kind in FORMATS:
            return self.number(struct.Struct(FORMATS[found.kind]))
        if found.kind == "variant":
            return self.variant(found.variants)
        if found.kind in ("composite", "tuple"):
            return self.fields(found.fields, tuple)
        if found.kind == "compact":
            return read_compact
        if found.kind == "str":
            return self.run(read_compact, bytes.decode)
        if found.kind in ("u128", "u256"):
            return self.wide(int(found.kind[1:]) // 8)
        length: Reader = read_compact if found.kind == "sequence" else lambda data, at: (found_length, at)
        found_length, element = found.length, self.types[found.element or 0]
        return self.run(length, bytes) if element.kind == "u8" else self.items(length, self.reader(element.id))

    def number(self, form: struct.Struct) -> Reader:
        unpack, size = form.unpack_from, form.size
        return lambda data, at: (unpack(data, at)[0], at + size)

    def wide(self, size: int) -> Reader:
        return lambda data, at: (int.from_bytes(data[at : at + size], "little"), at + size)

    def run(self, length: Reader, made: Callable[[bytes], Any]) -> Reader:
        def read(data: bytes, at: int) -> Tuple[Any, int]:
            count, at = length(data, at)
            return made(data[at : at + count]), at + count

        return read

    def items(self, length: Reader, element: Reader) -> Reader:
        def read(data: bytes, at: int) -> Tuple[Any, int]:
            count, at = length(data, at)
            items = []
            for _ in range(count):
                item, at = element(data, at)
                items.append(item)
            return items, at

        return read

    def fields(self, fields: List[Field], unnamed: Callable[[List[Any]], Any]) -> Reader:
        names, readers = [field.name for field in fields], [self.reader(field.type) for field in fields]
        are_named = bool(names) and None not in names and len(set(names)) == len(names)

        def read(data: bytes, at: int) -> Tuple[Any, int]:
            values = []
            for reader in readers:
                value, at = reader(data, at)
                values.append(value)
            return dict(zip(names, values)) if are_named else unnamed(values), at

        return read

    def variant(self, arms: List[Arm]) -> Reader:
        by_index = {arm.index: (arm.name, self.fields(arm.fields, list)) for arm in arms}

        def read(data: bytes, at: int) -> Tuple[Any, int]:
            name, fields = by_index[data[at]]
            values, at = fields(data, at + 1)
            return Variant(name, values), at

        return read


def microseconds(call: Callable[[], object]) -> float:
    timer = timeit.Timer(call)
    number = max(1, timer.autorange()[0] // 10)
    return min(timer.repeat(20, number)) / number * 1e6


def rows(folder: str, name: str) -> List[Tuple[str, float]]:
    path = EXAMPLES / folder
    is_runtime = folder == "runtime"
    registry = Registry((path / ("metadata.scale" if is_runtime else "registry.scale")).read_bytes())
    type_id = int(dict(line.split() for line in (path / "values.txt").read_text().splitlines())[name])
    data = (path / f"{name}.scale").read_bytes()
    value, text = registry.decode(type_id, data), registry.decode_json(type_id, data)
    many = [data] * 100
    reader = ByHand(registry).reader(type_id)
    by_hand = (lambda: reader(data, 0)[0]) if is_runtime else (lambda: account_by_hand(data))
    assert by_hand() == reader(data, 0)[0] == value
    calls: Dict[str, Callable[[], object]] = {
        "decode": lambda: registry.decode(type_id, data),
        "json.loads of the text": lambda: json.loads(text),
        "by hand with struct": by_hand,
        "decode_json": lambda: registry.decode_json(type_id, data),
        "encode": lambda: registry.encode(type_id, value),
    }
    times = [(what, microseconds(call)) for what, call in calls.items()]
    return [*times, ("decode_many, each", microseconds(lambda: registry.decode_many(type_id, many)) / len(many))]


def show_rows(times: List[Tuple[str, float]]) -> None:
    for what, time in times:
        print(f"  {what:24}{time:10.2f}")


def side_by_side(calls: Dict[str, Callable[[], object]]) -> List[Tuple[str, float]]:
    """The best time of each call, taken in turns, since the machine's speed changes meanwhile."""
    timers = {what: timeit.Timer(call) for what, call in calls.items()}
    number = max(1, next(iter(timers.values())).autorange()[0] // 20)
    best = {what: float("inf") for what in calls}
    for _ in range(200):
        for what, timer in timers.items():
            best[what] = min(best[what], timer.timeit(number) / number * 1e6)
    return list(best.items())


def named_rows() -> Iterator[Tuple[str, List[Tuple[str, float]]]]:
    metadata = Metadata((EXAMPLES / "chain" / "chain.metadata").read_bytes())
    account, events = metadata.storage["System.Account"], metadata.storage["System.Events"]
    extrinsic = metadata.type_of("extrinsic")
    stored = (EXAMPLES / "runtime" / "account_info.scale").read_bytes()
    block = (EXAMPLES / "runtime" / "events_block.scale").read_bytes()
    transfer = (EXAMPLES / "chain" / "transfer.scale").read_bytes()
    position = int(account)
    yield "an account", side_by_side({
        "by position": lambda: metadata.decode(position, stored),
        "by its entry": lambda: account.decode(stored),
        "looked up each time": lambda: metadata.storage["System.Account"].decode(stored),
    })
    event_type = int(events)
    yield "a block's events", side_by_side({
        "by position": lambda: metadata.decode(event_type, block),
        "by its entry": lambda: events.decode(block),
        "events": lambda: metadata.events(block),
    })
    extrinsic_type = int(extrinsic)
    yield "an extrinsic", side_by_side({
        "by position": lambda: metadata.decode(extrinsic_type, transfer, opaque=True),
        "by its type": lambda: extrinsic.decode(transfer, opaque=True),
        "extrinsic": lambda: metadata.extrinsic(transfer),
    })


def main() -> None:
    for folder, name in (("account", "account"), ("runtime", "events_block")):
        size = (EXAMPLES / folder / f"{name}.scale").stat().st_size
        print(f"{folder}/{name}, {size} bytes")
        show_rows(rows(folder, name))
    for what, named in named_rows():
        print(what)
        show_rows(named)


if __name__ == "__main__":
    main()
