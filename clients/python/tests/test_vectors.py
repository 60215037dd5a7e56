"""Checks the tables of test vectors: each registry's answer and types, each value whole, in pieces, as JSON, and back from
its Python value, and what metadata names."""

from __future__ import annotations

import json
import pathlib
import re
import sys
import threading
import unittest
from typing import Any, Iterator, NamedTuple, Optional

from scaleview import Arm, Bits, Decoder, Empties, Metadata, Refused, Registry, Type, Variant

TABLES = pathlib.Path(__file__).resolve().parents[3] / "crates" / "vectors" / "data"


def rows_of(table: str) -> Iterator[list[str]]:
    text = (TABLES / table).read_bytes().decode()
    return (line.split("\t") for line in text.split("\n") if line and not line.startswith("#"))


def bytes_of(column: str) -> bytes:
    return b"" if column == "-" else bytes.fromhex(column)


def metadata_of(name: str) -> bytes:
    """The metadata of this name."""
    return next(bytes_of(row[1]) for row in rows_of("metadata.tsv") if row[0] == name)


def told(refused: Refused) -> str:
    """The refusal in the words of the tables."""
    if refused.code == 112:
        return f"{refused.reason} {refused.to_type} in type {refused.from_type}"
    return refused.reason if refused.place is None else f"{refused.reason} at {refused.place}"


class Value(NamedTuple):
    type_id: int
    depth: int
    limit: int
    data: bytes
    answer: str
    held: tuple[int, int, int]
    json: str

    def ends(self) -> str:
        """What a decoder of the bytes ends with: the value's JSON, or the refusal."""
        return {"Done": self.json, "More": f"Truncated at {len(self.data)}"}.get(self.answer, self.answer)

    def whole(self) -> str:
        """The same where no byte may follow the value."""
        taken = self.held[0]
        return f"TrailingBytes at {taken}" if self.answer == "Done" and taken < len(self.data) else self.ends()


def value_of(row: list[str]) -> Value:
    taken, nodes, texts = map(int, row[7:10])
    return Value(int(row[2]), int(row[3]), int(row[4]), bytes_of(row[5]), row[6], (taken, nodes, texts), row[10])


def wraps(found: Type) -> str:
    """The primitive that a compact wraps, or the kind of what it wraps otherwise."""
    types = found.registry.types
    while found.kind in ("compact", "composite", "tuple") and (found.kind == "compact" or found.fields):
        found = types[found.fields[0].type if found.element is None else found.element]
    return found.kind


def shown_fields(value: Any, fields: list[Any], types: Any) -> Any:
    names = [field.name for field in fields]
    if isinstance(value, dict):
        assert list(value) == names
        found = {field.name: shown(value[field.name], types[field.type]) for field in fields}
        return dict(sorted(found.items(), key=lambda item: str(item[0]).encode()))
    assert None in names or len(set(names)) < len(names) or not names
    return [shown(item, types[field.type]) for item, field in zip(value, fields)]


def shown(value: Any, found: Type) -> Any:
    """What JSON stands for a Python value of this type."""
    types, kind = found.registry.types, found.kind
    if value is None:
        assert found.size_class == "Empty"
        return None
    if isinstance(value, Empties):
        return {"count": len(value)}
    if isinstance(value, Bits):
        assert kind == "bitsequence"
        return str(value)
    if isinstance(value, bytes):
        assert kind in ("sequence", "array") and found.element is not None and types[found.element].kind == "u8"
        return "0x" + value.hex()
    if isinstance(value, Variant):
        assert kind == "variant" and isinstance(value.fields, (dict, list))
        arms = [arm for arm in found.variants if arm.name == value.name and fits(value.fields, arm)]
        return {value.name: shown_fields(value.fields, arms[0].fields, types)}
    if kind in ("composite", "tuple"):
        assert type(value) in (dict, tuple)
        return shown_fields(value, found.fields, types)
    if isinstance(value, list):
        assert kind in ("sequence", "array") and found.element is not None
        element = types[found.element]
        return [shown(item, element) for item in value]
    wrapped = wraps(found)
    assert type(value) is {"bool": bool, "str": str, "char": str}.get(wrapped, int)
    if wrapped in ("u256", "i256"):
        return "0x" + value.to_bytes(32, "big", signed=wrapped == "i256").hex()
    return str(value) if wrapped in ("u128", "i128") else value


def fits(fields: Any, arm: Arm) -> bool:
    return len(fields) == len(arm.fields) and (not isinstance(fields, dict) or list(fields) == [f.name for f in arm.fields])


def dumped(value: Any) -> str:
    # What `json.dumps` calls has a limit of its own since Python 3.12.
    return "".join(json.JSONEncoder(ensure_ascii=False, separators=(",", ":")).iterencode(value))


class Vectors(unittest.TestCase):
    encoded = 0

    def check_registry(self, row: list[str]) -> None:
        _, prefix, digits, read, check, lines = row
        data, end = bytes_of(digits), read.split(" ")[0]
        refusal = "" if check.startswith("W") else check
        if not end.isdigit():
            refusal = read
        elif prefix == "none" and int(end) < len(data):
            refusal = f"TrailingBytes at {end}"
        try:
            registry = Registry(data, metadata=prefix == "metadata")
            self.assertEqual(refusal, "")
            self.assertEqual(" / ".join(str(found) for found in registry.types) or "-", lines)
            self.check_types(registry)
        except Refused as refused:
            self.assertEqual(told(refused), refusal)

    def check_types(self, registry: Registry) -> None:
        for found in registry.types:
            self.assertEqual(str(found), f"{found.id} {found.size_class} {found.kind} {json_text(found.path)}")
            self.assertEqual(found in registry.find_all(found.path), found.path != "")
            self.assertEqual(registry.find_all(found.path)[:1], [registry.find(found.path)] if found.path else [])
            for field in (*found.fields, *(field for arm in found.variants for field in arm.fields)):
                self.assertLess(field.type, len(registry.types))

    def check_whole(self, registry: Registry, value: Value) -> None:
        numbers = {"depth": value.depth, "limit": value.limit}
        try:
            found = registry.decode_json(value.type_id, value.data, **numbers)
        except Refused as refused:
            found = told(refused)
        self.assertEqual(found, value.whole())
        try:
            decoded = registry.decode(value.type_id, value.data, **numbers)
        except Refused as refused:
            self.assertEqual(told(refused), value.whole())
            return
        self.assertEqual(dumped(shown(decoded, registry.types[value.type_id])), value.whole())
        self.assertEqual(registry.encode(value.type_id, decoded, depth=value.depth), value.data)
        Vectors.encoded += 1

    def check_depth_out_of_range(self, registry: Registry, value: Value) -> None:
        for call in (registry.decode, registry.decode_json):
            with self.assertRaises(OverflowError):
                call(value.type_id, value.data, depth=value.depth)
        with self.assertRaises(OverflowError):
            Decoder(registry, value.type_id, depth=value.depth)

    def check_pieces(self, registry: Registry, value: Value, step: int) -> None:
        try:
            decoder = Decoder(registry, value.type_id, depth=value.depth, limit=value.limit)
            try:
                for at in range(0, max(len(value.data), 1), step):
                    if decoder.feed(value.data[at : at + step]) is not None:
                        break
            except Refused as refused:
                self.assertEqual(told(refused), value.answer)
            self.assertEqual((decoder.taken, decoder.nodes, decoder.text_bytes), value.held)
            found = decoder.finish_json()
            self.assertEqual(dumped(shown(decoder.finish(), registry.types[value.type_id])), found)
        except Refused as refused:
            found = told(refused)
        self.assertEqual(found, value.ends())

    def test_registries(self) -> None:
        for row in rows_of("registries.tsv"):
            with self.subTest(row[0]):
                self.check_registry(row)

    def test_values(self) -> None:
        """On a thread with a stack for the JSON of deep values, and a limit of recursion that lets it."""
        limit, size = sys.getrecursionlimit(), threading.stack_size(1 << 28)
        sys.setrecursionlimit(20_000)
        try:
            thread = threading.Thread(target=self.check_values)
            thread.start()
            thread.join()
        finally:
            sys.setrecursionlimit(limit)
            threading.stack_size(size)
        values = [value_of(row) for table in ("values.tsv", "bits.tsv") for row in rows_of(table)]
        complete = [value for value in values if value.answer == "Done" and value.held[0] == len(value.data)]
        self.assertEqual(Vectors.encoded, len(complete))

    def check_values(self) -> None:
        registries = {row[0]: bytes_of(row[2]) for row in rows_of("registries.tsv")}
        for row in rows_of("values.tsv"):
            with self.subTest(row[0]):
                self.check_value(Registry.raw(registries[row[1]]), value_of(row))
        for row in rows_of("bits.tsv"):
            with self.subTest(row[0]):
                self.check_value(Registry.raw(bytes_of(row[1]), bits=True), value_of(row))

    def check_value(self, registry: Registry, value: Value) -> None:
        if value.depth > 1024:
            self.check_depth_out_of_range(registry, value)
            return
        self.check_whole(registry, value)
        for step in 1, 7, 4096:
            self.check_pieces(registry, value, step)


def json_text(text: str) -> str:
    return json.dumps(text, ensure_ascii=False)


class Line(NamedTuple):
    """A command line that decodes by a name or by an ID."""

    name: str
    has_value: bool
    is_metadata: bool
    bits: bool
    #: What `decode` is given besides.
    options: dict[str, Any]

    def decode(self, file: bytes, value: bytes) -> str:
        """The value's JSON."""
        if self.name.isdigit():
            registry = Registry(file, metadata=self.is_metadata, bits=self.bits)
            return shown_both(registry, int(self.name), value, self.options)
        metadata = Metadata(file, bits=self.bits)
        found = metadata.type_of(self.name)
        return shown_both(metadata, found.id, value if self.has_value else found.data, self.options)


def shown_both(registry: Registry, type_id: int, value: bytes, options: dict[str, Any]) -> str:
    """The value's JSON, which is also that of its Python value."""
    try:
        decoded = registry.decode(type_id, value, **options)
    except Refused as refused:
        decoded = refused
    found = registry.decode_json(type_id, value, **options)
    assert dumped(shown(decoded, registry.types[type_id])) == found
    return found


def line_of(words: list[str]) -> Optional[Line]:
    """What the words after `decode r` ask for, or None if it is more than the package does."""
    name, rest = words[0], iter(words[1:])
    options: dict[str, Any] = {"opaque": name == "extrinsic"}
    flags = {"v": False, "--metadata": False, "--bits": False}
    for word in rest:
        if word in flags:
            flags[word] = True
        elif word == "--opaque":
            options["opaque"] = True
        elif word in ("--depth", "--bytes"):
            options["depth" if word == "--depth" else "limit"] = int(next(rest))
        else:
            return None
    return Line(name, *flags.values(), options)


def listed(file: bytes) -> str:
    """What the command lists: a name with a control character is a JSON string."""
    names = ((found.name, found.id) for found in Metadata(file).names())
    return "".join(f"{json_text(name) if min(name) < ' ' else name} {type_id}\n" for name, type_id in names)


def printed(column: str) -> str:
    """What the command prints, which the tables show with a backslash and n for a line feed, and two for a backslash."""
    return "" if column == "-" else re.sub(r"\\(.)", lambda found: "\n" if found[1] == "n" else found[1], column)


class Names(unittest.TestCase):
    used = 0

    def test_metadata(self) -> None:
        for name, digits, answer in rows_of("metadata.tsv"):
            with self.subTest(name):
                try:
                    metadata = Metadata(bytes_of(digits))
                    own = len(Registry(bytes_of(digits)).types)
                    found = f"{own} {len(metadata.types)} {len(list(metadata.names()))}"
                except Refused as refused:
                    found = str(refused)
                self.assertEqual(found, answer)

    def check_line(self, words: str, file: bytes, value: bytes, wanted: tuple[str, str]) -> None:
        line = line_of(words.split(" ")[2:]) if words.startswith("decode r ") else None
        if not line and words != "names r":
            return
        try:
            found = "0", line.decode(file, value) + "\n" if line else listed(file)
        except Refused as refused:
            found = "1", f"scaleview: {refused}\n"
        self.assertEqual(found, wanted)
        Names.used += 1

    def test_command_lines(self) -> None:
        files = {row[0]: bytes_of(row[1]) for row in rows_of("metadata.tsv")}
        for name, words, file, value, status, out, err in rows_of("chain.tsv"):
            if status in "01":
                with self.subTest(name):
                    self.check_line(words, files[file], bytes_of(value), (status, printed(out if status == "0" else err)))
        self.assertGreater(Names.used, 270)


if __name__ == "__main__":
    unittest.main()
