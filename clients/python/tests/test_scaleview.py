"""The package: values, encoding, pieces, exceptions, arguments and types."""

from __future__ import annotations

import array
import ast
import copy
import ctypes
import doctest
import gc
import inspect
import mmap
import os
import pathlib
import pickle
import pydoc
import re
import shutil
import subprocess
import sys
import tempfile
import time
import tracemalloc
import unittest
import weakref
import zipfile
from multiprocessing.reduction import ForkingPickler
from typing import Any, Callable, Iterator, Sequence

import registries as make
import scaleview
from scaleview import Arm, Bits, Decoder, Empties, EncodeError, Field, OutOfMemory, Param, Refused, Registry, Type, Variant

CLIENT = pathlib.Path(__file__).resolve().parents[1]
EXAMPLES = CLIENT.parents[1] / "examples"
U16 = make.registry_of(make.primitive("u16"))
U32 = make.registry_of(make.primitive("u32"))
BYTES = make.registry_of(make.primitive("u8"), make.sequence(0))
# A variant with an arm End, and an arm Next whose one field is the variant itself.
CHAIN = make.registry_of(make.variant(("End", 0, ()), ("Next", 1, ((None, 0),))))
# The widths of words, by the names of their stores.
WIDTHS = {"u8": 8, "u16": 16, "u32": 32, "u64": 64}
NAMED_CHAIN = make.registry_of(make.variant(("End", 0, ()), ("Next", 1, (("rest", 0),))))


def load_tests(loader: Any, tests: unittest.TestSuite, pattern: Any) -> unittest.TestSuite:
    tests.addTests(doctest.DocTestSuite(scaleview))
    for module in (scaleview._base, scaleview._json):
        tests.addTests(doctest.DocTestSuite(module))
    folder = os.getcwd()
    readme = doctest.DocFileSuite(
        str(CLIENT / "README.md"),
        module_relative=False,
        setUp=lambda _: os.chdir(EXAMPLES.parent),
        tearDown=lambda _: os.chdir(folder),
    )
    tests.addTests(readme)
    return tests


def bits_of(store: str, order: str) -> bytes:
    """A store, an order and a bit sequence of both; a composite of bits and a u8; and a list of bits."""
    return make.registry_of(
        make.primitive(store), make.composite(), make.bits(0, 1), make.composite(("a", 2), ("b", 5)), make.sequence(2),
        make.primitive("u8"), _1=f"bitvec::order::{order}",
    )


def some_bits(count: int) -> list[bool]:
    """So many bits without a period that is a power of two."""
    return [bit * bit % 7 < 3 for bit in range(count)]


def spelled(bits: list[bool], width: int, order: str) -> bytes:
    """The bytes of bits as the format defines them."""
    words = [0] * -(-len(bits) // width)
    for bit, is_one in enumerate(bits):
        words[bit // width] += is_one << (bit % width if order == "Lsb0" else width - 1 - bit % width)
    return make.compact(len(bits)) + b"".join(word.to_bytes(width // 8, "little") for word in words)


def examples() -> Iterator[tuple[str, Registry, int, bytes, str]]:
    """Each stored value with its registry, type, bytes and text."""
    for folder in sorted(EXAMPLES.iterdir()):
        for name in ("registry.scale", "metadata.scale"):
            if not (folder / name).exists():
                continue
            registry = Registry((folder / name).read_bytes())
            for line in (folder / "values.txt").read_text().splitlines():
                value, type_id = line.split()
                data, text = (folder / f"{value}.scale").read_bytes(), (folder / f"{value}.json").read_text()
                yield f"{folder.name}/{value}", registry, int(type_id), data, text.rstrip("\n")


class Only(Sequence[Any]):
    """A sequence that isn't a list."""

    def __init__(self, items: Sequence[Any]) -> None:
        self.items = items

    def __len__(self) -> int:
        return len(self.items)

    def __getitem__(self, index: Any) -> Any:
        return self.items[index]


class Values(unittest.TestCase):
    def check(self, registry: Registry, type_id: int, data: str, value: Any) -> None:
        """The bytes are the value, and the value these bytes."""
        found = registry.decode(type_id, bytes.fromhex(data))
        self.assertEqual(found, value)
        self.assertIs(type(found), type(value))
        self.assertEqual(registry.encode(type_id, value).hex(), data.replace(" ", ""))
        decoder = Decoder(registry, type_id)
        self.assertIsNotNone(decoder.feed(bytes.fromhex(data)))
        self.assertEqual(decoder.finish(), value)

    def test_primitives(self) -> None:
        registry = Registry(make.registry_of(*map(make.primitive, make.PRIMITIVES)))
        self.check(registry, 0, "00", False)
        self.check(registry, 0, "01", True)
        for char in "a\0é€\U0010ffff\ud7ff":
            self.check(registry, 1, ord(char).to_bytes(4, "little").hex(), char)
        self.check(registry, 2, "00", "")
        self.check(registry, 2, "1c61c3a9f09f9880", "aé😀")
        self.assertEqual(registry.encode(2, "x" * 100), make.text("x" * 100))
        for type_id, width in zip(range(3, 9), (8, 16, 32, 64, 128, 256)):
            numbers = {0, 1, 10, 255, (1 << width) - 1, 1 << (width - 1), (1 << width - 1) - 1, (1 << width) // 3}
            for number in numbers | {1 << bit for bit in range(width)} | {(1 << bit) - 1 for bit in range(width)}:
                if number < 1 << width:
                    self.check(registry, type_id, number.to_bytes(width // 8, "little").hex(), number)
            for number in (-1, 1 << width, 1 << width + 64, -(1 << 300), 1 << 300, 1 << 100_000):
                with self.assertRaisesRegex(OverflowError, f"^value: the number is out of range of u{width}$"):
                    registry.encode(type_id, number)
        for type_id, width in zip(range(9, 15), (8, 16, 32, 64, 128, 256)):
            most = 1 << width - 1
            for bit in range(width - 1):
                for number in ((1 << bit) - 1, 1 << bit, -(1 << bit), -(1 << bit) - 1):
                    self.check(registry, type_id, number.to_bytes(width // 8, "little", signed=True).hex(), number)
            for number in (-most, most - 1, -most // 3):
                self.check(registry, type_id, number.to_bytes(width // 8, "little", signed=True).hex(), number)
            for number in (most, -most - 1, 1 << 300, -(1 << 300), 1 << 256, -(1 << 256), 1 << 64 * 4 - 1):
                with self.assertRaisesRegex(OverflowError, f"^value: the number is out of range of i{width}$"):
                    registry.encode(type_id, number)

    def test_compacts(self) -> None:
        registry = Registry(
            make.registry_of(
                make.primitive("u128"), make.compact_of(0), make.composite(("x", 0)), make.compact_of(2),
                make.members(), make.compact_of(4), make.primitive("u8"), make.compact_of(6), make.primitive("bool"),
                make.compact_of(8),
            )
        )
        for type_id in (1, 3):
            self.check(registry, type_id, "00", 0)
            self.check(registry, type_id, "fd03", 255)
            self.check(registry, type_id, "33" + "ff" * 16, (1 << 128) - 1)
        self.check(registry, 5, "", None)
        self.check(registry, 7, "fd03", 255)
        with self.assertRaisesRegex(OverflowError, "^value: the number is out of range of u8$"):
            registry.encode(7, 256)
        with self.assertRaisesRegex(EncodeError, "^value: BadCompact$"):
            registry.encode(9, 1)

    def test_composites_and_tuples(self) -> None:
        registry = Registry(
            make.registry_of(
                make.primitive("u8"), make.composite(("b", 0), ("a", 0)), make.composite((None, 0), ("a", 0)),
                make.composite(("a", 0), ("a", 0)), make.members(0, 1), make.members(), make.composite(),
                make.composite(("é", 5), ("x", 0)),
            )
        )
        self.check(registry, 1, "0102", {"b": 1, "a": 2})
        self.assertEqual(list(registry.decode(1, b"\1\2")), ["b", "a"])
        self.assertEqual(registry.encode(1, {"a": 2, "b": 1}), b"\1\2")
        self.check(registry, 2, "0102", (1, 2))
        self.check(registry, 3, "0102", (1, 2))
        self.check(registry, 4, "010203", (1, {"b": 2, "a": 3}))
        self.check(registry, 5, "", None)
        self.check(registry, 6, "", None)
        self.check(registry, 7, "09", {"é": None, "x": 9})
        self.assertEqual(registry.encode(4, [1, {"b": 2, "a": 3}]), b"\1\2\3")

    def test_sequences_and_arrays(self) -> None:
        registry = Registry(
            make.registry_of(
                make.primitive("u8"), make.sequence(0), make.array(3, 0), make.primitive("u16"), make.sequence(3),
                make.array(2, 3), make.array(0, 3), make.members(), make.sequence(7), make.array(4, 7), make.members(0),
                make.sequence(10),
            )
        )
        self.check(registry, 1, "00", b"")
        self.check(registry, 1, "0c010203", b"\1\2\3")
        self.check(registry, 2, "010203", b"\1\2\3")
        self.check(registry, 4, "00", [])
        self.check(registry, 4, "0801000200", [1, 2])
        self.check(registry, 5, "01000200", [1, 2])
        self.check(registry, 6, "", None)
        self.check(registry, 8, "00", Empties(0))
        self.check(registry, 8, "03ffffffff", Empties((1 << 32) - 1))
        self.check(registry, 9, "", None)
        self.check(registry, 11, "080102", [(1,), (2,)])
        for items in ((1, 2), range(1, 3), array.array("I", [1, 2]), [1, 2]):
            self.assertEqual(registry.encode(4, items).hex(), "0801000200")
        for items in (bytearray(b"\1\2\3"), memoryview(b"\1\2\3"), array.array("B", [1, 2, 3])):
            self.assertEqual(registry.encode(1, items).hex(), "0c010203")
        self.assertEqual(registry.encode(8, [None] * 3), b"\x0c")
        self.assertEqual(len(registry.decode(8, bytes.fromhex("03ffffffff"))), (1 << 32) - 1)

    def test_bit_sequences(self) -> None:
        for store, width in WIDTHS.items():
            for order in ("Lsb0", "Msb0"):
                registry = Registry(bits_of(store, order), bits=True)
                for count in (0, 1, 7, 8, 9, 15, 16, 17, 31, 32, 33, 63, 64, 65, 129, 3_000):
                    for bits in (some_bits(count), [True] * count, [False] * count):
                        data = spelled(bits, width, order)
                        self.check(registry, 2, data.hex(), Bits(bits))
                        self.assertEqual(registry.decode_json(2, data), f'"{Bits(bits)}"')
                        for other in (bits, tuple(bits), Only(bits)):
                            self.assertEqual(registry.encode(2, other), data)

    def test_a_long_bit_sequence_is_decoded_in_pieces(self) -> None:
        registry = Registry(bits_of("u64", "Msb0"), bits=True)
        data = make.compact(1 << 22) + bytes(range(256)) * (1 << 11)
        bits = registry.decode(2, data)
        self.assertEqual((len(bits), bits.count(True)), (1 << 22, 1 << 21))
        # The first word has the bytes 0 to 7, the highest of them last.
        self.assertEqual(str(bits[:64]), "0b" + "".join(f"{byte:08b}" for byte in range(7, -1, -1)))
        self.assertEqual(registry.encode(2, bits), data)

    def test_bit_sequences_are_parts(self) -> None:
        registry = Registry(bits_of("u8", "Msb0"), bits=True)
        self.check(registry, 3, "088007", {"a": Bits([True, False]), "b": 7})
        self.check(registry, 4, "0c 00 04 80 24 01 80", [Bits(), Bits([True]), Bits([*[False] * 7, True, True])])
        self.assertEqual(registry.decode(4, b"\4\4\x80"), [[True]])
        self.assertEqual(registry.encode(3, {"b": 7, "a": [True, False]}).hex(), "088007")
        self.assertEqual(registry.decode_prefix(2, b"\4\x80\xff"), ([True], 2))
        self.assertEqual(registry.decode_many(2, [b"\4\x80", b"\4\0"]), [[True], [False]])

    def test_an_unused_bit_is_rejected_at_its_byte(self) -> None:
        for store, width in WIDTHS.items():
            for order in ("Lsb0", "Msb0"):
                registry = Registry(bits_of(store, order), bits=True)
                for count in (1, 5, 9, 33, width + 1, 2 * width - 1):
                    data = spelled([True] * count, width, order)
                    place = len(make.compact(count))
                    used = int.from_bytes(data[place:], "little")
                    for bit in range(8 * (len(data) - place)):
                        if used >> bit & 1:
                            continue
                        wrong = (used | 1 << bit).to_bytes(len(data) - place, "little")
                        with self.assertRaises(Refused) as raised:
                            registry.decode(2, data[:place] + wrong)
                        found = raised.exception
                        self.assertEqual((found.code, found.reason, found.place), (314, "UnusedBits", place + bit // 8))
        self.assertEqual(str(found), f"value: UnusedBits at {found.place}")

    def check_no_bits(self, registry: Registry) -> None:
        for call in (registry.decode, registry.decode_json):
            with self.assertRaisesRegex(Refused, "^value: BitSequence at 0$"):
                call(2, b"\4\1")
        for value in (Bits([True]), [True], None, 5):
            with self.assertRaisesRegex(EncodeError, "^value: BitSequence$"):
                registry.encode(2, value)
            with self.assertRaisesRegex(EncodeError, "^value.a: BitSequence$"):
                registry.encode(3, {"a": value, "b": 0})

    def test_bit_sequences_are_rejected_unless_they_are_allowed(self) -> None:
        data = bits_of("u8", "Lsb0")
        metadata = b"meta\x0e" + data
        for registry in (
            Registry(data), Registry(data, bits=False), Registry.raw(data), Registry(metadata),
            Registry(metadata, metadata=True, bits=False),
        ):
            self.check_no_bits(registry)
        for registry in (
            Registry(data, bits=True), Registry.raw(data, bits=True), Registry(metadata, bits=True),
            Registry(metadata, metadata=True, bits=True), Registry(data, metadata=False, bits=True),
        ):
            self.assertEqual(registry.decode(2, b"\4\1"), [True])
        calls: list[Any] = [Registry, Registry.raw]
        for call in calls:
            with self.assertRaises(TypeError):
                call(data, True)

    def test_other_stores_and_orders_are_rejected(self) -> None:
        for store in ("bool", "char", "str", "u128", "u256", "i8", "i64"):
            self.check_no_bits(Registry(bits_of(store, "Lsb0"), bits=True))
        for order in ("lsb0", "Lsb1", "xLsb0", "Lsb0x", "Msb0::x"):
            self.check_no_bits(Registry(bits_of("u8", order), bits=True))
        for definition in (make.composite((None, 0)), make.members(), make.primitive("u8"), make.variant()):
            data = make.registry_of(
                make.primitive("u8"), definition, make.bits(0, 1), make.composite(("a", 2), ("b", 0)), _1="Lsb0"
            )
            self.check_no_bits(Registry(data, bits=True))
        wrapped = make.registry_of(
            make.primitive("u8"), make.composite(), make.bits(4, 1), make.composite(("a", 2), ("b", 0)),
            make.composite((None, 0)), _1="Lsb0",
        )
        self.check_no_bits(Registry(wrapped, bits=True))
        for store, target in ((0, 9), (9, 1), (9, 9), ((1 << 30) - 1, (1 << 30) - 1)):
            data = make.registry_of(
                make.primitive("u8"), make.composite(), make.bits(store, target), make.composite(("a", 2), ("b", 0)),
                _1="Lsb0",
            )
            self.check_no_bits(Registry(data, bits=True))

    def test_variants(self) -> None:
        registry = Registry(
            make.registry_of(
                make.primitive("u8"),
                make.variant(("End", 7, ()), ("Pair", 9, ((None, 0), (None, 0))), ("Named", 1, (("b", 0), ("a", 0)))),
                # Of the arms A, the second is shadowed; the third and the fourth differ by their fields.
                make.variant(("A", 1, ()), ("A", 1, ((None, 0),)), ("A", 2, ((None, 0),)), ("A", 3, (("x", 0),))),
            )
        )
        self.check(registry, 1, "07", Variant("End", []))
        self.check(registry, 1, "090102", Variant("Pair", [1, 2]))
        self.check(registry, 1, "010102", Variant("Named", {"b": 1, "a": 2}))
        for data, value in (("01", []), ("0205", [5]), ("0306", {"x": 6})):
            self.check(registry, 2, data, Variant("A", value))
        for pair in (("Named", {"a": 2, "b": 1}), Variant("Named", {"a": 2, "b": 1})):
            self.assertEqual(registry.encode(1, pair).hex(), "010102")
        for fields in ([], (), {}):
            self.assertEqual(registry.encode(1, ("End", fields)), b"\7")

    def test_arms_of_one_name_come_back_by_their_index(self) -> None:
        # The arm B is shadowed by the second A.
        arms = (("A", 4, ((None, 0),)), ("A", 9, ((None, 0),)), ("B", 9, ()), ("C", 0, ()))
        registry = Registry(make.registry_of(make.primitive("u8"), make.variant(*arms), make.sequence(1)))
        for data, index in (("0407", 4), ("0907", 9)):
            decoder = Decoder(registry, 1)
            decoder.feed(bytes.fromhex(data))
            for found in (registry.decode(1, bytes.fromhex(data)), decoder.finish()):
                self.assertEqual((found.name, found.fields, found.index), ("A", [7], index))
                copies = [pickle.loads(pickle.dumps(found)), copy.deepcopy(found), eval(repr(found))]
                for value in (found, *copies):
                    self.assertEqual(registry.encode(1, value).hex(), data)
        self.assertEqual(registry.encode(1, Variant("A", [7])).hex(), "0407")
        self.assertEqual(registry.encode(1, Variant("C", {}, 0)).hex(), "00")
        for value, message in (
            (Variant("C", [], 4), "value[1]: the arm of index 4 is 'A', not 'C'"),
            (Variant("B", [], 9), "value[1]: the arm of index 9 is 'A', not 'B'"),
            (Variant("A", [7], 5), "value[1]: there is no arm 'A' of index 5"),
            (Variant("A", [7], 255), "value[1]: there is no arm 'A' of index 255"),
            (Variant("A", [], 9), "value[1].A: expected 1 fields, not 0"),
        ):
            with self.assertRaises(ValueError) as raised:
                registry.encode(2, [Variant("C"), value])
            self.assertEqual(str(raised.exception), message)

    def test_stored_values_of_the_examples(self) -> None:
        count = 0
        for name, registry, type_id, data, text in examples():
            with self.subTest(name):
                value = registry.decode(type_id, data)
                self.assertEqual(registry.decode_json(type_id, data), text)
                self.assertEqual(registry.encode(type_id, value), data)
                self.assertEqual(registry.decode_many(type_id, [data] * 3), [value] * 3)
                decoder = Decoder(registry, registry.types[type_id])
                for at in range(0, len(data), 7):
                    used = decoder.feed(data[at : at + 7])
                self.assertEqual(used, (len(data) - 1) % 7 + 1)
                self.assertEqual((decoder.finish_json(), decoder.finish()), (text, value))
                count += 1
        self.assertGreater(count, 15)

    def test_the_deepest_values(self) -> None:
        for data, is_named in ((CHAIN, False), (NAMED_CHAIN, True)):
            registry = Registry(data)
            for depth in (0, 64, 498, 1024):
                chain = b"\1" * depth + b"\0"
                decoder = Decoder(registry, 0, depth=depth)
                decoder.feed(chain)
                for value in (registry.decode(0, chain, depth=depth), decoder.finish()):
                    self.assertEqual(registry.encode(0, value, depth=depth), chain)
                    levels = 0
                    while value.name == "Next":
                        value = value.fields["rest"] if is_named else value.fields[0]
                        levels += 1
                    self.assertEqual((value, levels), (Variant("End"), depth))
                text = registry.decode_json(0, chain, depth=depth)
                front, back = ('{"Next":{"rest":', "}}") if is_named else ('{"Next":[', "]}")
                self.assertEqual(text, front * depth + '{"End":[]}' + back * depth)
                self.assertEqual(decoder.finish_json(), text)
                with self.assertRaisesRegex(Refused, f"^value: TooDeep at {depth + 1}$"):
                    registry.decode(0, b"\1" + chain, depth=depth)

    def test_many_values(self) -> None:
        registry = Registry(U16)
        self.assertEqual(registry.decode_many(0, (bytes([n, 0]) for n in range(100))), list(range(100)))
        self.assertEqual(registry.decode_many(0, []), [])
        with self.assertRaises(Refused) as raised:
            registry.decode_many(0, [b"\1\0", b"\1"])
        self.assertEqual((raised.exception.item, raised.exception.place), (1, 1))
        self.assertEqual(str(raised.exception), "value: Truncated at 1 in item 1")
        wrong: Any
        for wrong in (5, [5], None):
            with self.assertRaises(TypeError):
                registry.decode_many(0, wrong)

        def failing() -> Iterator[bytes]:
            yield b"\1\0"
            raise KeyError("from the iterator")

        with self.assertRaises(KeyError):
            registry.decode_many(0, failing())


class Prefixes(unittest.TestCase):
    registry = Registry(
        make.registry_of(
            make.primitive("u8"), make.sequence(0), make.members(), make.primitive("u32"), make.sequence(2),
            make.variant(("End", 0, ()), ("Next", 1, ((None, 5),))), make.primitive("bool"), make.sequence(3),
        )
    )

    def test_a_value_comes_with_the_number_of_its_bytes(self) -> None:
        cases: list[tuple[int, str, Any, int]] = [
            (0, "07", 7, 1),
            (0, "0708", 7, 1),
            (1, "0c010203", b"\1\2\3", 4),
            (1, "0c010203ff00", b"\1\2\3", 4),
            (1, "00ff", b"", 1),
            (2, "", None, 0),
            (2, "ff", None, 0),
            (3, "0102000005", 0x201, 4),
            (4, "0cff", Empties(3), 1),
            (5, "010000", Variant("Next", [Variant("End")]), 2),
        ]
        for type_id, data, value, used in cases:
            given = bytes.fromhex(data)
            for buffer in (given, bytearray(given), memoryview(given)):
                with self.subTest(data):
                    self.assertEqual(self.registry.decode_prefix(type_id, buffer), (value, used))

    def test_values_are_read_one_after_another(self) -> None:
        data, values = bytes.fromhex("0401" + "080203" + "00" + "0c040506"), []
        while data:
            value, used = self.registry.decode_prefix(self.registry.types[1], data)
            values.append(value)
            data = data[used:]
        self.assertEqual(values, [b"\1", b"\2\3", b"", b"\4\5\6"])

    def test_a_long_value_is_read_with_bytes_after_it(self) -> None:
        count = 100_000
        data = make.compact(count) + bytes(4 * count)
        for rest in (b"", b"\xff", b"\xff" * 500_000):
            self.assertEqual(self.registry.decode_prefix(7, data + rest), ([0] * count, 4 + 4 * count))
        with self.assertRaisesRegex(Refused, f"^value: Truncated at {3 + 4 * count}$"):
            self.registry.decode_prefix(7, data[:-1])

    def test_what_follows_a_value_is_not_copied(self) -> None:
        data = bytearray(64 << 20)
        start = time.process_time()
        for _ in range(500):
            self.assertEqual(self.registry.decode_prefix(3, memoryview(data)), (0, 4))
        self.assertLess(time.process_time() - start, 1)

    def test_any_buffer_begins_with_a_value(self) -> None:
        given = bytes.fromhex("0c010203ff00")
        doubled = bytes(byte for byte in given for _ in range(2))
        words = (ctypes.c_uint16 * 3).from_buffer_copy(given)
        for buffer in (memoryview(given).cast("H"), memoryview(doubled)[::2], array.array("H", given), words):
            self.assertEqual(self.registry.decode_prefix(1, buffer), (b"\1\2\3", 4))
        count = 50_000
        data = make.compact(count) + b"\7\0\0\0" * count
        self.assertEqual(self.registry.decode_prefix(7, bytearray(data + b"\1")), ([7] * count, 4 + 4 * count))

    def test_a_wrong_beginning_is_rejected(self) -> None:
        cases: list[tuple[int, bytes, dict[str, int], str]] = [
            (0, b"", {}, "value: Truncated at 0"),
            (1, b"\x0c\1\2", {}, "value: Truncated at 3"),
            (6, b"\2\0", {}, "value: BadBool at 0"),
            (5, b"\1\1\0", {"depth": 1}, "value: TooDeep at 2"),
            (3, b"\1\2\3\4\5", {"limit": 2}, "value: TooLong at 2"),
            (9, b"", {}, "type: UnknownType 9"),
            (0, b"\1", {"limit": (1 << 40) + 1}, "limits: LimitOutOfRange"),
        ]
        for type_id, data, limits, message in cases:
            with self.subTest(message), self.assertRaises(Refused) as raised:
                self.registry.decode_prefix(type_id, data, **limits)
            self.assertEqual((str(raised.exception), raised.exception.item), (message, None))
        self.assertEqual(self.registry.decode_prefix(3, b"\1\2\0\0\5", limit=4), (0x201, 4))
        self.assertEqual(self.registry.decode_prefix(5, b"\1\0\0", depth=1)[1], 2)
        with self.assertRaisesRegex(OutOfMemory, "^the budget of 1000 bytes of memory is reached"):
            self.registry.decode_prefix(7, make.compact(1000) + bytes(4000), memory=1000)


class Classes(unittest.TestCase):
    def test_variants_are_compared_shown_and_copied(self) -> None:
        value = Variant("Some", [Variant("None")])
        self.assertEqual(repr(value), "Variant('Some', [Variant('None', [])])")
        self.assertEqual(value, Variant(name="Some", fields=[Variant("None", [])]))
        for other in (Variant("Some", []), Variant("None", [Variant("None")]), ("Some", [Variant("None")]), None):
            self.assertNotEqual(value, other)
        copies = [pickle.loads(pickle.dumps(value, protocol)) for protocol in range(pickle.HIGHEST_PROTOCOL + 1)]
        for other in (*copies, copy.copy(value), copy.deepcopy(value)):
            self.assertEqual(other, value)
        self.assertEqual(Variant.__match_args__, ("name", "fields"))
        with self.assertRaises(TypeError):
            hash(value)
        with self.assertRaises(AttributeError):
            value.name = "Other"  # type: ignore[misc]
        with self.assertRaises(AttributeError):
            value.other = 1  # type: ignore[attr-defined]
        wrong: Any
        for wrong in ((), ("a", 5), (5, []), ("a", None), ("a", Variant("b")), ("a", [], [])):
            with self.assertRaises(TypeError):
                Variant(*wrong)

    def test_a_variant_keeps_its_index_which_is_not_compared(self) -> None:
        value = Variant("Some", [5], 1)
        self.assertEqual((value.index, Variant("Some", [5]).index, Variant("Some", index=0).index), (1, None, 0))
        self.assertEqual(repr(value), "Variant('Some', [5], index=1)")
        self.assertTrue(value == Variant("Some", [5]) == Variant("Some", [5], index=255))
        self.assertFalse(value != Variant("Some", [5], None))
        copies = [pickle.loads(pickle.dumps(value, protocol)) for protocol in range(pickle.HIGHEST_PROTOCOL + 1)]
        for other in (*copies, copy.copy(value), copy.deepcopy(value)):
            self.assertEqual((other, other.index), (value, 1))
        self.assertIsNone(copy.copy(Variant("Some")).index)
        for number in (-1, 256, 1 << 64):
            with self.assertRaisesRegex(OverflowError, "^index is out of range: it has to be in 0 to 255$"):
                Variant("Some", [5], number)
        with self.assertRaises(TypeError):
            Variant("Some", [5], "1")  # type: ignore[arg-type]
        with self.assertRaises(AttributeError):
            value.index = 2  # type: ignore[misc]

    @unittest.skipIf(sys.version_info < (3, 10), "there is no match statement before 3.10")
    def test_variants_are_matched(self) -> None:
        names: dict[str, Any] = {"value": Variant("Some", [{"a": 5}]), "Variant": Variant}
        exec("match value:\n case Variant('Some', [{'a': found}]): pass", names)
        self.assertEqual(names["found"], 5)

    def test_empties_are_counted_and_compared_as_a_list(self) -> None:
        most = Empties((1 << 32) - 1)
        self.assertEqual((Empties(3).count(None), Empties(3).count(0), most.count(None)), (3, 0, (1 << 32) - 1))
        self.assertEqual((None in most, 5 in most, None in Empties(0)), (True, False, False))
        self.assertTrue(Empties(3) == [None] * 3 and [None] * 3 == Empties(3) and Empties(0) == [])
        for other in ([None] * 2, [None, 0, None], (None,) * 3, 3):
            self.assertNotEqual(Empties(3), other)
        self.assertNotEqual(most, [None])

    def test_empties_are_a_sequence(self) -> None:
        empties = Empties(3)
        self.assertEqual((len(empties), list(empties), empties[-1], empties[1:]), (3, [None] * 3, None, Empties(2)))
        self.assertEqual(repr(empties), "Empties(3)")
        self.assertEqual({empties, Empties(3)}, {pickle.loads(pickle.dumps(empties))})
        self.assertNotEqual(empties, Empties(4))
        with self.assertRaises(IndexError):
            empties[3]
        with self.assertRaises(AttributeError):
            setattr(empties, "count", 4)
        for number in (-1, 1 << 32):
            with self.assertRaises(OverflowError):
                Empties(number)


    def test_bits_are_a_sequence(self) -> None:
        bits = Bits([True, False, True])
        self.assertEqual((len(bits), list(bits), bits[-1], bits[1:]), (3, [True, False, True], True, Bits([False, True])))
        self.assertEqual((bits[::-2], bits[5:], bits[1]), (Bits([True, True]), Bits(), False))
        self.assertEqual((str(bits), repr(bits), repr(Bits()), f"{bits}"), ("0b101", "0b101", "0b", "0b101"))
        self.assertEqual((bits.count(True), bits.count(0), bits.count("1"), bits.index(False)), (2, 1, 0, 1))
        self.assertEqual((True in bits, False in Bits([True]), 5 in bits, None in bits), (True, False, False, False))
        self.assertEqual(list(reversed(bits)), [True, False, True])
        self.assertTrue(bits and not Bits())
        self.assertTrue(all(type(bit) is bool for bit in (*bits, *reversed(bits), bits[0], bits[1])))
        self.assertEqual((Bits(bits), Bits(iter([True])), Bits(())), (bits, Bits([True]), Bits()))
        with self.assertRaises(IndexError):
            bits[3]
        wrong_index: Any = "0"
        with self.assertRaises(TypeError):
            bits[wrong_index]
        with self.assertRaises(AttributeError):
            setattr(bits, "_bits", b"")
        for wrong, message in (([True, 1], "1, not int"), ("0b1", "0, not str"), (b"\1", "0, not int")):
            with self.assertRaisesRegex(TypeError, f"^expected a bool at {message}$"):
                Bits(wrong)  # type: ignore[arg-type]
        with self.assertRaises(TypeError):
            Bits(5)  # type: ignore[arg-type]

    def test_bits_are_compared_hashed_and_copied(self) -> None:
        bools = some_bits(100)
        bits = Bits(bools)
        for same in (bools, tuple(bools), Bits(bools), Bits(tuple(bools)), Bits(bools + [True])[:-1]):
            self.assertTrue(bits == same and same == bits and not bits != same)
        others = (bools[:-1], bools + [True], [not bit for bit in bools], Bits(bools[:-1]), bytes(bools), str(bits), 5, None)
        for other in others:
            self.assertFalse(bits == other or other == bits)
        self.assertEqual({bits, Bits(bools), tuple(bools)}, {bits})
        self.assertEqual({Bits(): 1}[()], 1)  # type: ignore[index]
        for protocol in range(pickle.HIGHEST_PROTOCOL + 1):
            self.assertEqual(pickle.loads(pickle.dumps(bits, protocol)), bits)
        for copied in (copy.copy(bits), copy.deepcopy(bits)):
            self.assertEqual((copied, type(copied)), (bits, Bits))


class Encoding(unittest.TestCase):
    registry = Registry(
        make.registry_of(
            make.primitive("u8"), make.sequence(0), make.primitive("str"), make.composite(("id", 0), ("names", 4)),
            make.sequence(2), make.sequence(3),
            make.variant(("Set", 0, (("all", 5),)), ("Pair", 1, ((None, 0), (None, 2)))),
            make.members(), make.sequence(7), make.primitive("bool"), make.primitive("char"), make.array(2, 2),
            make.array(2, 0), make.bits(0, 7), make.composite((None, 13)), make.variant(),
            make.composite(("x", 0), ("v", 15)),
            make.members(1, 16), make.variant(("Good", 0, ()), ("Bad", 1, ((None, 0), (None, 15)))),
        )
    )

    def test_wrong_values_are_named_by_their_path(self) -> None:
        right = {"id": 1, "names": ["a"]}
        cases: list[tuple[int, Any, type, str]] = [
            (0, "1", TypeError, "value: expected an int, not str"),
            (0, True, TypeError, "value: expected an int, not bool"),
            (0, 1.0, TypeError, "value: expected an int, not float"),
            (0, 256, OverflowError, "value: the number is out of range of u8"),
            (1, "ab", TypeError, "value: expected bytes, not str"),
            (1, [1, 2], TypeError, "value: expected bytes, not list"),
            (2, b"ab", TypeError, "value: expected a str, not bytes"),
            (2, "a\ud800", ValueError, "value: the text has a surrogate"),
            (3, [1, []], TypeError, "value: expected a dict, not list"),
            (3, {"id": 1}, ValueError, "value: the field 'names' is missing"),
            (3, {**right, "x": 0}, ValueError, "value: there is no field 'x'"),
            (3, {"id": 1, "name": []}, ValueError, "value: the field 'names' is missing"),
            (3, {"id": 1, "names": ["a", 5]}, TypeError, "value.names[1]: expected a str, not int"),
            (4, "ab", TypeError, "value: expected a list or a tuple, not str"),
            (4, {"a"}, TypeError, "value: expected a list or a tuple, not set"),
            (5, [right, {"id": -1, "names": []}], OverflowError, "value[1].id: the number is out of range of u8"),
            (6, "Set", TypeError, "value: expected a Variant or a pair of a name and fields, not str"),
            (6, ("None", []), ValueError, "value: there is no arm 'None'"),
            (6, ("Set", [[]]), TypeError, "value.Set: expected a dict, not list"),
            (6, ("Set", {}), ValueError, "value.Set: the field 'all' is missing"),
            (6, ("Set", {"all": [right, 5]}), TypeError, "value.Set.all[1]: expected a dict, not int"),
            (6, Variant("Pair", [1]), ValueError, "value.Pair: expected 2 fields, not 1"),
            (6, Variant("Pair", [1, None]), TypeError, "value.Pair[1]: expected a str, not NoneType"),
            (7, (), TypeError, "value: expected None, not tuple"),
            (8, [None, 1], TypeError, "value: expected an Empties or a list of None"),
            (9, 1, TypeError, "value: expected a bool, not int"),
            (10, "ab", ValueError, "value: expected a str of one character"),
            (10, "\ud800", ValueError, "value: the character is a surrogate"),
            (11, ["a"], ValueError, "value: expected 2 items, not 1"),
            (12, b"a", ValueError, "value: expected 2 bytes, not 1"),
        ]
        for type_id, value, kind, message in cases:
            with self.subTest(message), self.assertRaises(kind) as raised:
                self.registry.encode(type_id, value)
            self.assertEqual((type(raised.exception), str(raised.exception)), (kind, message))

    def test_what_the_library_rejects_has_a_path(self) -> None:
        cases: list[tuple[int, Any, int, str, int]] = [
            (13, None, 64, "value: BitSequence", 0),
            (14, [None], 64, "value[0]: BitSequence", 1),
            (17, [b"", {"x": 1, "v": None}], 64, "value: NoFiniteValue", 0),
            (18, ("Bad", [1, None]), 64, "value.Bad[1]: NoFiniteValue", 2),
            (6, ("Set", {"all": [{"id": 1, "names": []}]}), 1, "value.Set.all[0]: TooDeep", 2),
            (6, ("Set", {"all": [{"id": 1, "names": ["a"]}]}), 3, "value.Set.all[0].names[0]: TooDeep", 5),
        ]
        for type_id, value, depth, message, node in cases:
            with self.subTest(message), self.assertRaises(EncodeError) as raised:
                self.registry.encode(type_id, value, depth=depth)
            error = raised.exception
            self.assertEqual((str(error), error.node, error.part), (message, node, "value"))
            self.assertEqual(f"{error.path}: {error.reason}", message)
            self.assertGreater(error.code, 400)
            for other in (pickle.loads(pickle.dumps(error)), copy.deepcopy(error)):
                self.assertEqual((vars(other), str(other)), (vars(error), message))

    def test_wrong_bits_are_named_by_their_path(self) -> None:
        registry = Registry(bits_of("u32", "Lsb0"), bits=True)
        kind = "expected a Bits or a list of bool"
        cases: list[tuple[int, Any, type, str]] = [
            (2, None, TypeError, f"value: {kind}, not NoneType"),
            (2, 5, TypeError, f"value: {kind}, not int"),
            (2, "0b1", TypeError, f"value: {kind}, not str"),
            (2, b"\1", TypeError, f"value: {kind}, not bytes"),
            (2, bytearray(b"\1"), TypeError, f"value: {kind}, not bytearray"),
            (2, {True}, TypeError, f"value: {kind}, not set"),
            (2, iter([True]), TypeError, f"value: {kind}, not list_iterator"),
            (2, [True, 1], TypeError, "value[1]: expected a bool, not int"),
            (2, (None,), TypeError, "value[0]: expected a bool, not NoneType"),
            (2, Only([True, "1"]), TypeError, "value[1]: expected a bool, not str"),
            (3, {"a": [True, False, 0], "b": 1}, TypeError, "value.a[2]: expected a bool, not int"),
            (4, [Bits(), [0]], TypeError, "value[1][0]: expected a bool, not int"),
            (4, Bits([True]), TypeError, f"value[0]: {kind}, not bool"),
            (0, Bits([True]), TypeError, "value: expected an int, not Bits"),
        ]
        for type_id, value, error, message in cases:
            with self.subTest(message), self.assertRaises(error) as raised:
                registry.encode(type_id, value)
            self.assertEqual((type(raised.exception), str(raised.exception)), (error, message))
        forged = Bits()
        object.__setattr__(forged, "_bits", 5)
        with self.assertRaisesRegex(TypeError, "^value: expected bytes in a Bits, not int$"):
            registry.encode(2, forged)
        object.__setattr__(forged, "_bits", b"\xff\0\2")
        self.assertEqual(registry.encode(2, forged).hex(), "0c05000000")

    def test_bits_take_as_much_of_the_budget_as_their_words(self) -> None:
        registry = Registry(bits_of("u8", "Lsb0"), bits=True)
        bits = [True] * 80_000
        for value in (bits, Bits(bits), Only(bits)):
            self.assertEqual(len(registry.encode(2, value, memory=100_000)), 10_004)
            for memory in (1, 24, 5_000, 10_000):
                with self.assertRaises(OutOfMemory):
                    registry.encode(2, value, memory=memory)

    def test_many_fields_are_compared_at_once(self) -> None:
        count = 100_000
        fields = [(f"f{number}", 0) for number in range(count)]
        registry = Registry(
            make.registry_of(make.members(), make.composite(*fields, ("x", 2)), make.primitive("u8"))
        )
        value = registry.decode(1, b"\5")
        self.assertEqual((len(value), registry.encode(1, value)), (count + 1, b"\5"))
        start = time.process_time()
        with self.assertRaisesRegex(ValueError, "^value: there is no field 'y'$"):
            registry.encode(1, {**value, "y": 0})
        self.assertLess(time.process_time() - start, 5)

    def test_a_value_that_holds_itself_is_too_deep(self) -> None:
        registry = Registry(make.registry_of(make.sequence(0)))
        value: list[Any] = []
        value.append(value)
        for depth in (0, 64, 1024):
            with self.assertRaises(EncodeError) as raised:
                registry.encode(0, value, depth=depth)
            self.assertEqual((raised.exception.reason, raised.exception.path), ("TooDeep", "value" + "[0]" * (depth + 1)))

    def test_a_list_that_shrinks_meanwhile_is_rejected(self) -> None:
        registry = Registry(make.registry_of(make.primitive("u8"), make.members(0), make.sequence(0), make.sequence(1)))
        numbers: list[Any] = []

        class Shrinking:
            def __index__(self) -> int:
                numbers.clear()
                return 1

        registry = Registry(make.registry_of(make.primitive("u16"), make.sequence(0)))
        numbers.extend([Shrinking(), 2, 3])
        with self.assertRaisesRegex(ValueError, r"^value\[1\]: the list got shorter meanwhile$"):
            registry.encode(1, numbers)

        class Failing:
            def __index__(self) -> int:
                raise KeyError("from the number")

            def __eq__(self, other: object) -> bool:
                raise KeyError("from the key")

            def __hash__(self) -> int:
                return hash("a")

        with self.assertRaises(KeyError):
            registry.encode(1, [Failing()])
        registry = Registry(make.registry_of(make.primitive("u16"), make.composite(("a", 0), ("b", 0))))
        for wrong in ({Failing(): 1}, {Failing(): 1, "b": 2}):
            with self.assertRaises(KeyError):
                registry.encode(1, wrong)

    def test_a_budget_of_memory_is_kept(self) -> None:
        registry = Registry(make.registry_of(make.primitive("u16"), make.sequence(0)))
        data = make.compact(1000) + bytes(2000)
        value = registry.decode(1, data, memory=1 << 20)
        self.assertEqual(registry.encode(1, value, memory=1 << 20), data)
        decoder = Decoder(registry, 1, memory=1000)
        calls: list[Callable[[], object]] = [
            lambda: registry.decode(1, data, memory=1000),
            lambda: registry.decode_json(1, data, memory=1000),
            lambda: registry.decode_many(1, [data], memory=1000),
            lambda: registry.encode(1, value, memory=1000),
            lambda: decoder.feed(data),
            decoder.finish,
            decoder.finish_json,
        ]
        # Only `encode` knows by itself which of the two it was.
        message = "^the budget of 1000 bytes of memory is reached(, or an allocation failed)?$"
        for call in calls:
            with self.assertRaisesRegex(OutOfMemory, message):
                call()
        self.assertIsInstance(pickle.loads(pickle.dumps(OutOfMemory("x"))), MemoryError)

    def test_a_sequence_is_not_copied_beyond_the_budget(self) -> None:
        registry = Registry(make.registry_of(make.primitive("u16"), make.sequence(0), make.members(), make.sequence(2)))
        taken: list[int] = []

        class Long(Sequence[Any]):
            def __len__(self) -> int:
                return 10**7

            def __getitem__(self, index: Any) -> Any:
                taken.append(index)
                return index

        for value in (range(10**7), Long()):
            for type_id in (1, 3):
                message = "^the budget of 1000 bytes of memory is reached$"
                with self.assertRaisesRegex(OutOfMemory, message):
                    registry.encode(type_id, value, memory=1000)
        self.assertEqual(taken, [])
        with self.assertRaisesRegex(OutOfMemory, "^the budget of"):
            registry.encode(1, range(10**9))
        self.assertEqual(len(registry.encode(1, range(1000), memory=1 << 20)), 2002)

    def test_a_list_that_occurs_often_is_not_written_beyond_the_budget(self) -> None:
        registry = Registry(make.registry_of(make.primitive("u16"), *map(make.sequence, range(4)), make.primitive("str")))
        value: list[Any] = [1] * 1000
        for _ in range(3):
            value = [value] * 1000
        with self.assertRaisesRegex(OutOfMemory, "^the budget of 1048576 bytes"):
            registry.encode(4, value, memory=1 << 20)
        with self.assertRaisesRegex(OutOfMemory, "^the budget of 1000 bytes"):
            registry.encode(5, "a" * 1001, memory=1000)

    @unittest.skipUnless(sys.platform == "linux", "the system may not keep the limit of memory")
    def test_without_a_budget_the_system_refuses_memory(self) -> None:
        program = (
            "import registries as make, resource, scaleview\n"
            "registry = scaleview.Registry(make.registry_of(make.members(), make.primitive('u8'),\n"
            "    make.composite((None, 1), *[(None, 0)] * 50_000), make.sequence(2)))\n"
            "resource.setrlimit(resource.RLIMIT_AS, (1 << 29, 1 << 29))\n"
            "try: registry.decode(3, make.compact(1000) + bytes(1000), memory=None)\n"
            "except scaleview.OutOfMemory as error: print(error)\n"
        )
        command = [sys.executable, "-c", program]
        folder = str(pathlib.Path(__file__).parent)
        ended = subprocess.run(command, cwd=folder, stdout=subprocess.PIPE, universal_newlines=True)
        self.assertEqual(ended.stdout, "an allocation failed\n")

    def test_objects_take_up_to_twelve_times_the_bound(self) -> None:
        """An arm of one named field, whose objects are the largest for a node."""
        arms = make.variant(("End", 0, ()), ("N", 1, (("a", 0),)))
        registry = Registry(make.registry_of(arms, make.sequence(0)))
        data = make.compact(2000) + (b"\1" * 30 + b"\0") * 2000

        def is_enough(memory: int) -> bool:
            try:
                Decoder(registry, 1, memory=memory).feed(data)
            except OutOfMemory:
                return False
            return True

        low, high = 1, 1 << 24
        while low < high:
            middle = (low + high) // 2
            low, high = (low, middle) if is_enough(middle) else (middle + 1, high)
        tracemalloc.start()
        value = registry.decode(1, data)
        taken, _ = tracemalloc.get_traced_memory()
        tracemalloc.stop()
        self.assertEqual(len(value), 2000)
        self.assertGreater(taken, 8 * low)
        self.assertLess(taken, 12 * low)
        self.assertIn("up to twelve times as much", (CLIENT / "README.md").read_text())

    def test_a_budget_of_memory_is_set_where_none_is_given(self) -> None:
        empties = [(None, 0)] * 50_000
        registry = Registry(
            make.registry_of(make.members(), make.primitive("u8"), make.composite((None, 1), *empties), make.sequence(2))
        )
        data = make.compact(60) + bytes(60)

        def in_pieces(**memory: Any) -> str:
            decoder = Decoder(registry, 3, limit=len(data), **memory)
            decoder.feed(data)
            return decoder.finish_json()

        calls: list[Callable[..., object]] = [
            lambda **memory: registry.decode(3, data, **memory),
            lambda **memory: registry.decode_prefix(3, data, **memory),
            lambda **memory: registry.decode_json(3, data, **memory),
            lambda **memory: registry.decode_many(3, [data], **memory),
            in_pieces,
        ]
        for call in calls:
            for memory in ({}, {"memory": ...}):
                budget = (64 << 20) + 64 * len(data)
                with self.assertRaisesRegex(OutOfMemory, f"^the budget of {budget} bytes of memory is reached"):
                    call(**memory)
            for bound in (None, 0):
                call(memory=bound)
        # Larger values have larger budgets.
        flags = Registry(make.registry_of(make.primitive("bool"), make.sequence(0)))
        data = make.compact(3 << 20) + bytes(3 << 20)
        self.assertEqual(flags.decode_json(1, data).count("false"), 3 << 20)
        self.assertEqual(flags.encode(1, [False] * 100, memory=None), make.compact(100) + bytes(100))


class Pieces(unittest.TestCase):
    def test_a_decoder_counts(self) -> None:
        registry = Registry(BYTES)
        with Decoder(registry, 1) as decoder:
            self.assertIsNone(decoder.feed(b""))
            self.assertIsNone(decoder.feed(bytes.fromhex("0c0102")))
            self.assertEqual((decoder.taken, decoder.nodes, decoder.text_bytes), (3, 0, 2))
            self.assertEqual(decoder.feed(b"\xff\xff"), 1)
            self.assertEqual(decoder.feed(b"\xff"), 0)
            self.assertEqual((decoder.taken, decoder.nodes, decoder.text_bytes), (4, 1, 3))
            for _ in range(2):
                self.assertEqual((decoder.finish_json(), decoder.finish()), ('"0x0102ff"', b"\1\2\xff"))
                self.assertEqual((decoder.taken, decoder.nodes, decoder.text_bytes), (4, 1, 3))
            self.assertEqual(decoder.feed(b"\xff"), 0)
            self.assertFalse(decoder.closed)
        self.assertTrue(decoder.closed)
        for call in (lambda: decoder.feed(b""), lambda: decoder.taken, decoder.finish, decoder.finish_json):
            with self.assertRaisesRegex(ValueError, "^the decoder is closed$"):
                call()
        decoder.close()

    def test_a_decoder_is_shown_with_its_type_and_bytes(self) -> None:
        decoder = Decoder(Registry(BYTES), 1)
        decoder.feed(bytes.fromhex("0c0102"))
        self.assertEqual(repr(decoder), "<Decoder of type 1, 3 bytes taken>")
        decoder.feed(b"\3")
        decoder.finish()
        self.assertEqual(repr(decoder), "<Decoder of type 1, 4 bytes taken>")
        decoder.close()
        self.assertEqual(repr(decoder), "<Decoder of type 1, closed>")

    def test_a_refusal_is_kept(self) -> None:
        registry = Registry(U32)
        cut = Decoder(registry, 0, limit=2)
        self.assertIsNone(cut.feed(b"\1\2"))
        for call in (cut.finish, cut.finish_json, cut.finish):
            with self.assertRaisesRegex(Refused, "^value: Truncated at 2$"):
                call()
        decoder = Decoder(registry, 0, limit=2)
        for _ in range(2):
            with self.assertRaisesRegex(Refused, "^value: TooLong at 2$"):
                decoder.feed(b"\1\2\3")
            self.assertEqual((decoder.taken, decoder.nodes, decoder.text_bytes), (2, 0, 0))
        for call in (decoder.finish, decoder.finish_json):
            with self.assertRaisesRegex(Refused, "^value: TooLong at 2$"):
                call()
        with self.assertRaisesRegex(Refused, "^value: TooLong at 2$"):
            registry.decode(0, b"\1\2\3\4", limit=2)

    def test_a_decoder_keeps_its_registry(self) -> None:
        decoder = Decoder(Registry(U16), 0)
        self.assertIsNone(decoder.feed(b"\x07"))
        self.assertEqual(decoder.feed(b"\x00"), 1)
        self.assertEqual((decoder.finish_json(), decoder.finish()), ("7", 7))

    def test_a_closed_registry_is_used_by_its_decoders_alone(self) -> None:
        registry = Registry(U16)
        first, second = Decoder(registry, 0), Decoder(registry, 0)
        found = registry.types[0]
        registry.close()
        registry.close()
        self.assertTrue(registry.closed)
        calls: list[Callable[[], object]] = [
            lambda: registry.decode(0, b"\x00\x00"),
            lambda: registry.decode_json(0, b"\x00\x00"),
            lambda: registry.decode_many(0, []),
            lambda: registry.decode_prefix(0, b"\x00\x00"),
            lambda: registry.encode(0, 5),
            lambda: registry.types[0],
            lambda: registry.find(""),
            lambda: registry.version,
            lambda: registry.end,
            lambda: found.kind,
            lambda: str(found),
            lambda: Decoder(registry, 0),
        ]
        for call in calls:
            with self.assertRaisesRegex(ValueError, "^the registry is closed$"):
                call()
        first.close()
        self.assertEqual(second.feed(b"\x02\x00\xff"), 2)
        self.assertEqual(second.finish(), 2)
        self.assertEqual(repr(registry), "<Registry, closed>")

    def test_a_live_decoder_hides_no_exception(self) -> None:
        with self.assertRaises(Refused) as raised:
            with Registry(U16) as registry:
                decoder = Decoder(registry, 0)
                registry.decode(0, b"")
        self.assertEqual(raised.exception.reason, "Truncated")
        self.assertEqual(decoder.feed(b"\x02\x00"), 2)
        self.assertEqual(decoder.finish(), 2)


class Arguments(unittest.TestCase):
    def test_numbers_out_of_range_are_named(self) -> None:
        value = b"\x02\x00"
        registry = Registry(U16)
        calls: list[Callable[..., object]] = [
            lambda type_id, **numbers: registry.decode(type_id, value, **numbers),
            lambda type_id, **numbers: registry.decode(type_id, bytes(9000), **numbers),
            lambda type_id, **numbers: registry.decode_json(type_id, value, **numbers),
            lambda type_id, **numbers: registry.decode_prefix(type_id, value, **numbers),
            lambda type_id, **numbers: registry.decode_many(type_id, [value], **numbers),
            lambda type_id, **numbers: Decoder(registry, type_id, **numbers),
        ]
        for call in calls:
            for number in (1 << 32, -(1 << 32), -1, 1 << 64, (1 << 64) - 1, 1 << 100_000):
                with self.assertRaisesRegex(OverflowError, "^type is out of range: "):
                    call(number)
            for number in (-1, 1025, 65536, 65600, 1 << 64):
                with self.assertRaisesRegex(OverflowError, "^depth is out of range: it has to be in 0 to 1024$"):
                    call(0, depth=number)
            for name, number in (("limit", 1 << 64), ("limit", -1), ("memory", -1)):
                with self.assertRaisesRegex(OverflowError, f"^{name} is out of range: "):
                    call(0, **{name: number})
            wrong: Any
            for wrong in (0.0, "0", None, b"0"):
                with self.assertRaises(TypeError):
                    call(wrong)
                with self.assertRaises(TypeError):
                    call(0, depth=wrong)
        for name, number in (("depth", 1025), ("depth", 65600), ("memory", 1 << 64)):
            with self.assertRaisesRegex(OverflowError, f"^{name} is out of range: "):
                registry.encode(0, 1, **{name: number})
        with self.assertRaisesRegex(OverflowError, "^type is out of range: "):
            registry.encode(1 << 32, 1)

    def test_numbers_in_range_reach_the_library(self) -> None:
        registry = Registry(U16)
        for limit in ((1 << 64) - 1, (1 << 40) + 1):
            for call in (registry.decode, registry.decode_json):
                with self.assertRaisesRegex(Refused, "^limits: LimitOutOfRange$"):
                    call(0, b"\x02\x00", limit=limit)
            with self.assertRaisesRegex(Refused, "^limits: LimitOutOfRange$"):
                Decoder(registry, 0, limit=limit)
        for number in ((1 << 32) - 1, 1):
            calls: list[Callable[[], object]] = [
                lambda: registry.decode(number, b""),
                lambda: registry.encode(number, 1),
                lambda: Decoder(registry, number),
            ]
            for unknown in calls:
                with self.assertRaisesRegex(Refused, f"^type: UnknownType {number}$"):
                    unknown()
        self.assertEqual(registry.decode(0, b"\x02\x00", depth=1024, limit=1 << 40, memory=(1 << 64) - 1), 2)
        self.assertEqual(registry.decode(data=b"\x02\x00", type=0), 2)

    def test_any_buffer_is_taken(self) -> None:
        def kinds(data: bytes) -> list[Any]:
            mapped = mmap.mmap(-1, len(data))
            mapped[:] = data
            doubled = bytes(byte for byte in data for _ in range(2))
            views = [memoryview(data), memoryview(bytearray(data)), memoryview(doubled)[::2]]
            return [bytearray(data), array.array("B", data), mapped, *views]

        for opened, value in zip(kinds(BYTES), kinds(bytes.fromhex("0c0102ff"))):
            registry = Registry(opened)
            decoder = Decoder(registry, 1)
            self.assertEqual(registry.decode(1, value), b"\1\2\xff")
            self.assertEqual(registry.decode_json(1, value), '"0x0102ff"')
            self.assertEqual(registry.decode_many(1, [value]), [b"\1\2\xff"])
            self.assertEqual(decoder.feed(value), 4)
        self.assertEqual(Registry(U16).decode(0, memoryview(b"\x02\x00").cast("H")), 2)

    def test_what_has_no_buffer_is_a_type_error(self) -> None:
        wrong: Any
        registry = Registry(U16)
        decoder = Decoder(registry, 0)

        def decode(data: Any) -> Any:
            return registry.decode(0, data)

        def prefix(data: Any) -> Any:
            return registry.decode_prefix(0, data)

        calls: list[Callable[[Any], object]] = [
            Registry, Registry.raw, decode, prefix, decoder.feed, registry.types[0].decode,
        ]
        for wrong in (None, 2, [2, 0]):
            for call in calls:
                with self.assertRaisesRegex(TypeError, f"^expected bytes .* not {type(wrong).__name__}$"):
                    call(wrong)
        # A piece of text may end between two digits.
        with self.assertRaisesRegex(TypeError, "^expected bytes .* not str$"):
            decoder.feed("0200")  # type: ignore[arg-type]

    def test_text_of_hexadecimal_digits_is_taken(self) -> None:
        registry = Registry("0x" + BYTES.hex())
        self.assertEqual(Registry.raw(BYTES.hex()).decode(1, "0x0c0102ff"), b"\1\2\xff")
        for text in ("0c0102ff", "0x0c0102ff", "0x0C0102fF", "0x0c0102ff\n", "0c0102ff\r\n"):
            self.assertEqual(registry.decode(1, text), b"\1\2\xff")
            self.assertEqual(registry.types[1].decode(text), b"\1\2\xff")
            self.assertEqual(registry.decode_json(1, text), '"0x0102ff"')
            self.assertEqual(registry.decode_many(1, [text, b"\0"]), [b"\1\2\xff", b""])
            self.assertEqual(registry.decode_prefix(1, text), (b"\1\2\xff", 4))
        self.assertEqual(registry.decode_prefix(1, "0x0c0102ff0000"), (b"\1\2\xff", 4))
        self.assertEqual(registry.decode(1, "100c0102ff", opaque=True), b"\1\2\xff")
        long = make.compact(300_000) + bytes(300_000)
        self.assertEqual(registry.decode(1, "0x" + long.hex()), bytes(300_000))
        with self.assertRaisesRegex(Refused, "^value: Truncated at 3$"):
            registry.decode(1, "0x0c0102")

    def test_other_text_is_rejected(self) -> None:
        registry = Registry(U16)
        for text, reason, place in (
            ("0", "OddHex", 1), ("0x0", "OddHex", 3), ("020", "OddHex", 3),
            ("0200\n\n", "OddHex", 5), ("0200\r\r\n", "OddHex", 5), ("x020", "BadHex", 0),
            ("0X00", "BadHex", 1), ("02 0", "BadHex", 2), ("0x0g", "BadHex", 3),
            ("02é0", "BadHex", 2), ("02\ud8000", "BadHex", 2), ("02\x000", "BadHex", 2),
            ("-200", "BadHex", 0), ("0x0x", "BadHex", 3), ("\uff10200", "BadHex", 0),
            ("02/0", "BadHex", 2), ("02:@", "BadHex", 2), ("02G`", "BadHex", 2),
        ):
            calls: list[tuple[str, str, Callable[[], object]]] = [
                ("value", "", lambda: registry.decode(0, text)),
                ("value", "", lambda: registry.decode_json(0, text)),
                ("value", "", lambda: registry.decode_prefix(0, text)),
                ("value", " in item 1", lambda: registry.decode_many(0, ["0200", text])),
                ("registry", "", lambda: Registry(text)),
                ("registry", "", lambda: scaleview.Metadata(text)),
            ]
            for part, item, call in calls:
                with self.subTest(text), self.assertRaises(Refused) as raised:
                    call()
                found = raised.exception
                self.assertEqual(str(found), f"{part}: {reason} at {place}{item}")
                said = found.code, found.reason, found.part, found.place
                self.assertEqual(said, (0, reason, part, place))
                self.assertEqual(str(pickle.loads(pickle.dumps(found))), str(found))
        self.assertEqual(registry.decode_prefix(0, "0200"), (2, 2))
        for empty in ("", "0x", "\n", "0x\r\n"):
            with self.assertRaisesRegex(Refused, "^value: Truncated at 0$"):
                registry.decode(0, empty)

    def test_a_length_is_the_buffers(self) -> None:
        class Lying(bytes):
            def __len__(self) -> int:
                return lie

        for lie in (0, 1, 100, 1 << 40):
            registry = Registry(Lying(U16))
            decoder = Decoder(registry, 0)
            self.assertEqual(registry.decode(0, Lying(b"\x02\x00")), 2)
            self.assertEqual(registry.decode_json(0, Lying(b"\x02\x00")), "2")
            self.assertEqual(decoder.feed(Lying(b"\x02")), None)
            self.assertEqual(decoder.feed(Lying(b"\x00")), 1)
            self.assertEqual(Registry(BYTES).encode(1, Lying(b"ab")), b"\x08ab")

    @unittest.skipIf(sys.version_info < (3, 11), "older versions know no signatures of such classes")
    def test_signatures_are_shown(self) -> None:
        rest = "depth=64, limit=16777216, memory=Ellipsis"
        for call, signature in (
            (Registry, "(data, *, metadata=None, bits=False)"),
            (Registry.decode, f"(self, /, type, data, *, {rest}, opaque=False)"),
            (Registry.decode_json, f"(self, /, type, data, *, {rest}, opaque=False)"),
            (Registry.decode_prefix, f"(self, /, type, data, *, {rest})"),
            (Registry.decode_many, f"(self, /, type, items, *, {rest}, opaque=False)"),
            (Registry.encode, "(self, /, type, value, *, depth=64, memory=Ellipsis)"),
            (scaleview.Metadata.extrinsic, f"(self, /, data, *, {rest})"),
            (scaleview.Metadata.call, f"(self, /, data, *, {rest})"),
            (Type, "(registry, type_id)"),
            (Type.decode, f"(self, /, data, *, {rest}, opaque=False)"),
            (Type.encode, "(self, /, value, *, depth=64, memory=Ellipsis)"),
            (Decoder, f"(registry, type, *, {rest})"),
            (Decoder.feed, "(self, piece, /)"),
            (Variant, "(name, fields=[], index=None)"),
        ):
            self.assertEqual(str(inspect.signature(call)), signature)

    def test_metadata_is_recognised(self) -> None:
        for version in (14, 15):
            data = b"meta" + bytes([version]) + U16 + b"\xff"
            for registry in (Registry(data), Registry(data, metadata=True), Registry(bytearray(data))):
                self.assertEqual((registry.version, registry.end), (version, 5 + len(U16)))
                self.assertEqual(registry.decode(0, b"\2\0"), 2)
            for call in (lambda: Registry.raw(data), lambda: Registry(data, metadata=False)):
                with self.assertRaisesRegex(Refused, "^registry: IdOutOfPlace at 2$"):
                    call()
        registry = Registry(U16)
        self.assertEqual((registry.version, registry.end), (None, len(U16)))
        self.assertEqual(Registry.raw(U16).version, None)
        for data, message in ((b"meta\x10", "WrongVersion at 4"), (b"meta", "Truncated at 4")):
            with self.assertRaisesRegex(Refused, f"^registry: {message}$"):
                Registry(data)
        with self.assertRaisesRegex(Refused, "^registry: NotMetadata at 0$"):
            Registry(U16, metadata=True)


class Types(unittest.TestCase):
    def test_types_are_described(self) -> None:
        registry = Registry(
            make.registry_of(
                make.primitive("u8"), make.composite(("x", 0), (None, 2)),
                make.variant(("End", 7, ()), ("Next", 9, (("n", 0), (None, 3)))), make.sequence(0), make.array(5, 3),
                make.members(0, 1), make.compact_of(0), make.bits(0, 8), make.members(), make.variant(),
                _1="a::Pair", _2="a::Pair",
            )
        )
        self.assertEqual(repr(registry), "<Registry of 10 types>")
        self.assertEqual((len(registry.types), repr(registry.types)), (10, "<10 types>"))
        kinds = "u8 composite variant sequence array tuple compact bitsequence tuple variant".split()
        self.assertEqual([found.kind for found in registry.types], kinds)
        self.assertEqual([found.id for found in registry.types], list(range(10)))
        self.assertEqual([found.path for found in registry.types], ["", "a::Pair", "a::Pair", *[""] * 7])
        self.assertEqual([found.element for found in registry.types], [None, None, None, 0, 3, None, 0, 0, None, None])
        self.assertEqual([found.length for found in registry.types], [*[None] * 4, 5, *[None] * 5])
        self.assertEqual([found.order for found in registry.types], [*[None] * 7, 8, None, None])
        self.assertEqual([found.size_class for found in registry.types], [*["Sized"] * 8, "Empty", "NoValue"])
        self.assertEqual(registry.types[1].fields, [Field("x", 0), Field(None, 2)])
        self.assertEqual(registry.types[5].fields, [Field(None, 0), Field(None, 1)])
        self.assertEqual(registry.types[1].variants + registry.types[0].variants, [])
        arms = [Arm("End", 7, []), Arm("Next", 9, [Field("n", 0), Field(None, 3)])]
        self.assertEqual((registry.types[2].variants, registry.types[2].fields), (arms, []))
        self.assertEqual(str(registry.types[1]), '1 Sized composite "a::Pair"')
        self.assertEqual(repr(registry.types[1]), "<Type 1 composite a::Pair>")
        self.assertEqual(repr(registry.types[0]), "<Type 0 u8>")

    def test_annotations(self) -> None:
        # W<T = 1, U> { x: 1 as T, 1 }, A(2 as u8), u8
        registry = Registry(
            b"\x0c\x00\x04\x04W\x08\x04T\x01\x04\x04U\x00\x00\x08\x01\x04x\x04\x01\x04T\x04\x10of x\x00\x04\x00\x00\x08\x0cone\x00"
            b"\x04\x00\x00\x01\x04\x04A\x04\x00\x08\x01\x08u8\x08\x04f\x04g\x00\x04\x18an arm\x00\x08\x00\x00\x05\x03\x00"
        )
        generic, variant, plain = registry.types
        self.assertEqual(generic.params, [Param("T", 1), Param("U", None)])
        self.assertEqual((variant.params, plain.params), ([], []))
        self.assertEqual((generic.docs, variant.docs, plain.docs), (("one", ""), (), ()))
        self.assertEqual(generic.fields, [Field("x", 1, "T", ("of x",)), Field(None, 1)])
        self.assertEqual(variant.variants, [Arm("A", 0, [Field(None, 2, "u8", ("f", "g"))], ("an arm",))])

    def test_types_are_a_sequence(self) -> None:
        registry = Registry(make.registry_of(*map(make.primitive, make.PRIMITIVES)))
        types = registry.types
        self.assertEqual((types[-1], types[3:5]), (types[14], [types[3], types[4]]))
        self.assertEqual(len({types[1], types[1], types[2]}), 2)
        self.assertIn(types[2], types)
        self.assertNotEqual(types[0], Registry(U16).types[0])
        for index in (15, -16, 1 << 64):
            with self.assertRaises(IndexError):
                types[index]

    def test_types_are_found(self) -> None:
        registry = Registry((EXAMPLES / "runtime" / "metadata.scale").read_bytes())
        record = registry.find("frame_system::EventRecord")
        assert record
        self.assertEqual((record.id, record.kind), (11, "composite"))
        self.assertEqual(registry.find_all("frame_system::EventRecord"), [record])
        options = registry.find_all("Option")
        self.assertGreater(len(options), 3)
        self.assertEqual({found.path for found in options}, {"Option"})
        self.assertEqual((registry.find(""), registry.find_all("")), (None, []))
        self.assertEqual((registry.find("frame_system"), registry.find_all("x::Y")), (None, []))
        lines = (EXAMPLES / "runtime" / "types.txt").read_text().splitlines()
        self.assertEqual([str(found) for found in registry.types], lines)
        with self.assertRaises(TypeError):
            registry.find(5)  # type: ignore[arg-type]
        with self.assertRaises(ValueError):
            registry.find("\ud800")

    def test_the_sequences_of_a_type_are_found(self) -> None:
        registry = Registry(
            make.registry_of(
                make.primitive("u8"), make.sequence(0), make.array(3, 0), make.compact_of(0),
                make.sequence(1), make.sequence(0), make.members(0), make.composite((None, 0)),
                make.bits(0, 7), _7="Lsb0",
            )
        )
        self.assertEqual([found.id for found in registry.sequences_of(0)], [1, 5])
        self.assertEqual(registry.sequences_of(registry.types[1]), [registry.types[4]])
        self.assertEqual(registry.sequences_of(4), [])
        with self.assertRaisesRegex(Refused, "^type: UnknownType 9$"):
            registry.sequences_of(9)
        with self.assertRaisesRegex(ValueError, "^the type belongs to another registry$"):
            registry.sequences_of(Registry(U16).types[0])
        runtime = Registry((EXAMPLES / "runtime" / "metadata.scale").read_bytes())
        record = runtime.find("frame_system::EventRecord")
        assert record
        # `values.txt` names the type of the events of a block.
        lines = (EXAMPLES / "runtime" / "values.txt").read_text().splitlines()
        position = dict(line.split() for line in lines)["events_block"]
        self.assertEqual([str(found.id) for found in runtime.sequences_of(record)], [position])

    def test_a_type_decodes_and_encodes(self) -> None:
        registry = Registry(BYTES)
        found = registry.types[1]
        data = b"\x0c\1\2\xff"
        narrow = {"depth": 0, "limit": 4, "memory": 1000}
        limits: list[dict[str, Any]] = [{}, narrow, {"memory": None}]
        for given in limits:
            self.assertEqual(found.decode(data, **given), b"\1\2\xff")
        self.assertEqual(found.decode(data=b"\x10" + data, opaque=True), b"\1\2\xff")
        self.assertEqual(found.encode(b"\1\2\xff"), data)
        self.assertEqual(found.encode(value=b"", memory=1000, depth=0), b"\0")
        calls: list[tuple[type, str, Callable[[], object]]] = [
            (Refused, "value: TooLong at 3", lambda: found.decode(data, limit=3)),
            (Refused, "type: UnknownType 9", lambda: Type(registry, 9).decode(data)),
            (Refused, "type: UnknownType 9", lambda: Type(registry, 9).encode(data)),
            (OverflowError, "depth is out of range", lambda: found.decode(data, depth=1025)),
            (OverflowError, "type is out of range", lambda: Type(registry, 1 << 32)),
            (OutOfMemory, "the budget of 1 bytes", lambda: found.encode(b"", memory=1)),
            (TypeError, "value: expected bytes, not str", lambda: found.encode("00")),
        ]
        for kind, message, call in calls:
            with self.assertRaisesRegex(kind, f"^{message}"):
                call()
        wrong: Any
        cases = (), (registry,), (registry, "1"), (registry, None), (BYTES, 1), (registry, 1, 2)
        for wrong in cases:
            with self.assertRaises(TypeError):
                Type(*wrong)
        for name in ("id", "registry"):
            with self.assertRaises(AttributeError):
                setattr(found, name, 5)
        self.assertEqual([copy.copy(found), copy.deepcopy(found)], [found] * 2)
        registry.close()
        for call in (lambda: found.decode(data), lambda: found.encode(b"")):
            with self.assertRaisesRegex(ValueError, "^the registry is closed$"):
                call()

    def test_a_type_that_its_registry_refers_to_is_collected(self) -> None:
        registry: Any = Registry(BYTES)
        registry.kept = registry.types[1]
        gone = weakref.ref(registry)
        del registry
        gc.collect()
        self.assertIsNone(gone())

    def test_a_type_stands_for_its_position(self) -> None:
        registry, other = Registry(BYTES), Registry(BYTES)
        found = registry.types[1]
        data = b"\x04a"
        self.assertEqual(registry.decode(found, data), b"a")
        self.assertEqual(registry.encode(found, b"a"), data)
        self.assertEqual(registry.decode_many(found, [data]), [b"a"])
        self.assertEqual(Decoder(registry, found).feed(data), 2)
        for call in (lambda: other.decode(found, data), lambda: Decoder(other, found), lambda: other.encode(found, b"a")):
            with self.assertRaisesRegex(ValueError, "^the type belongs to another registry$"):
                call()
        with self.assertRaisesRegex(Refused, "^type: UnknownType 9$"):
            Type(registry, 9).kind

    def test_what_is_no_type_is_named(self) -> None:
        registry = Registry(BYTES)
        wrong: Any
        for wrong in ("frame_system::AccountInfo", True, None, 1.0, Type):
            message = f"a type is its position or a Type, not '{type(wrong).__name__}'"
            if isinstance(wrong, str):
                message += "; find() gives the type of a path, and type_of() of a Metadata that of a name"
            calls = (registry.decode, registry.decode_prefix, registry.decode_json, registry.decode_many, registry.encode)
            for call in calls:
                with self.assertRaises(TypeError) as raised:
                    call(wrong, b"\x04a")
                self.assertEqual(str(raised.exception), message)
            with self.assertRaises(TypeError) as raised:
                Decoder(registry, wrong)
            self.assertEqual(str(raised.exception), message)


class Stubs(unittest.TestCase):
    def test_stubs_name_what_is_there(self) -> None:
        native: Any = scaleview._native
        stub = ast.parse((pathlib.Path(scaleview.__file__).parent / "_native.pyi").read_text())
        classes = [node for node in stub.body if isinstance(node, ast.ClassDef)]
        names = ["Variant", "Registry", "Metadata", "Type", "Decoder"]
        self.assertEqual([node.name for node in classes], names)
        for node in classes:
            stubbed = {part.name for part in node.body if isinstance(part, ast.FunctionDef)}
            there = set(vars(getattr(native, node.name)))
            self.assertLessEqual(stubbed, there)
            self.assertEqual({name for name in there if not name.startswith("__")} - stubbed, set())
        for name in scaleview.__all__:
            self.assertTrue(getattr(scaleview, name))

    def test_help_lists_no_private_names(self) -> None:
        for shown in (Registry, scaleview.Metadata, Type, Decoder, Bits):
            text = pydoc.plain(pydoc.render_doc(shown))
            self.assertIn(shown.__name__, text)
            self.assertEqual(re.findall(r"(?m)^ \|  (_[a-z]\w*)", text), [])

    def test_stubs_tell_which_classes_are_final(self) -> None:
        stub = ast.parse((pathlib.Path(scaleview.__file__).parent / "_native.pyi").read_text())
        for node in (part for part in stub.body if isinstance(part, ast.ClassDef)):
            words = [word.id for word in node.decorator_list if isinstance(word, ast.Name)]
            try:
                type("Derived", (getattr(scaleview._native, node.name),), {})
                self.assertEqual(words, [])
            except TypeError:
                self.assertEqual(words, ["final"])

    def test_annotations_name_what_is_taken(self) -> None:
        stub = (pathlib.Path(scaleview.__file__).parent / "_native.pyi").read_text()
        self.assertIn("from typing_extensions import Buffer", stub)
        registry = Registry(BYTES)
        self.assertIn("SupportsIndex", type(registry.types).__getitem__.__annotations__["index"])
        self.assertEqual(registry.types[registry.types[1]], registry.types[1])


class Answers(unittest.TestCase):
    def test_refusals_have_reason_and_place(self) -> None:
        registry = Registry(U16)
        with self.assertRaises(Refused) as raised:
            registry.decode(0, b"\x01")
        refused = raised.exception
        self.assertIsInstance(refused, ValueError)
        self.assertEqual((refused.code, refused.part, refused.reason, refused.place), (301, "value", "Truncated", 1))
        self.assertEqual((str(refused), refused.item), ("value: Truncated at 1", None))
        with self.assertRaises(Refused) as raised:
            Decoder(registry, 1)
        self.assertEqual((raised.exception.code, raised.exception.place), (201, None))
        self.assertEqual(str(raised.exception), "type: UnknownType 1")
        with self.assertRaises(Refused) as raised:
            Registry(bytes.fromhex("04000000020400"))
        self.assertEqual(str(raised.exception), "check: UnknownType 1 in type 0")
        self.assertEqual((raised.exception.place, raised.exception.from_type, raised.exception.to_type), (None, 0, 1))

    def test_decoders_are_not_copied(self) -> None:
        decoder = Decoder(Registry(U16), 0)
        for call in (copy.copy, copy.deepcopy, pickle.dumps):
            with self.assertRaises(TypeError):
                call(decoder)

    def test_exceptions_are_pickled_and_copied(self) -> None:
        raised: list[Refused] = []
        for call in (
            lambda: Registry(b"\x04\x04"),
            lambda: Registry(bytes.fromhex("08000000050300040000020800")),
            lambda: Registry(U16).decode(0, b"\x01"),
            lambda: Registry(U16).decode(1, b"\x01"),
            lambda: Registry(U16).decode(0, b"\x01", limit=1 << 41),
            lambda: Registry(U16).decode_many(0, [b"\x01"]),
        ):
            with self.assertRaises(Refused) as context:
                call()
            raised.append(context.exception)
        self.assertEqual([refused.code for refused in raised], [108, 112, 301, 201, 202, 301])
        for refused in raised:
            refused.note = "kept"  # type: ignore[attr-defined]
            copies = [pickle.loads(pickle.dumps(refused, protocol)) for protocol in range(pickle.HIGHEST_PROTOCOL + 1)]
            # As `multiprocessing` sends what a worker raises.
            copies.append(pickle.loads(ForkingPickler.dumps(refused)))
            for other in (*copies, copy.copy(refused), copy.deepcopy(refused)):
                self.assertIs(type(other), Refused)
                self.assertEqual((vars(other), str(other)), (vars(refused), str(refused)))

    def test_a_process_pool_raises_what_its_worker_raised(self) -> None:
        program = (
            "import concurrent.futures, multiprocessing, scaleview\n"
            "def work(data):\n"
            "    return scaleview.Registry(bytes.fromhex('04000000050400')).decode(0, data)\n"
            "if __name__ == '__main__':\n"
            "    with multiprocessing.Pool(2) as pool:\n"
            "        print(pool.map(work, [b'ab', b'cd']))\n"
            "        try: pool.map(work, [b'ab', b'c'])\n"
            "        except scaleview.Refused as refused: print(refused)\n"
            "    with concurrent.futures.ProcessPoolExecutor(1) as pool:\n"
            "        try: pool.submit(work, b'c').result()\n"
            "        except scaleview.Refused as refused: print(refused.place, refused.reason)\n"
        )
        with tempfile.TemporaryDirectory() as folder:
            path = pathlib.Path(folder) / "pools.py"
            path.write_text(program)
            command = [sys.executable, str(path)]
            printed = subprocess.run(command, stdout=subprocess.PIPE, universal_newlines=True, timeout=120)
        self.assertEqual(printed.stdout, "[25185, 25699]\nvalue: Truncated at 1\n1 Truncated\n")


class Depth(unittest.TestCase):
    """What Python's recursion does with deep values, each time in a process of its own, which a crash would end."""

    PROGRAM = """
import copy, pickle, sys, threading
from scaleview import Variant
call, depth, stack = eval(sys.argv[1]), int(sys.argv[2]), int(sys.argv[3])
def chain(fields):
    value = Variant("End", [], 0)
    for _ in range(depth): value = Variant("Next", fields(value), 1)
    return value
def run():
    for fields in (lambda value: [value], lambda value: {"rest": value}, lambda value: (value,)):
        try: print(call(chain(fields), chain(fields)), end=" ")
        except RecursionError: print("RecursionError", end=" ")
threading.stack_size(stack)
thread = threading.Thread(target=run)
thread.start()
thread.join()
"""
    REPR = "lambda value, other: repr(value).count('Variant(') == depth + 1"
    EQUALS = "lambda value, other: value == other and not value != other"
    COPY = "lambda value, other: copy.deepcopy(value).name == 'Next'"
    PICKLE = "lambda value, other: pickle.loads(pickle.dumps(value)).name == 'Next'"

    def outcomes(self, call: str, depth: int, stack: int) -> list[str]:
        command = [sys.executable, "-c", self.PROGRAM, call, str(depth), str(stack)]
        ended = subprocess.run(command, stdout=subprocess.PIPE, universal_newlines=True)
        self.assertEqual(ended.returncode, 0)
        return ended.stdout.split()

    def test_values_of_the_default_depth_are_used_like_others(self) -> None:
        for call, stack in ((self.REPR, 32), (self.EQUALS, 32), (self.COPY, 512), (self.PICKLE, 512)):
            with self.subTest(call):
                self.assertEqual(self.outcomes(call, scaleview.DEPTH, stack << 10), ["True"] * 3)

    def test_the_deepest_values_raise_recursion_errors(self) -> None:
        """Or are used like others, if the version of Python has a greater limit. None ends the process."""
        for call in (self.REPR, self.EQUALS, self.COPY, self.PICKLE):
            with self.subTest(call):
                outcomes = self.outcomes(call, 1024, 0)
                self.assertEqual(len(outcomes), 3)
                allowed = {"RecursionError"} if sys.version_info < (3, 12) else {"RecursionError", "True"}
                self.assertLessEqual(set(outcomes), allowed)


class Interpreters(unittest.TestCase):
    """Other interpreters of a process, each time a process of its own, which a fault would end."""

    BEGIN = """
import os, sys
try: import _interpreters as interpreters
except ImportError: import _xxsubinterpreters as interpreters
def create(is_isolated):
    if sys.version_info >= (3, 13): return interpreters.create("isolated" if is_isolated else "legacy")
    return interpreters.create(isolated=is_isolated) if sys.version_info >= (3, 9) else interpreters.create()
"""
    # Each of its nine checks is True.
    USE = """
import os, pickle, scaleview
def is_caught(kind, call, *words, **numbers):
    try: call(*words, **numbers)
    except kind as error: return type(error) is kind and type(pickle.loads(pickle.dumps(error))) is kind
registry = scaleview.Registry(DATA)
value = registry.decode(0, bytes([1, 0]))
checks = [
    type(value) is scaleview.Variant,
    value == scaleview.Variant("Next", [scaleview.Variant("End")]),
    type(pickle.loads(pickle.dumps(value))) is scaleview.Variant,
    registry.encode(0, value) == bytes([1, 0]),
    type(registry.decode(1, bytes([4]))) is scaleview.Empties,
    is_caught(scaleview.Refused, registry.decode, 0, b""),
    is_caught(scaleview.Refused, scaleview.Decoder, registry, 9),
    is_caught(scaleview.EncodeError, registry.encode, 0, value, depth=0),
    is_caught(scaleview.OutOfMemory, registry.encode, 0, value, memory=1),
]
os.write(1, b"%d of %d, " % (checks.count(True), len(checks)))
"""

    def used_data(self) -> str:
        """The checks, with the registry that they use."""
        arms = make.variant(("End", 0, ()), ("Next", 1, ((None, 0),)))
        return f"DATA = {make.registry_of(arms, make.sequence(2), make.members())!r}\n{self.USE}"

    def run_program(self, program: str) -> str:
        command = [sys.executable, "-W", "ignore", "-c", self.BEGIN + program]
        ended = subprocess.run(command, stdout=subprocess.PIPE, stderr=subprocess.PIPE, universal_newlines=True)
        self.assertEqual((ended.returncode, ended.stderr), (0, ""))
        return ended.stdout

    def test_each_interpreter_has_its_own_classes(self) -> None:
        """In the first one, twice in each of two others, and in the first one after the others have ended."""
        program = (
            f"use = {self.used_data()!r}\n"
            "exec(use)\n"
            "others = [create(False), create(False)]\n"
            "for other in others * 2: interpreters.run_string(other, use)\n"
            "for other in others: interpreters.destroy(other)\n"
            "exec(use)\n"
        )
        self.assertEqual(self.run_program(program), "9 of 9, " * 6)

    @unittest.skipIf(sys.version_info < (3, 12), "all interpreters share a lock before 3.12")
    def test_interpreters_with_locks_of_their_own_run_at_once(self) -> None:
        """Each imports it by itself, and decodes in a thread while the others do."""
        program = (
            "import threading\n"
            f"use = {self.used_data()!r}\n"
            "others = [create(True) for _ in range(4)]\n"
            "def run(other):\n"
            "    for _ in range(20): interpreters.run_string(other, use)\n"
            "threads = [threading.Thread(target=run, args=(other,)) for other in others]\n"
            "for thread in threads: thread.start()\n"
            "for thread in threads: thread.join()\n"
            "for other in others: interpreters.destroy(other)\n"
            "exec(use)\n"
        )
        self.assertEqual(self.run_program(program), "9 of 9, " * 81)


class Program(unittest.TestCase):
    """decode.py."""

    folder = EXAMPLES / "account"

    def check(self, words: list[str], status: int, out: str, err: str) -> None:
        command = [sys.executable, str(CLIENT / "decode.py"), *words]
        ended = subprocess.run(command, stdout=subprocess.PIPE, stderr=subprocess.PIPE, universal_newlines=True)
        self.assertEqual((ended.returncode, ended.stdout, ended.stderr), (status, out, err))

    def test_a_value_is_read_as_hexadecimal_text(self) -> None:
        begin = ["decode", str(self.folder / "metadata.scale"), "5"]
        end = ["--metadata", "--hex"]
        shown = (self.folder / "memo.json").read_text()
        self.check([*begin, str(self.folder / "memo.hex"), *end], 0, shown, "")
        with tempfile.TemporaryDirectory() as folder:
            path = pathlib.Path(folder) / "value.hex"
            for text in (b"145343414C45", b"0x145343414c45\r\n", b"145343414c45\n"):
                path.write_bytes(text)
                self.check([*begin, str(path), *end, "--pieces", "3"], 0, shown, "")
            odd = ((b"0x145", "OddHex at 5"), (b"14\n\n", "OddHex at 3"))
            for text, reason in (*odd, (b"0x14 5", "BadHex at 4"), (b"0X14", "BadHex at 1")):
                path.write_bytes(text)
                self.check([*begin, str(path), *end], 1, "", f"scaleview: value: {reason}\n")

    def test_a_missing_file_is_named_in_a_line(self) -> None:
        there, missing = str(self.folder / "registry.scale"), str(self.folder / "missing.scale")
        line = f"scaleview: {missing}: No such file or directory\n"
        for words in (["types", missing], ["decode", missing, "4", there], ["decode", there, "4", missing]):
            self.check(words, 3, "", line)


class Building(unittest.TestCase):
    def run_backend(self, program: str, **variables: str) -> subprocess.CompletedProcess[str]:
        return subprocess.run(
            [sys.executable, "-c", program],
            cwd=CLIENT,
            env={**os.environ, "PYTHONDONTWRITEBYTECODE": "1", **variables},
            stdout=subprocess.PIPE,
            stderr=subprocess.PIPE,
            universal_newlines=True,
        )

    def test_a_wheel_is_used_from_any_folder(self) -> None:
        with tempfile.TemporaryDirectory() as folder:
            built = self.run_backend(f"import build_backend; print(build_backend.build_wheel({folder!r}))")
            self.assertEqual(built.returncode, 0, built.stderr)
            wheel = pathlib.Path(folder) / built.stdout.strip()
            self.assertRegex(wheel.name, r"^scaleview-0\.1\.0-cp38-abi3-\w+\.whl$")
            with zipfile.ZipFile(wheel) as opened:
                opened.extractall(folder)
                names = opened.namelist()
            for name in ("__init__.py", "_native.pyi", "py.typed", "_native.abi3.so"):
                self.assertIn(f"scaleview/{name}", names)
            ended = subprocess.run(
                [sys.executable, "-I", "-c", f"import sys; sys.path[:0] = [{folder!r}]; import scaleview as s; "
                 "print(s.__file__, s.__version__, s.Registry(bytes.fromhex('04000000050300')).decode(0, b'*'))"],
                cwd="/", stdout=subprocess.PIPE, universal_newlines=True,
            )
        self.assertEqual(ended.stdout, f"{folder}/scaleview/__init__.py 0.1.0 42\n")

    def test_an_sdist_has_all_sources(self) -> None:
        with tempfile.TemporaryDirectory() as folder:
            built = self.run_backend(
                f"import build_backend as b, tarfile; name = b.build_sdist({folder!r}); "
                f"tarfile.open({folder!r} + '/' + name).extractall({folder!r})"
            )
            self.assertEqual(built.returncode, 0, built.stderr)
            sources = pathlib.Path(folder) / "scaleview-0.1.0"
            ended = subprocess.run(
                [sys.executable, "build_backend.py", "made"],
                cwd=sources,
                env={name: value for name, value in os.environ.items() if name != "SCALEVIEW_LIB_DIR"},
                stderr=subprocess.PIPE,
                universal_newlines=True,
            )
            self.assertEqual((ended.returncode, ended.stderr), (0, ""))
            self.assertTrue((sources / "made" / "scaleview" / "_native.abi3.so").exists())

    def test_what_is_missing_is_explained_in_a_line(self) -> None:
        with tempfile.TemporaryDirectory() as folder:
            program = f"import build_backend; build_backend.build_wheel({folder!r})"
            missing = [({"SCALEVIEW_LIB_DIR": folder}, "libscaleview.a is missing"), ({"CC": "no-cc"}, "`no-cc`")]
            for variables, word in missing:
                ended = self.run_backend(program, **variables)
                self.assertEqual(ended.returncode, 1)
                (line,) = ended.stderr.splitlines()
                self.assertTrue(line.startswith("scaleview: "))
                self.assertIn(word, line)
                self.assertIn("`bash clients/build`", line)

    def import_from(self, folder: pathlib.Path) -> str:
        """The last line of what an import from this folder prints."""
        ended = subprocess.run(
            [sys.executable, "-c", "import scaleview"],
            cwd="/",
            env={**os.environ, "PYTHONPATH": str(folder), "PYTHONDONTWRITEBYTECODE": "1"},
            stderr=subprocess.PIPE,
            universal_newlines=True,
        )
        return (ended.stderr.splitlines() or [""])[-1]

    def test_sources_without_the_extension_are_explained(self) -> None:
        with tempfile.TemporaryDirectory() as folder:
            shutil.copytree(CLIENT / "src", pathlib.Path(folder) / "src", ignore=shutil.ignore_patterns("*.so"))
            line = self.import_from(pathlib.Path(folder) / "src")
        self.assertRegex(line, "^ImportError: scaleview can't be loaded: install it by `pip install ./clients/python`")

    def test_another_version_of_the_library_is_not_used(self) -> None:
        with tempfile.TemporaryDirectory() as folder:
            copy_of = pathlib.Path(folder)
            for name in ("native", "src"):
                shutil.copytree(CLIENT / name, copy_of / name, ignore=shutil.ignore_patterns("*.so"))
            shutil.copy(CLIENT / "build_backend.py", copy_of)
            header = (CLIENT.parent / "c" / "scaleview.h").read_text()
            changed = re.sub("#define SCALEVIEW_VERSION .*", "#define SCALEVIEW_VERSION 654321", header)
            (copy_of / "native" / "scaleview.h").write_text(changed)
            archive = os.environ.get("SCALEVIEW_LIB_DIR", str(CLIENT.parent / "out"))
            built = subprocess.run(
                [sys.executable, "build_backend.py", "made"], cwd=copy_of, env={**os.environ, "SCALEVIEW_LIB_DIR": archive}
            )
            self.assertEqual(built.returncode, 0)
            line = self.import_from(copy_of / "made")
        version = scaleview._native.LIBRARY_VERSION
        self.assertIn(f"built with the header 654321 and the library {version}: run `bash clients/build`", line)

    def test_formats_have_no_lengths(self) -> None:
        """What the headers of Python 3.13 make of them doesn't run in older versions."""
        for path in sorted((CLIENT / "native").glob("*.c")):
            code = re.sub(r"(?m)^#.*", "", path.read_text())
            self.assertNotRegex(code, r"\"[^\"\n]*#[^\"\n]*\"", path.name)

    def test_versions_agree(self) -> None:
        self.assertIn(f'version = "{scaleview.__version__}"', (CLIENT / "pyproject.toml").read_text())
        self.assertIn(f'"{scaleview.__version__}"', (CLIENT / "build_backend.py").read_text())
        header = (CLIENT.parent / "c" / "scaleview.h").read_text()
        self.assertIn(f"#define SCALEVIEW_VERSION {scaleview._native.LIBRARY_VERSION}\n", header)


if __name__ == "__main__":
    unittest.main()
