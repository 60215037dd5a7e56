"""Lets each of Python's allocations fail in turn: every call of the extension module then raises MemoryError.

What is called makes no function or generator meanwhile, since interpreters crash where that fails.
"""

from __future__ import annotations

import contextlib
import pathlib
import unittest
from typing import Any, Callable

import registries as make
from scaleview import Bits, Decoder, Empties, Refused, Registry, Type, Variant
from test_vectors import metadata_of

testing: Any = None
with contextlib.suppress(ImportError):
    import _testcapi as testing

EXAMPLE = pathlib.Path(__file__).resolve().parents[3] / "examples" / "account"


@unittest.skipUnless(hasattr(testing, "set_nomemory"), "this Python can't let its allocations fail")
class Allocations(unittest.TestCase):
    def check_call(self, call: Callable[[], object]) -> None:
        """Until no allocation is left to fail."""
        call()
        failed = kept = number = 0
        while kept < 15:
            number += 1
            testing.set_nomemory(number, number + 1)
            try:
                call()
                kept += 1
            except MemoryError:
                failed, kept = failed + 1, 0
            finally:
                testing.remove_mem_hooks()
        self.assertGreater(failed, 0)

    def test_calls(self) -> None:
        data, events = (EXAMPLE / "registry.scale").read_bytes(), (EXAMPLE / "events.scale").read_bytes()
        registry, small = Registry(data), Registry(
            make.registry_of(*map(make.primitive, make.PRIMITIVES), make.members(), make.sequence(15), make.sequence(8))
        )
        bits = make.registry_of(make.primitive("u16"), make.composite(), make.bits(0, 1), _1="bitvec::Msb0")
        chain = metadata_of("small chain 15")
        wrapped = b"\1" + make.compact(len(chain)) + chain
        value = registry.decode(12, events)
        numbers = [(8, 1 << 255), (14, -(1 << 255)), (13, -(1 << 127)), (16, Empties(5)), (2, "é"), (17, [1 << 200] * 3)]
        wrong = [Variant("Transfer", {"from": (b"",), "to": 5, "amount": 1})]

        def described() -> None:
            opened = Registry(data)
            for type_id in range(13):
                opened._path(type_id), opened._shape(type_id), opened._line(type_id), opened._find("Option")
                opened._parts(type_id), opened._arms(type_id)

        def there_and_back() -> None:
            for type_id, number in numbers:
                small.decode(type_id, small.encode(type_id, number))

        def bits_there_and_back() -> None:
            opened = Registry(bits, bits=True)
            opened.decode(2, opened.encode(2, opened.decode(2, opened.encode(2, [True] * 100))))

        def in_pieces() -> None:
            decoder = Decoder(registry, 12)
            decoder.feed(bytearray(events))
            decoder.finish(), decoder.finish_json(), decoder.taken

        def rejected() -> None:
            for type_id, bad, depth in ((12, wrong, 64), (12, value, 1)):
                try:
                    registry.encode(type_id, bad, depth=depth)
                except ValueError:
                    pass
            for opened, type_id, mixed in ((small, 16, [None, 1]), (Registry(bits, bits=True), 2, [True, 1])):
                try:
                    opened.encode(type_id, mixed)
                except TypeError:
                    pass
            for given in (events[:-1], "0x0", "0g"):
                try:
                    registry.decode(12, given)
                except Refused:
                    pass

        def named() -> None:
            opened = Registry(wrapped, metadata=True, _names=True)
            opened._name("extrinsic"), opened._name_at(28), opened._name_bytes("constant:Sys.Limit")
            found = Type(opened, 13)
            found.decode(b"\x18\4\1\xd2\4\0\0", opaque=True)
            found.encode(found.decode("0x0401d2040000"))
            for call, name in ((opened._name, "storage:Sys"), (opened._name_bytes, "extrinsic")):
                try:
                    call(name)
                except Refused:
                    pass

        for call in (
            named,
            described,
            in_pieces,
            rejected,
            lambda: Registry(data).decode(12, events),
            lambda: Registry(data).encode(12, value),
            there_and_back,
            bits_there_and_back,
            lambda: repr(Bits([True] * 100)) and Bits([True, False])[:1] == [True] and hash(Bits([False])),
            lambda: registry.decode_prefix(12, events),
            lambda: registry.decode_prefix(12, bytearray(events)),
            lambda: registry.decode_many(12, [events] * 3),
            lambda: registry.decode_json(12, events, depth=100),
            lambda: repr(Variant("a", [Variant("b")], 3)) and Variant("a", [], 3) == Variant("a"),
            lambda: repr(Variant("a", [], 3)) and Variant("a", [], 3).__reduce__(),
        ):
            self.check_call(call)
        self.assertEqual(registry.decode(12, events), value)
        self.assertEqual(registry.encode(12, value), events)


if __name__ == "__main__":
    unittest.main()
