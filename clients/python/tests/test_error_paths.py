"""Where in a value its bytes are rejected. The paths are worked out by hand."""

from __future__ import annotations

import copy
import pickle
import unittest
from typing import Any, Optional

import registries as make
from scaleview import Decoder, OutOfMemory, Refused, Registry

BOOL, TX, CHAIN = 0, 10, 14
REGISTRY = make.registry_of(
    make.primitive("bool"),
    make.primitive("str"),
    make.compact_of(3),
    make.primitive("u32"),
    make.primitive("u8"),
    make.array(4, 4),
    make.composite((None, 5)),  # 6: struct Id([u8; 4])
    make.members(0, 0),
    make.variant(("Stop", 0, ()), ("Transfer", 5, (("dest", 6), ("value", 2)))),
    make.variant(("Balances", 3, ((None, 8),))),
    make.composite(("calls", 11), ("ok", 0), ("pair", 7), ("memo", 1), ("tail", 12)),
    make.sequence(9),
    make.bits(4, 13),
    make.composite(),
    make.variant(("End", 0, ()), ("Next", 1, ((None, 14),))),
)
# Two calls, of which the second is a transfer; true; false and true; "hi". The bit sequence that
# follows isn't read.
VALUE = bytes([8, 3, 0, 3, 5, 1, 2, 3, 4, 4, 1, 0, 1, 8]) + b"hi"


class Paths(unittest.TestCase):
    def setUp(self) -> None:
        self.registry = Registry(REGISTRY)

    def check(self, text: str, path: Optional[str], type_id: int, data: Any, **options: int) -> Refused:
        for decode in (self.registry.decode, self.registry.decode_json):
            with self.assertRaises(Refused) as raised:
                decode(type_id, data, **options)
            self.assertEqual((str(raised.exception), raised.exception.path), (text, path))
        return raised.exception

    def check_byte(self, place: int, byte: int, text: str, path: str) -> None:
        """The same for a transaction of which one byte is another."""
        data = VALUE[:place] + bytes([byte]) + VALUE[place + 1 :]
        self.check(text, path, TX, data)
        self.check(text, path, TX, "0x" + data.hex())
        self.check(text, path, TX, memoryview(data))

    def test_a_path_has_names_and_positions(self) -> None:
        self.check_byte(1, 4, "value: NoSuchVariant at 1", "value.calls[0]")
        self.check_byte(4, 1, "value: NoSuchVariant at 4", "value.calls[1].Balances[0]")
        amount = "value.calls[1].Balances[0].Transfer.value"
        self.check_byte(9, 0x13, "value: CompactTooLarge at 9", amount)
        self.check_byte(10, 2, "value: BadBool at 10", "value.ok")
        self.check_byte(12, 2, "value: BadBool at 12", "value.pair[1]")
        self.check_byte(15, 0xFF, "value: BadUtf8 at 15", "value.memo")

    def test_a_path_leads_to_where_bytes_end(self) -> None:
        self.check("value: Truncated at 0", "value.calls", TX, b"")
        dest = "value.calls[1].Balances[0].Transfer.dest[0]"
        self.check("value: Truncated at 7", dest, TX, VALUE[:7])
        self.check("value: BitSequence at 16", "value.tail", TX, VALUE)
        self.check("value: TooLong at 10", "value.ok", TX, VALUE, limit=10)
        deep = "value.Next[0].Next[0].Next[0]"
        self.check("value: TooDeep at 3", deep, CHAIN, b"\1\1\1\0", depth=2)
        self.check("value: BadBool at 0", "value", BOOL, b"\2")

    def test_fronts_items_and_large_values_have_one(self) -> None:
        for data in (b"\3" + VALUE, bytearray(VALUE[:7] + b"\4"), memoryview(VALUE[:7])):
            with self.assertRaises(Refused) as raised:
                self.registry.decode_prefix(TX, data)
            self.assertTrue((raised.exception.path or "").startswith("value.calls"), raised.exception.path)
        with self.assertRaises(Refused) as raised:
            self.registry.decode_many(BOOL, [b"\1", b"\2"])
        self.assertEqual((raised.exception.item, raised.exception.path), (1, "value"))
        calls = make.compact(100_001) + bytes([3, 5, 1, 2, 3, 4, 4]) * 100_000 + b"\4"
        self.check("value: NoSuchVariant at 700004", "value.calls[100000]", TX, calls)

    def test_other_errors_have_none(self) -> None:
        self.check("value: TrailingBytes at 1", None, BOOL, b"\1\0")
        self.check("type: UnknownType 15", None, 15, b"")
        self.check("value: BadHex at 0", None, BOOL, "zz")
        with self.assertRaises(OutOfMemory):
            self.registry.decode(TX, VALUE, memory=1)
        decoder = Decoder(self.registry, BOOL)
        with self.assertRaises(Refused) as raised:
            decoder.feed(b"\2")
        self.assertIsNone(raised.exception.path)
        with self.assertRaises(Refused) as raised:
            Registry(b"\4")
        self.assertIsNone(raised.exception.path)

    def test_an_opaque_value_has_one_after_its_length(self) -> None:
        text, path = "value: Truncated at 8", "value.calls[1].Balances[0].Transfer.dest[0]"
        with self.assertRaises(Refused) as raised:
            self.registry.decode(TX, make.compact(7) + VALUE[:7], opaque=True)
        self.assertEqual((str(raised.exception), raised.exception.path), (text, path))
        with self.assertRaises(Refused) as raised:
            self.registry.decode(TX, make.compact(9) + VALUE[:7], opaque=True)
        self.assertEqual((str(raised.exception), raised.exception.path), ("value: Truncated at 8", None))

    def test_a_copy_has_the_path(self) -> None:
        refused = self.check("value: Truncated at 0", "value.calls", TX, b"")
        for same in (copy.copy(refused), pickle.loads(pickle.dumps(refused))):
            self.assertEqual((same.path, same.args), (refused.path, refused.args))


if __name__ == "__main__":
    unittest.main()
