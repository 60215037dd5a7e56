"""Decoded values in JSON: the form for browsers, and what `json.dumps` asks for."""

from __future__ import annotations

import json
import pathlib
import unittest
from typing import Any

import registries as make
from scaleview import (
    Bits, Empties, Metadata, Registry, Variant, json_default, to_json_for_browsers,
)

EXAMPLES = pathlib.Path(__file__).resolve().parents[3] / "examples"
MOST = 2**53 - 1
ALICE = "0xd43593c715fdd31c61141abd04a99fd6822c8558854ccde39a5684e7a56da27d"
BOB = "0x8eaf04151687736326c9fea17e25fc5287613693c912909cb226aa4794f26a48"
# That of examples/chain/transfer.scale.
SIGNATURE = (
    "0xd00c778652f2715db346f92a9858b594670476bee68c33e9059258673e57727b"
    "6e724aba1bba20df20a80605334a49ffdbb56e2eeb465cfc05ef823edd158825"
)


class Browsers(unittest.TestCase):
    def test_each_kind_of_value_has_its_form(self) -> None:
        cases: list[tuple[Any, Any]] = [
            (None, None), (True, True), (False, False), ("é", "é"), (0, 0), (-1, -1),
            (MOST, MOST), (-MOST, -MOST), (MOST + 1, "9007199254740992"),
            (-MOST - 1, "-9007199254740992"),
            (2**256 - 1, str(2**256 - 1)), (b"", "0x"), (b"\x01\xff", "0x01ff"),
            ([], []), ([1, 2**60], [1, "1152921504606846976"]),
            ((1, 2), [1, 2]), ((5,), 5), ((((5,),),), 5), (((1, 2),), [1, 2]), ([(5,)], [5]),
            ({"b": (1,), "a": b"\0"}, {"b": 1, "a": "0x00"}),
            (Variant("None"), {"None": []}), (Variant("Some", [5]), {"Some": [5]}),
            (Variant("Some", [(5,)], 1), {"Some": [5]}), (Variant("Some", (5,)), {"Some": [5]}),
            (Variant("Set", {"to": MOST + 1}), {"Set": {"to": "9007199254740992"}}),
            (Bits([True, False]), "0b10"), (Empties(3), {"count": 3}),
        ]
        for value, form in cases:
            found = to_json_for_browsers(value)
            self.assertEqual((found, type(found)), (form, type(form)))
            self.assertEqual(json.loads(json.dumps(found)), form)
        found = to_json_for_browsers({"b": 1, "a": 2})
        self.assertEqual(list(found), ["b", "a"])

    def test_what_is_no_value_is_rejected(self) -> None:
        for wrong in (1.5, {1}, object(), bytearray(b"a"), [Variant], {"a": 1j}):
            with self.assertRaisesRegex(TypeError, "^expected a decoded value, not "):
                to_json_for_browsers(wrong)

    def test_an_account_is_written_without_loss(self) -> None:
        metadata = Metadata((EXAMPLES / "chain" / "chain.metadata").read_bytes())
        data = (EXAMPLES / "runtime" / "account_info.scale").read_bytes()
        found = to_json_for_browsers(metadata.storage["System.Account"].decode(data))
        # The numbers of account_info.json.
        amounts = {
            "free": "8574363989262094294975", "reserved": 0,
            "frozen": "5124941935507676529089509613320058275",
            "flags": "1000998235074593292011716059555240738",
        }
        counts = {"nonce": 712822, "consumers": 0, "providers": 5174, "sufficients": 34}
        self.assertEqual(found, {**counts, "data": amounts})

    def test_an_extrinsic_is_written_without_newtypes(self) -> None:
        metadata = Metadata((EXAMPLES / "chain" / "chain.metadata").read_bytes())
        data = (EXAMPLES / "chain" / "transfer.scale").read_bytes()
        # What stands in transfer.json, in the order of the fields.
        call = {"dest": {"Id": [BOB]}, "value": 1500000000000}
        fields = {
            "address": {"Id": [ALICE]}, "signature": {"Sr25519": [SIGNATURE]},
            "extra": [None] * 4 + [{"Mortal21": [0]}, 7, None, 0, {"mode": {"Disabled": []}}],
            "call": {"Balances": [{"transfer_allow_death": call}]},
        }
        for form in (to_json_for_browsers, json_default):
            self.assertEqual(form(metadata.extrinsic(data)), {"signed": fields})


class Default(unittest.TestCase):
    def test_it_is_asked_for_what_json_does_not_write(self) -> None:
        for value, text in (
            (b"\xff", '"0xff"'), (Bits([True]), '"0b1"'), (Empties(2), '{"count": 2}'),
            (Variant("Some", [(2**53,)]), '{"Some": ["9007199254740992"]}'),
            # Outside of a Variant ints are numbers, and tuples are arrays.
            ({"who": (b"\1",), "free": 2**53}, '{"who": ["0x01"], "free": 9007199254740992}'),
            ([Variant("Set", {"to": (b"",)})], '[{"Set": {"to": "0x"}}]'),
        ):
            self.assertEqual(json.dumps(value, default=json_default), text)
        for wrong in (1, "a", None, [1], (1,), {"a": 1}, 1.5, object()):
            with self.assertRaisesRegex(TypeError, "^expected a decoded value, not "):
                json_default(wrong)

    def test_names_of_fields_are_only_keys(self) -> None:
        fields = make.composite(("__class__", 0), ("count", 0))
        registry = Registry(make.registry_of(make.primitive("u8"), fields))
        found = to_json_for_browsers(registry.decode(1, b"\1\2"))
        self.assertEqual(found, {"__class__": 1, "count": 2})


if __name__ == "__main__":
    unittest.main()
