"""What metadata names: each method, what is rejected, and the samples of a chain."""

from __future__ import annotations

import inspect
import json
import pathlib
import pickle
import unittest
from collections.abc import Mapping
from typing import Any, Callable

import registries as make
from scaleview import Decoder, Field, Metadata, Named, Refused, Registry, Type, UnknownName, Variant
from test_vectors import metadata_of

EXAMPLES = pathlib.Path(__file__).resolve().parents[3] / "examples"
# Version 15, with the pallets Sys and Other, the runtime APIs Core and Pool, and the custom values Owner and Sys.Now.
CHAIN = metadata_of("small chain 15")
U32 = make.registry_of(make.primitive("u32"))


def changed(place: int, byte: int) -> bytes:
    """The chain's metadata with another byte at this place."""
    return CHAIN[:place] + bytes([byte]) + CHAIN[place + 1 :]


class Refusals(unittest.TestCase):
    def check_refused(self, call: Callable[[], object], code: int, text: str, place: int | None = None) -> Refused:
        with self.assertRaises(Refused) as raised:
            call()
        refused = raised.exception
        self.assertEqual((refused.code, str(refused), refused.place), (code, text, place))
        self.assertEqual(str(pickle.loads(pickle.dumps(refused))), text)
        return refused

    def test_a_fault_after_the_registry_has_a_reason_and_a_place(self) -> None:
        for data, code, reason, place in (
            (CHAIN[:455], 301, "Truncated", 455),
            (changed(219, 0xFF), 304, "BadUtf8", 219),
            (changed(249, 1), 305, "CompactNotShortest", 249),
            (changed(217, 7), 306, "CompactTooLarge", 217),
            (changed(222, 2), 307, "NoSuchVariant", 222),
            (CHAIN + b"\0", 111, "TrailingBytes", 456),
            (U32, 109, "NotMetadata", 0),
        ):
            refused = self.check_refused(lambda: Metadata(data), code, f"registry: {reason} at {place}", place)
            self.assertEqual((refused.part, refused.reason, refused.to_type), ("registry", reason, None))

    def test_references_have_the_types(self) -> None:
        # 13 is the position of a synthetic type, to which neither the registry nor the rest may refer.
        data = changed(234, 13 << 2)
        refused = self.check_refused(lambda: Metadata(data), 113, "registry: UnknownReference to type 13 at 234", 234)
        self.assertEqual((refused.reason, refused.from_type, refused.to_type), ("UnknownReference", None, 13))
        refused = self.check_refused(lambda: Metadata(changed(22, 13 << 2)), 112, "check: UnknownType 13 in type 2")
        self.assertEqual((refused.from_type, refused.to_type), (2, 13))
        self.assertEqual(len(Registry(data).types), 13)

    def test_unknown_names_are_named(self) -> None:
        metadata = Metadata(CHAIN)
        calls: list[tuple[Callable[[], object], str]] = [
            (lambda: metadata.type_of("Call"), "Call"),
            (lambda: metadata.type_of("calls:Other"), "calls:Other"),
            (lambda: metadata.storage["Sys.now"], "storage:Sys.now"),
            (lambda: metadata.storage[""], "storage:"),
            (lambda: metadata.constants["Sys.Now"], "constant:Sys.Now"),
            (lambda: metadata.custom["é\n"], "custom:é\n"),
            (lambda: metadata.methods["Core.check"], "result:Core.check"),
            (lambda: metadata.events(b""), "storage:System.Events"),
            (lambda: metadata.result("Core.check", b""), "result:Core.check"),
            (lambda: metadata.encode_params("Pool.run", {}), "params:Pool.run"),
            (lambda: metadata.encode_call("Other.set", {}), "call:Other.set"),
            (lambda: metadata.encode_call("Sys", {}), "call:Sys"),
        ]
        for call, name in calls:
            text = f"type: UnknownName {json.dumps(name, ensure_ascii=False)}"
            refused = self.check_refused(call, 204, text)
            found = (type(refused), refused.part, refused.reason, refused.name)
            self.assertEqual(found, (UnknownName, "type", "UnknownName", name))
            self.assertIsInstance(refused, KeyError)
            self.assertIs(type(pickle.loads(pickle.dumps(refused))), UnknownName)
        unsigned = Metadata(metadata_of("extrinsic without the parameter signature"))
        self.check_refused(lambda: unsigned.extrinsic(b"\0"), 204, 'type: UnknownName "extrinsic"')

    def test_version_14_names_fewer(self) -> None:
        metadata = Metadata(metadata_of("small chain 14"))
        for name in ("event", "error", "result:Core.version", "custom:Owner"):
            text = f'type: UnknownName "{name}"'
            self.check_refused(lambda: metadata.type_of(name), 204, text)
        counts = len(metadata.methods), len(metadata.custom), len(metadata.storage)
        self.assertEqual(counts, (0, 0, 5))

    def test_names_without_bytes_are_named(self) -> None:
        metadata = Metadata(CHAIN)
        storage = metadata.storage
        for found in (storage["Sys.Last"], storage["Sys.Code"], metadata.type_of("call")):
            text = f'type: NoBytes "{found.name}"'
            self.assertFalse(found.has_bytes)
            self.check_refused(found.value, 205, text)
            self.check_refused(lambda: found.data, 205, text)
        text = 'type: NoBytes "storage:Sys.Owner"'
        refused = self.check_refused(storage["Sys.Owner"].default, 205, text)
        self.assertIs(type(refused), Refused)

    def test_bytes_of_a_name_need_not_be_a_value(self) -> None:
        found = Metadata(metadata_of("types without values")).storage["S.NoValue"]
        self.check_refused(found.default, 309, "value: NoFiniteValue at 0", 0)

    def test_an_opaque_value_has_places_from_its_length(self) -> None:
        registry = Registry(U32)
        for digits, code, reason, place in (
            ("", 301, "Truncated", 0),
            ("100700", 301, "Truncated", 3),
            ("0c070000", 301, "Truncated", 4),
            ("100700000000", 313, "TrailingBytes", 5),
            ("140700000000", 313, "TrailingBytes", 5),
            ("110007000000", 305, "CompactNotShortest", 0),
            ("070000000000", 306, "CompactTooLarge", 0),
        ):
            data = bytes.fromhex(digits)
            for call in (registry.decode, registry.decode_json):
                self.check_refused(lambda: call(0, data, opaque=True), code, f"value: {reason} at {place}", place)
            text = f"value: {reason} at {place} in item 1"
            self.check_refused(lambda: registry.decode_many(0, [b"\x10" + bytes(4), data], opaque=True), code, text, place)
        # The type is looked for first.
        self.check_refused(lambda: registry.decode(1, b"", opaque=True), 201, "type: UnknownType 1")

    def test_a_long_opaque_value_has_places_from_its_length(self) -> None:
        registry = Registry(make.registry_of(make.primitive("u8"), make.primitive("bool"), make.sequence(1)))
        # A list of 300,000 bools in four bytes of length, of which the last byte is none.
        value = make.compact(300_000) + bytes(299_999) + b"\2"
        data = make.compact(len(value)) + value
        self.check_refused(lambda: registry.decode(2, data, opaque=True), 302, "value: BadBool at 300007", 300_007)
        self.check_refused(lambda: registry.decode_json(2, data, opaque=True), 302, "value: BadBool at 300007", 300_007)

    def test_the_limit_does_not_count_the_length(self) -> None:
        registry = Registry(U32)
        data = bytes.fromhex("1007000000")
        self.assertEqual(registry.decode(0, data, limit=4, opaque=True), 7)
        self.check_refused(lambda: registry.decode(0, data, limit=3, opaque=True), 312, "value: TooLong at 4", 4)


class Wrapping(unittest.TestCase):
    """What a node answers if it is asked for metadata."""

    WRAPPED = b"\1" + make.compact(len(CHAIN)) + CHAIN

    def check(self, data: Any, end: int) -> None:
        metadata = Metadata(data)
        self.assertEqual((metadata.version, metadata.end), (15, end))
        self.assertEqual(metadata.storage["Sys.Now"].default(), 42)

    def test_an_option_of_bytes_is_taken_off(self) -> None:
        # The option's byte and two bytes of length stand before the metadata.
        data = self.WRAPPED
        for given in (data, bytearray(data), memoryview(data), data.hex()):
            self.check(given, 220)

    def test_text_of_digits_is_taken(self) -> None:
        digits = CHAIN.hex()
        for text in (digits, f"0x{digits}", digits.upper(), f"0x{digits}\n"):
            self.check(text, 217)
        self.check("0x" + self.WRAPPED.hex(), 220)

    def test_places_count_from_the_first_byte(self) -> None:
        # The byte of the chain's first name, the last one that is missing, and one too many.
        for data, message in (
            (changed(219, 0xFF), "BadUtf8 at 222"),
            (CHAIN[:455], "Truncated at 458"),
            (CHAIN + b"\0", "TrailingBytes at 459"),
            (b"meta\x10", "WrongVersion at 6"),
        ):
            wrapped = b"\1" + make.compact(len(data)) + data
            for given in (wrapped, wrapped.hex()):
                with self.assertRaisesRegex(Refused, f"^registry: {message}$") as raised:
                    Metadata(given)
                self.assertEqual(raised.exception.place, int(message.split()[-1]))
        # Positions of types aren't places.
        data = changed(22, 13 << 2)
        with self.assertRaisesRegex(Refused, "^check: UnknownType 13 in type 2$"):
            Metadata(b"\1" + make.compact(len(data)) + data)

    def test_nothing_else_is_taken_off(self) -> None:
        length = make.compact(len(CHAIN))
        for data in (
            b"\1" + make.compact(len(CHAIN) - 1) + CHAIN,
            b"\1" + make.compact(len(CHAIN) + 1) + CHAIN,
            b"\0" + length + CHAIN,
            b"\2" + length + CHAIN,
            b"\1" + CHAIN,
            length + CHAIN,
            b"\1\1" + length + CHAIN,
            b"\1" + (len(CHAIN) << 2 | 2).to_bytes(4, "little") + CHAIN,
            b"\1",
            b"",
        ):
            with self.assertRaisesRegex(Refused, "^registry: (NotMetadata|Truncated) at 0$"):
                Metadata(data)
        # Once it is taken off, what is there has to be metadata.
        with self.assertRaisesRegex(Refused, "^registry: NotMetadata at 2$"):
            Metadata(b"\1" + make.compact(len(U32)) + U32)
        # A registry may begin with 01: this is one of 64 types.
        registry = Registry(make.registry_of(*[make.primitive("u8")] * 64))
        self.assertEqual(len(registry.types), 64)


class Names(unittest.TestCase):
    def test_names_are_found(self) -> None:
        metadata = Metadata(CHAIN)
        for name, type_id in (
            ("extrinsic", 13), ("call", 3), ("event", 11), ("error", 12), ("calls:Sys", 3),
            ("events:Other", 11), ("errors:Sys", 12), ("storage:Sys.Owner", 2),
            ("key:Sys.Owner", 17), ("constant:Other.Pair", 5), ("result:Core.run", 4),
            ("params:Core.run", 20),
            ("params:Pool.check", 21), ("result:Pool.check", 5), ("custom:Sys.Now", 0),
        ):
            for _ in range(2):
                found = metadata.type_of(name)
                self.assertEqual((found.name, found.id, type(found)), (name, type_id, Named))
                self.assertEqual(found, metadata.types[type_id])

    def test_a_name_stands_for_its_type(self) -> None:
        metadata = Metadata(CHAIN)
        found = metadata.methods["Core.run"].params
        self.assertIsInstance(found, Type)
        fields = [Field("block", 2), Field("at", 1)]
        self.assertEqual((found.kind, found.fields), ("composite", fields))
        self.assertEqual(repr(found), "<Named params:Core.run, type 20>")
        data = bytes.fromhex("04ff07000000")
        for _ in range(2):
            self.assertEqual(metadata.decode(found, data), {"block": b"\xff", "at": 7})
            self.assertEqual(found.decode(data), {"block": b"\xff", "at": 7})
        self.assertEqual(metadata.encode(found, {"block": b"\xff", "at": 7}), data)
        self.assertEqual(found.encode({"block": b"\xff", "at": 7}), data)
        decoder = Decoder(metadata, found)
        self.assertEqual((decoder.feed(data), decoder.finish()["at"]), (6, 7))

    def test_names_are_listed_in_order(self) -> None:
        metadata = Metadata(CHAIN)
        names = list(metadata.names())
        self.assertEqual([type(found) for found in names], [Named] * 29)
        self.assertEqual(
            [(found.name, found.id) for found in names[:9]],
            [
                ("extrinsic", 13), ("call", 3), ("event", 11), ("error", 12), ("calls:Sys", 3), ("events:Sys", 11),
                ("errors:Sys", 12), ("storage:Sys.Now", 1), ("key:Sys.Now", 14),
            ],
        )
        self.assertEqual((names[28].name, names[28].has_bytes, names[0].has_bytes), ("custom:Sys.Now", True, False))

    def test_storage_is_a_mapping(self) -> None:
        storage = Metadata(CHAIN).storage
        self.assertIsInstance(storage, Mapping)
        names = ["Sys.Now", "Sys.Last", "Sys.Code", "Sys.Owner", "Sys.Vote"]
        self.assertEqual((list(storage), len(storage)), (names, 5))
        self.assertEqual(repr(storage), "<Storage of <Metadata 15 of 24 types>>")
        for name in names:
            self.assertIn(name, storage)
        others: tuple[Any, ...] = ("Sys.now", "Now", None, 5, b"Sys.Now", ["Sys.Now"], "Sys.\ud800")
        for other in others:
            self.assertNotIn(other, storage)
        self.assertEqual([found.id for found in storage.values()], [1, 1, 2, 2, 0])
        self.assertEqual((storage.get("x"), storage["Sys.Now"]), (None, storage.get("Sys.Now")))
        wrong: Any
        for wrong in (None, 5, b"Sys.Now"):
            message = f"^a name is a str, not {type(wrong).__name__}$"
            with self.assertRaisesRegex(TypeError, message):
                storage[wrong]

    def test_a_storage_entry_has_values_keys_and_a_default(self) -> None:
        storage = Metadata(CHAIN).storage
        now, owner = storage["Sys.Now"], storage["Sys.Owner"]
        self.assertEqual(repr(now), "<StorageEntry storage:Sys.Now, type 1>")
        self.assertEqual((now.has_bytes, now.data), (True, b"\x2a\0\0\0"))
        self.assertEqual((now.default(), now.value()), (42, 42))
        self.assertEqual((now.decode(b"\1\0\0\0"), now.encode(1)), (1, b"\1\0\0\0"))
        self.assertEqual((owner.name, owner.has_bytes), ("storage:Sys.Owner", False))
        self.assertEqual(owner.decode("0x080102"), b"\1\2")
        key = b"\xaa" * 16 + b"\xbb" * 16 + b"\xcc" * 16 + b"\x2a\0\0\0"
        parts = {"pallet": b"\xaa" * 16, "entry": b"\xbb" * 16, "hash0": b"\xcc" * 16, "key0": 42}
        for given in (key, key.hex()):
            self.assertEqual(owner.decode_key(given), parts)
        self.assertEqual((owner.key.name, owner.key.encode(parts)), ("key:Sys.Owner", key))
        for call, message in (
            (lambda: now.decode(b"\1\0"), "Truncated at 2"),
            (lambda: now.decode(b"\1\0\0\0\0"), "TrailingBytes at 4"),
            (lambda: owner.decode_key(key, depth=0), "TooDeep at 0"),
            (lambda: owner.decode_key(key, limit=3), "TooLong at 3"),
        ):
            with self.assertRaisesRegex(Refused, f"^value: {message}$"):
                call()

    def test_constants_and_custom_values_are_mappings_of_values(self) -> None:
        metadata = Metadata(CHAIN)
        constants = {"Sys.Limit": 4096, "Sys.Name": b"abc", "Other.Pair": (1, 2)}
        self.assertEqual(dict(metadata.constants), constants)
        self.assertEqual((list(metadata.constants), len(metadata.constants)), (list(constants), 3))
        self.assertIn("Sys.Limit", metadata.constants)
        self.assertNotIn("Sys.Now", metadata.constants)
        self.assertEqual(dict(metadata.custom), {"Owner": 1, "Sys.Now": 5})
        # A name is there even if its bytes are no value.
        data = CHAIN.replace(b"\x14Limit\4\x10\0\x10\0\0", b"\x14Limit\0\x10\0\x10\0\0")
        self.assertNotEqual(data, CHAIN)
        limited = Metadata(data)
        self.assertIn("Sys.Limit", limited.constants)
        with self.assertRaisesRegex(Refused, "^value: TrailingBytes at 1$"):
            limited.constants["Sys.Limit"]

    def test_methods_are_a_mapping(self) -> None:
        metadata = Metadata(CHAIN)
        self.assertEqual(list(metadata.methods), ["Core.version", "Core.run", "Pool.check"])
        run = metadata.methods["Core.run"]
        self.assertEqual((run.params.name, run.result.name), ("params:Core.run", "result:Core.run"))
        self.assertEqual(metadata.result("Core.version", b"\5\0\0\0"), 5)
        self.assertIsNone(metadata.result("Core.run", b""))
        inputs = {"at": 7, "block": b"\xff"}
        self.assertEqual(metadata.encode_params("Core.run", inputs).hex(), "04ff07000000")
        self.assertEqual(metadata.encode_params("Core.version"), b"")
        with self.assertRaisesRegex(Refused, "^value: Truncated at 1$"):
            metadata.result("Core.version", b"\5")

    def test_names_are_no_attributes(self) -> None:
        """A stranger's names are keys, however they read."""
        for name in (b"__class__", b"close(); "):
            self.assertIn(b"\x0cNow\1\0\4", CHAIN)
            data = CHAIN.replace(b"\x0cNow\1\0\4", bytes([len(name) << 2]) + name + b"\1\0\4", 1)
            metadata = Metadata(data)
            self.assertEqual(metadata.storage["Sys." + name.decode()].default(), 42)
            self.assertFalse(hasattr(metadata.storage, "Sys"))
            self.assertEqual(metadata.__class__, Metadata)

    def test_an_extrinsic_has_its_length_in_front(self) -> None:
        metadata = Metadata(CHAIN)
        data = bytes.fromhex("180401d2040000")
        value = Variant("bare", {"call": Variant("set", {"now": 1234})})
        for given in (data, data.hex()):
            self.assertEqual(metadata.extrinsic(given), value)
        self.assertEqual(metadata.extrinsic(bytearray(data), depth=3, limit=6, memory=None), value)
        extrinsic = metadata.type_of("extrinsic")
        self.assertEqual(extrinsic.decode(data, opaque=True), value)
        self.assertEqual(metadata.decode_many(extrinsic, [data] * 2, opaque=True), [value] * 2)
        self.assertEqual(metadata.decode(extrinsic, data[1:]), value)
        with self.assertRaisesRegex(Refused, "^value: TooDeep at 2$"):
            metadata.extrinsic(data, depth=0)
        call = value.fields["call"]
        self.assertEqual((metadata.call(data[2:]), metadata.call("01d2040000")), (call, call))
        with self.assertRaisesRegex(Refused, "^value: NoSuchVariant at 0$"):
            metadata.call(b"\2")

    def test_a_metadata_is_a_registry(self) -> None:
        metadata = Metadata(CHAIN)
        self.assertEqual((len(metadata.types), metadata.end, metadata.version), (24, 217, 15))
        self.assertEqual(repr(metadata), "<Metadata 15 of 24 types>")
        self.assertEqual(list(inspect.signature(Metadata).parameters), ["data", "bits"])
        with self.assertRaisesRegex(TypeError, "Registry.raw$"):
            Metadata.raw(U32)
        with metadata:
            names = metadata.names()
            self.assertEqual(next(names).name, "extrinsic")
        self.assertEqual(repr(metadata), "<Metadata, closed>")
        calls: list[Callable[[], object]] = [
            lambda: metadata.call(b""),
            lambda: metadata.type_of("event"),
            lambda: next(names),
            lambda: metadata._name_bytes("call"),
            lambda: list(metadata.storage),
        ]
        for call in calls:
            with self.assertRaisesRegex(ValueError, "^the registry is closed$"):
                call()

    def test_a_registry_has_no_names(self) -> None:
        for registry in (Registry(CHAIN), Registry(U32)):
            self.assertIsNone(registry._name_at(0))
            with self.assertRaisesRegex(Refused, '^type: UnknownName "call"$'):
                registry._name("call")

    def test_what_is_no_name_is_rejected(self) -> None:
        metadata = Metadata(CHAIN)
        wrong: Any
        for wrong in (None, 5, b"call"):
            with self.assertRaises(TypeError):
                metadata.type_of(wrong)
        with self.assertRaises(ValueError):
            metadata.type_of("storage:\ud800.x")
        for index in (-1, 1 << 32):
            with self.assertRaises(OverflowError):
                metadata._name_at(index)

    def test_bits_are_read_where_they_are_allowed(self) -> None:
        data = bytes.fromhex((EXAMPLES / "chain" / "extrinsic.hex").read_text().strip()[2:])
        metadata = (EXAMPLES / "chain" / "chain.metadata").read_bytes()
        with self.assertRaisesRegex(Refused, "^value: BitSequence at 5$"):
            Metadata(metadata).extrinsic(data)
        value = Metadata(metadata, bits=True).extrinsic(data)
        enter = value.fields["call"].fields[0]
        self.assertEqual((enter.name, str(enter.fields["bitfields"])), ("enter", "0b11011110101"))


class Samples(unittest.TestCase):
    def test_the_names_of_the_examples_are_listed(self) -> None:
        for name in ("chain", "chain15"):
            metadata = Metadata((EXAMPLES / "chain" / f"{name}.metadata").read_bytes())
            lines = "".join(f"{found.name} {found.id}\n" for found in metadata.names())
            self.assertEqual(lines, (EXAMPLES / "chain" / f"{name}.names").read_text())

    def test_the_values_of_the_examples_are_decoded(self) -> None:
        metadata = Metadata((EXAMPLES / "chain" / "chain.metadata").read_bytes())
        account = metadata.storage["System.Account"]
        for found, folder, name, opaque in (
            (account.key, "chain", "key", False),
            (account, "runtime", "account_info", False),
            (metadata.type_of("extrinsic"), "chain", "transfer", True),
        ):
            data = (EXAMPLES / folder / f"{name}.scale").read_bytes()
            text = (EXAMPLES / folder / f"{name}.json").read_text().rstrip("\n")
            self.assertEqual(metadata.decode_json(found, data, opaque=opaque), text)
        self.assertEqual(metadata.constants["Balances.ExistentialDeposit"], 10_000_000_000)
        self.assertEqual((len(metadata.storage), len(metadata.constants)), (184, 93))
        events = metadata.events((EXAMPLES / "chain" / "events.hex").read_text())
        self.assertEqual([found["phase"].fields for found in events], [[0], [1], [1]])

    def test_a_call_is_encoded_by_its_name(self) -> None:
        metadata = Metadata((EXAMPLES / "chain" / "chain.metadata").read_bytes())
        # The account's bytes and the amount of the stored transfer, as they stand in its text.
        receiver = bytes.fromhex("8eaf04151687736326c9fea17e25fc5287613693c912909cb226aa4794f26a48")
        fields = {"dest": ("Id", [(receiver,)]), "value": 1_500_000_000_000}
        data = metadata.encode_call("Balances.transfer_allow_death", fields)
        self.assertTrue((EXAMPLES / "chain" / "transfer.scale").read_bytes().endswith(data))
        self.assertEqual(len(data), 2 + 1 + 32 + 7)
        message = r"^value\.Balances\[0\]: there is no arm 'transfr'$"
        with self.assertRaisesRegex(ValueError, message):
            metadata.encode_call("Balances.transfr", fields)
        with self.assertRaisesRegex(ValueError, "the field 'value' is missing$"):
            metadata.encode_call("Balances.transfer_allow_death", {"dest": fields["dest"]})
        with self.assertRaisesRegex(Refused, '^type: UnknownName "call:Balance.transfer"$'):
            metadata.encode_call("Balance.transfer", fields)

    def test_a_chain_of_version_15_is_used_by_its_names(self) -> None:
        metadata = Metadata((EXAMPLES / "chain" / "chain15.metadata").read_bytes().hex())
        self.assertEqual((len(metadata.methods), len(metadata.custom)), (15, 2))
        method, inputs = "AccountNonceApi.account_nonce", {"account": (bytes(32),)}
        self.assertEqual(metadata.result(method, "0x07000000"), 7)
        self.assertEqual(metadata.encode_params(method, inputs), bytes(32))


if __name__ == "__main__":
    unittest.main()
