"""The archive: rows of files, parts, what is rejected, and runs that are killed."""

from __future__ import annotations

import contextlib
import dataclasses
import gzip
import hashlib
import importlib.util
import io
import json
import logging
import os
import pathlib
import pickle
import random
import shutil
import signal
import struct
import subprocess
import sys
import tempfile
import threading
import time
import unittest
from typing import Any, Callable
from unittest import mock

from scaleview.archive import command, sources
from scaleview.archive.failures import Failure, Status
from scaleview.archive.folder import Folder
from scaleview.archive.job import Fields, Job, Packing
from scaleview.archive.progress import Progress, clock
from scaleview.archive.sources import EVERYTHING, Fault, Source, gzip_source, lines, part_starts, plain_source, values
from scaleview.archive.tasks import decode_gzip, decode_part, parts_of
from scaleview.archive.usual import are_plain, fields_of, groups_of

CHAIN = pathlib.Path(__file__).resolve().parents[3] / "examples" / "chain"
HAS_CLUSTER = importlib.util.find_spec("distributed") is not None
NEEDS_CLUSTER = unittest.skipUnless(HAS_CLUSTER, "the package distributed is missing")
ACCOUNT = "storage:System.Account"
# The hashes of "System" and "Account".
PALLET, ENTRY = "26aa394eea5630e07c48ae0c9558cef7", "b99d880ec681799c0cf30e8886371da9"


def account(number: int) -> bytes:
    """The bytes of an account."""
    balances = (number * 10**15, 0, 0, 1 << 127)
    return struct.pack("<4I", number, 0, 1, 0) + b"".join(it.to_bytes(16, "little") for it in balances)


def account_text(number: int) -> str:
    """The JSON of an account, whose keys stand in the order of their letters."""
    balances = f'{{"flags":["{1 << 127}"],"free":"{number * 10**15}","frozen":"0","reserved":"0"}}'
    return f'{{"consumers":0,"data":{balances},"nonce":{number},"providers":1,"sufficients":0}}'


def key(number: int) -> str:
    """The digits of an account's key: hashes, and the owner after its own hash."""
    return PALLET + ENTRY + "ab" * 16 + number.to_bytes(32, "big").hex()


def key_text(number: int) -> str:
    owner = number.to_bytes(32, "big").hex()
    return f'{{"entry":"0x{ENTRY}","hash0":"0x{"ab" * 16}","key0":["0x{owner}"],"pallet":"0x{PALLET}"}}'


def row(number: int) -> str:
    """A line of JSON."""
    return f'{{"block": {number // 3}, "key": "0x{key(number)}", "value": "0x{account(number).hex()}"}}\n'


def row_text(number: int) -> str:
    """What a run makes of a line."""
    return f'{{"block":{number // 3},"key":{key_text(number)},"value":{account_text(number)}}}\n'


def compact(number: int) -> bytes:
    if number < 1 << 6:
        return bytes([number << 2])
    if number < 1 << 14:
        return (number << 2 | 1).to_bytes(2, "little")
    return (number << 2 | 2).to_bytes(4, "little") if number < 1 << 30 else b"\3" + number.to_bytes(4, "little")


class Case(unittest.TestCase):
    """A test with a folder."""

    maxDiff = None

    def setUp(self) -> None:
        made = tempfile.TemporaryDirectory()
        self.addCleanup(made.cleanup)
        self.folder = pathlib.Path(made.name)

    def write(self, name: str, data: bytes | str) -> str:
        path = self.folder / name
        path.write_bytes(data.encode() if isinstance(data, str) else data)
        return str(path)


class Sources(Case):
    """What rows there are, for all sizes of parts and pieces."""

    def setUp(self) -> None:
        super().setUp()
        before = sources.PIECE
        self.addCleanup(lambda: setattr(sources, "PIECE", before))

    def parts_by(self, data: bytes, part_bytes: int, most: int) -> list[list[Any]]:
        """The lines of each part as a worker finds it."""
        found = []
        for start in range(0, max(len(data), 1), part_bytes):
            source = Source(io.BytesIO(data[max(start - 1, 0) :]).read, max(start - 1, 0))
            if start:
                source.skip_line(start + part_bytes)
            part: list[Any] = []
            for piece in lines(source, start + part_bytes, most):
                part.extend(piece.split(b"\n") if isinstance(piece, bytes) else [piece])
            found.append(part)
        return found

    def test_each_line_is_in_the_part_where_it_begins(self) -> None:
        for data in (b"", b"\n", b"a", b"a\n", b"ab\n\ncdefgh\ni\n\n\njk", b"abcdefghijkl\nm\n", b"\n\n\n"):
            lines_there = data.split(b"\n")[:-1] + ([data.split(b"\n")[-1]] if data.split(b"\n")[-1] else [])
            places = [sum(len(it) + 1 for it in lines_there[:at]) for at in range(len(lines_there))]
            for part_bytes in range(1, len(data) + 3):
                expected = [
                    [line for line, place in zip(lines_there, places) if start <= place < start + part_bytes]
                    for start in range(0, max(len(data), 1), part_bytes)
                ]
                for sources.PIECE in (1, 2, 3, 5, 64):
                    self.assertEqual(self.parts_by(data, part_bytes, 99), expected, (data, part_bytes, sources.PIECE))

    def test_a_line_that_is_too_long_is_one_fault(self) -> None:
        data = b"abc\nabcd\nabcde\n\nabcdefghij\nab\nabcdefg"
        long = Fault("TooLong", 4, is_final=False)
        expected = [b"abc", b"abcd", long, b"", long, b"ab", long]
        for part_bytes in range(1, len(data) + 2):
            for sources.PIECE in (1, 2, 4, 5, 6, 64):
                found = [line for part in self.parts_by(data, part_bytes, 4) for line in part]
                self.assertEqual(found, expected, (part_bytes, sources.PIECE))

    def values_by(self, data: bytes, part_bytes: int, most: int) -> list[Any]:
        path = self.write("values", data)
        starts = list(part_starts(path, part_bytes))
        self.assertEqual(starts, sorted(set(starts)))
        found: list[Any] = []
        for start, end in zip(starts, [*starts[1:], EVERYTHING]):
            with open(path, "rb") as file:
                for piece in values(plain_source(file, start), end, most):
                    found.extend(piece if isinstance(piece, list) else [piece])
        return found

    def test_values_are_found_by_their_lengths(self) -> None:
        items = [b"", b"a", b"b" * 63, b"c" * 64, b"", b"d" * 300, b"e" * 20000]
        data = b"".join(compact(len(item)) + item for item in items)
        cases: list[tuple[bytes, list[Any]]] = [
            (data, items),
            (b"", []),
            (data[:-1], [*items[:-1], Fault("Truncated", data.index(b"e") - 4, True)]),
            (data + b"\1", [*items, Fault("Truncated", len(data), True)]),
            (data + b"\2\0\0", [*items, Fault("Truncated", len(data), True)]),
            (data + b"\1\0" + data, [*items, Fault("CompactNotShortest", len(data), True)]),
            (data + b"\3\0\0\0\x20" + data, [*items, Fault("CompactNotShortest", len(data), True)]),
            (data + b"\7\0\0\0\0\1" + data, [*items, Fault("CompactTooLarge", len(data), True)]),
            (data + compact(1 << 30), [*items, Fault("Truncated", len(data), True)]),
            (data + compact(20001) + b"f" * 20001 + b"\4g", [*items, Fault("TooLong", 20000, False), b"g"]),
        ]
        for written, expected in cases:
            for part_bytes in (1, 2, 7, 64, 65, 400, 20000, 1 << 20):
                for sources.PIECE in (1, 3, 70, 1 << 20):
                    found = self.values_by(written, part_bytes, 20000)
                    self.assertEqual(found, expected, (written[-9:], part_bytes, sources.PIECE))

    def test_what_is_compressed_is_found_up_to_the_fault(self) -> None:
        data = b"".join(b"%d\n" % (number * 7919) for number in range(5000))
        packed = gzip.compress(data[:9000]) + gzip.compress(data[9000:])
        wrong_sum = packed[:-8] + bytes([packed[-8] ^ 1]) + packed[-7:]
        cases = [(packed, None), (wrong_sum, "BadGzip"), (packed[:-1], "TruncatedGzip"), (packed[:5], "TruncatedGzip")]
        cases += [(packed[: len(packed) // 2], "TruncatedGzip"), (packed + b"more", "BadGzip"), (b"", "TruncatedGzip")]
        for written, reason in cases:
            with open(self.write("packed", written), "rb") as file:
                source = gzip_source(file)
                pieces = list(lines(source, EVERYTHING, 100))
            faults = [piece for piece in pieces if isinstance(piece, Fault)]
            self.assertEqual([fault.reason for fault in faults], [reason] if reason else [])
            whole = b"".join(piece + b"\n" for piece in pieces if isinstance(piece, bytes))
            self.assertTrue(data.startswith(whole))
            if reason != "TruncatedGzip" or written == packed[:-1]:
                self.assertEqual(whole, data)
            for fault in faults:
                self.assertEqual(fault.place >= len(whole), True)


class JobCase(Case):
    """Jobs that this process does without a cluster."""

    def setUp(self) -> None:
        super().setUp()
        self.metadata = str(CHAIN / "chain.metadata")

    def job(self, files: list[str], *words: str) -> Job:
        """The job of a command."""
        arguments = [self.metadata, ACCOUNT, *files, "--out", str(self.folder / "out"), *words]
        return command._job_of(command._parser().parse_args(arguments))

    def decode(self, files: list[str], *words: str) -> tuple[list[str], list[dict[str, Any]]]:
        """The rows and the errors of a command."""
        job, folder = self.job(files, *words), Folder(str(self.folder / "out"))
        shutil.rmtree(folder.path, ignore_errors=True)
        with folder.claimed(job):
            for input in range(len(job.inputs)):
                if job.packing is Packing.GZIP:
                    decode_gzip(job, input, lambda part, summary: None)
                else:
                    for part in parts_of(job, input):
                        decode_part(job, part)
            sums = folder.join(job)
        rows = [line for path in sorted(folder.path.glob("part-*")) for line in path.read_text().splitlines()]
        errors = [json.loads(line) for line in folder.errors.read_text().splitlines()]
        self.assertEqual((sums.rows, sums.errors), (len(rows) + len(errors), len(errors)))
        self.assertEqual(sums.output_bytes, sum(len(row) + 1 for row in rows))
        return rows, errors

    def check_errors(self, found: list[dict[str, Any]], expected: list[tuple[Any, ...]]) -> None:
        self.assertEqual([tuple(error.values())[1:] for error in found], expected)
        for error in found:
            self.assertEqual(list(error), ["file", "row", "field", "reason", "place", "path"])


class Archives(JobCase):
    """What comes of rows."""

    def test_rows_of_each_form_are_the_same_values(self) -> None:
        numbers = range(1000)
        texts = [account_text(number) for number in numbers]
        json_file = self.write("rows.jsonl", "".join(map(row, numbers)))
        hex_file = self.write("rows.hex", "".join("0x" * (n % 2) + account(n).hex() + "\r\n"[n % 2 :] for n in numbers))
        lengths_file = self.write("rows.bin", b"".join(compact(80) + account(n) for n in numbers))
        expected = [row_text(number)[:-1] for number in numbers]
        alone = [f'{{"value":{text}}}' for text in texts]
        for part_bytes in ("9999", "100000000"):
            for file, form, its in ((json_file, "json", expected), (hex_file, "hex", alone), (lengths_file, "lengths", alone)):
                words = ("--input", form, "--part-bytes", part_bytes)
                self.assertEqual(self.decode([file], *words), (its, []))
            packed = self.write("rows.gz", gzip.compress(pathlib.Path(json_file).read_bytes()))
            self.assertEqual(self.decode([packed], "-z", "--part-bytes", part_bytes), (expected, []))
        packed = self.write("rows.bin.gz", gzip.compress(pathlib.Path(lengths_file).read_bytes()))
        self.assertEqual(self.decode([packed], "-z", "-i", "lengths", "--part-bytes", "9999"), (alone, []))
        self.assertEqual(self.decode([json_file, hex_file])[0], expected)

    def test_parts_are_cut_at_their_bytes(self) -> None:
        data = "".join(map(row, range(100)))
        job = self.job([self.write("rows", data)], "--part-bytes", "1000")
        parts = list(parts_of(job, 0))
        self.assertEqual([(part.start, part.number) for part in parts], [(at * 1000, at) for at in range(len(parts))])
        self.assertEqual(len(parts), -(-len(data) // 1000))
        self.assertEqual([part.is_last for part in parts], [False] * (len(parts) - 1) + [True])
        self.decode([str(self.folder / "rows")], "--part-bytes", "1000")
        names = sorted(path.name for path in (self.folder / "out").glob("part-*"))
        self.assertEqual(names, [f"part-00000-{at:06}.jsonl" for at in range(len(parts))])
        for at, name in enumerate(names):
            starts = [sum(len(row(n)) for n in range(number)) for number in range(100)]
            expected = "".join(row_text(n) for n in range(100) if at * 1000 <= starts[n] < at * 1000 + 1000)
            self.assertEqual((self.folder / "out" / name).read_text(), expected)

    def test_fields_may_have_other_names_and_be_absent(self) -> None:
        value = account(7).hex()
        lines_there = [
            f'{{"v":"{value}"}}', f' {{"v":"0x{value.upper()}","b":null,"k":null,"value":1}}\r',
            f'{{"b":7,"v":"{value}"}}', f'{{"k":"{key(7)}","v":"{value}","b":{10**30}}}',
        ]  # fmt: skip
        file = self.write("rows", "\n".join(lines_there))
        words = ("--block-field", "b", "--key-field", "k", "--value-field", "v")
        text = account_text(7)
        expected = [f'{{"value":{text}}}'] * 2 + [f'{{"block":7,"value":{text}}}']
        last = f'{{"block":{10**30},"key":{key_text(7)},"value":{text}}}'
        self.assertEqual(self.decode([file], *words), ([*expected, last], []))
        raw = f'{{"block":{10**30},"key":"{key(7)}","value":{text}}}'
        self.assertEqual(self.decode([file], *words, "--raw-keys"), ([*expected, raw], []))

    def test_keys_stay_where_the_name_has_none(self) -> None:
        self.metadata = str(CHAIN / "chain15.metadata")
        file = self.write("rows", '{"key":"\\u00e9","value":"0x01000000"}\n')
        job = dataclasses.replace(self.job([file]), name="event")
        transfer = (CHAIN / "transfer.scale").read_bytes()
        file = self.write("rows", f'{{"key":"\\u00e9","value":"{transfer.hex()}"}}\n')
        job = dataclasses.replace(self.job([file]), name="extrinsic")
        folder = Folder(job.folder)
        with folder.claimed(job):
            decode_part(job, next(parts_of(job, 0)))
        text = (CHAIN / "transfer.json").read_text().rstrip("\n")
        written = (folder.path / "part-00000-000000.jsonl").read_text()
        self.assertEqual(written, f'{{"key":"\\u00e9","value":{text}}}\n')

    def test_rejected_rows_end_nothing(self) -> None:
        value, good = account(5).hex(), row(5)
        wrong: list[tuple[bytes, tuple[Any, ...]]] = [
            (b"", (None, "NotJson", 0)),
            (b"{", (None, "NotJson", 1)),
            (b'{"value":"0x00"} x', (None, "NotJson", 17)),
            (b'{"value":NaN}', (None, "NotJson", None)),
            (b"[" * 5000, (None, "NotJson", None)),
            (b'{"block":' + b"9" * 10000 + b"}", (None, "NotJson", None)),
            (b'{"value":"\xff"}', (None, "BadUtf8", 10)),
            (b"[]", (None, "NotObject", None)),
            (b"null", (None, "NotObject", None)),
            (b"{}", ("value", "NoField", None)),
            (b'{"value":null}', ("value", "WrongField", None)),
            (b'{"value":["00"]}', ("value", "WrongField", None)),
            (f'{{"block":true,"value":"{value}"}}'.encode(), ("block", "WrongField", None)),
            (f'{{"block":-1,"value":"{value}"}}'.encode(), ("block", "WrongField", None)),
            (f'{{"block":1.0,"value":"{value}"}}'.encode(), ("block", "WrongField", None)),
            (f'{{"key":1,"value":"{value}"}}'.encode(), ("key", "WrongField", None)),
            (f'{{"value":"{value[:-2]}"}}'.encode(), ("value", "Truncated", 79)),
            (f'{{"value":"{value}0000"}}'.encode(), ("value", "TrailingBytes", 80)),
            (f'{{"value":"0x{value}0"}}'.encode(), ("value", "OddHex", 163)),
            (f'{{"value":"0x\\ud8000{value[:-2]}"}}'.encode(), ("value", "BadHex", 2)),
            (f'{{"key":"{key(1)[:-2]}","value":"{value}"}}'.encode(), ("key", "Truncated", 79)),
        ]
        text = b"".join(line + b"\n" + good.encode() for line, _ in wrong)
        file = self.write("rows", text)
        for part_bytes in ("700", "1000000"):
            rows, errors = self.decode([file, file], "--part-bytes", part_bytes)
            self.assertEqual(rows, [row_text(5)[:-1]] * 2 * len(wrong))
            places = [(2 * at + 1, *its) for at, (_, its) in enumerate(wrong)] * 2
            # A value that is cut lacks its flags, and a key its account: both are newtypes.
            paths = {("value", "Truncated"): "value.data.flags[0]", ("key", "Truncated"): "value.key0[0]"}
            # Where the whole text ends is where the module json notices it.
            self.check_errors([{**it, "place": None} for it in errors], [(*it[:3], None, paths.get(it[1:3])) for it in places])
            self.assertEqual([it["place"] for it in errors if it["reason"] != "NotJson"], [it[3] for it in places if it[2] != "NotJson"])
            self.assertEqual({it["file"] for it in errors}, {file})

    def test_wrong_digits_and_values_are_rows_of_errors(self) -> None:
        value = account(5)
        file = self.write("rows", b"\n".join([b"", b"0x0", b"0x0\xe9" + b"00" * 79, b"0x" + value.hex().encode(), b" "]))
        rows, errors = self.decode([file], "-i", "hex")
        self.assertEqual(rows, [f'{{"value":{account_text(5)}}}'])
        expected = [(1, "value", "Truncated", 0, "value.nonce"), (2, "value", "OddHex", 3, None)]
        self.check_errors(errors, [*expected, (3, "value", "BadHex", 3, None), (5, "value", "OddHex", 1, None)])
        data = compact(79) + value[:-1] + compact(80) + value + compact(80) + value[:9]
        rows, errors = self.decode([self.write("rows", data)], "-i", "lengths")
        self.assertEqual(rows, [f'{{"value":{account_text(5)}}}'])
        self.check_errors(errors, [(1, "value", "Truncated", 79, "value.data.flags[0]"), (3, None, "Truncated", 163, None)])

    def test_limits_hold_for_each_row(self) -> None:
        file = self.write("rows", row(1) + row(2))
        for words, reason, place in (
            (("--bytes", "79"), "TooLong", 79), (("--depth", "0"), "TooDeep", 0), (("--memory", "100"), "OutOfMemory", None),
        ):  # fmt: skip
            rows, errors = self.decode([file], *words, "--raw-keys")
            self.assertEqual((rows, [(it["row"], it["reason"]) for it in errors]), ([], [(1, reason), (2, reason)]))
            self.assertEqual({it["field"] for it in errors}, {"value"})
            if reason != "TooDeep":
                self.assertEqual({it["place"] for it in errors}, {place})
        long = self.write("rows", row(1) + " " * 5000 + row(2) + row(3))
        rows, errors = self.decode([long], "--bytes", "80")
        self.assertEqual(rows, [row_text(1)[:-1], row_text(3)[:-1]])
        self.check_errors(errors, [(2, None, "TooLong", 4 * 80 + 4096, None)])

    def test_a_truncated_gzip_is_a_row_of_errors(self) -> None:
        packed = gzip.compress("".join(map(row, range(500))).encode())
        for part_bytes in ("5000", "1000000"):
            rows, errors = self.decode([self.write("rows.gz", packed[:-30])], "-z", "--part-bytes", part_bytes)
            self.assertGreater(len(rows), 400)
            self.assertEqual(rows, [row_text(number)[:-1] for number in range(len(rows))])
            place = sum(len(row(number)) for number in range(len(rows)))
            self.assertEqual([(it["row"], it["field"], it["reason"]) for it in errors], [(len(rows) + 1, None, "TruncatedGzip")])
            self.assertLess(errors[0]["place"] - place, len(row(500)))

    def test_versions_have_their_blocks(self) -> None:
        self.write("new.metadata", (CHAIN / "chain15.metadata").read_bytes())
        versions = self.write("versions", "# none\n\n 4 5 new.metadata\n2 3 new.metadata\r\n10 - new.metadata")
        call = '{{"block":{},"value":"0x{}"}}\n'
        blocks = [9, 1, 2, 3, 4, 5, 6, 10, 11, 0, 10**25]
        data = "".join(call.format(block, "0001") for block in blocks)
        job = self.job([self.write("rows", data)], "--versions", versions)
        self.assertEqual([(it.first, it.last) for it in job.versions], [(2, 3), (4, 5), (10, None)])
        # Version 14 doesn't name what a method returns.
        job = dataclasses.replace(job, name="result:Core.version")
        folder = Folder(job.folder)
        with folder.claimed(job):
            decode_part(job, next(parts_of(job, 0)))
            folder.join(job)
        errors = [json.loads(line) for line in folder.errors.read_text().splitlines()]
        found = {blocks[it["row"] - 1]: it["reason"] for it in errors}
        self.assertEqual(set(found), set(blocks))
        self.assertEqual({block for block, reason in found.items() if reason == "UnknownName"}, {9, 1, 6, 0})

    def test_blocks_are_needed_where_there_are_versions(self) -> None:
        versions = self.write("versions", f"0 9 {self.metadata}\n")
        file = self.write("rows", f'{{"value":"{account(1).hex()}"}}\n' + row(1))
        rows, errors = self.decode([file], "--versions", versions)
        self.assertEqual(rows, [row_text(1)[:-1]])
        self.check_errors(errors, [(1, "block", "NoField", None, None)])

    def test_a_path_is_written_where_an_error_has_one(self) -> None:
        from scaleview import Refused
        from scaleview.archive.rows import _rejection_of

        error = Refused(301, "Truncated", "value", 5)
        self.assertIsNone(getattr(error, "path", None))
        error.path = "Balances[0].value"  # type: ignore[attr-defined]
        self.assertEqual(_rejection_of(3, "value", error), (3, "value", "Truncated", 5, "Balances[0].value"))

    def test_a_bug_is_no_row_of_errors(self) -> None:
        from scaleview.archive.rows import _rejection_of

        with self.assertRaises(ValueError):
            _rejection_of(3, "value", ValueError("the registry is closed"))


class UsualLines(unittest.TestCase):
    """Lines whose fields are read without the module json."""

    def check(self, lines_there: list[str], fields: Fields) -> bool:
        """Returns whether the fields are read. If the texts in them are digits, json reads the same ones."""
        found = fields_of("\n".join(lines_there), fields)
        if found is None:
            return False
        keys = found.keys or [None] * len(lines_there)
        for line, block, key, value in zip(lines_there, map(int, found.blocks), keys, found.values):
            if set(value) | set(key or "") <= set("0123456789abcdefABCDEFx"):
                expected = {fields.block: block, fields.key: key, fields.value: value}
                self.assertEqual({name: its for name, its in expected.items() if its is not None}, json.loads(line))
        return True

    def test_both_forms_are_read(self) -> None:
        rows = [{"block": 0, "key": "0x1", "value": ""}, {"block": 10**17, "key": "", "value": "0xab"}]
        for separators in ((", ", ": "), (",", ":")):
            lines_there = [json.dumps(it, separators=separators) for it in rows]
            found = fields_of("\n".join(lines_there), Fields())
            self.assertEqual(found, (["0", str(10**17)], ["0x1", ""], ["", "0xab"]))
            for it in rows:
                del it["key"]
            without = [json.dumps(it, separators=separators) for it in rows]
            self.assertEqual(fields_of("\n".join(without), Fields()), (["0", str(10**17)], None, ["", "0xab"]))
            self.assertIsNone(fields_of("\n".join([*without, *lines_there]), Fields()))
            rows = [{"block": it["block"], "key": key, "value": it["value"]} for it, key in zip(rows, ("0x1", ""))]

    def test_groups_are_whole_lines(self) -> None:
        for text in ("", "a", "\n", "a\n", "\n\n", "x" * 40000, "x" * 40000 + "\n", "ab\n" * 20000, "\n" * 40000, "y\n" + "x" * 16384 + "\nz"):
            groups = list(groups_of(text))
            self.assertEqual("\n".join(groups), text)
            self.assertEqual([len(it) for it in groups if len(it) > 16384 and "\n" in it], [])

    def test_other_forms_are_not_read(self) -> None:
        good = '{"block": 1, "value": "0x00"}'
        self.assertTrue(self.check([good, good], Fields()))
        for wrong in (
            "", "{}", good[:-1], good + " ", " " + good, good + "\r", good.replace("1", "01"), good.replace("1", "-1x"),
            good.replace("1", "1_0"), good.replace("1", " 1"), good.replace("1", "\u0661"), good.replace("1", "1.0"), good.replace(": 1", ":1"),
            good.replace("block", "blocK"), good.replace("value", "valu"), good.replace("1,", "1,,"), good.replace(": 1", ":: 1"),
            good.replace('"0x00"', '"0x00", "value": "0x01"'), good.replace("1", '"1"'), f"[{good}]", good * 2, good.replace("0x00", '"'),
        ):  # fmt: skip
            self.assertIsNone(fields_of(f"{good}\n{wrong}", Fields()), wrong)
            self.assertIsNone(fields_of(f"{wrong}\n{good}", Fields()), wrong)
        self.assertEqual([are_plain(Fields(name)) for name in ("block", "a b", "\\b", 'a"', "é", "\t")], [True, True] + [False] * 4)

    def test_what_is_read_is_what_json_reads(self) -> None:
        chance, read = random.Random(11), 0
        for style in ('{"block": 12, "key": "0xab", "value": "0xcd"}', '{"block":12,"key":"0xab","value":"0xcd"}', '{"block": 7, "value": "0x"}'):
            for _ in range(20_000):
                letters = list(style)
                for _ in range(chance.randrange(4)):
                    at = chance.randrange(len(letters))
                    letters[at : at + chance.randrange(3)] = chance.choices('{}[]":, \\\t\r01b-.xe', k=chance.randrange(3))
                read += self.check([style, "".join(letters)], Fields())
        self.assertGreater(read, 15_000)


class Folders(JobCase):
    """A run that goes on, and what it rejects."""

    def check_rejected(self, call: Callable[[], object], text: str, status: Status = Status.REJECTED) -> None:
        with self.assertRaises(Failure) as raised:
            call()
        self.assertEqual((raised.exception.status, raised.exception.line), (status, text))

    def claim(self, job: Job) -> None:
        with Folder(job.folder).claimed(job):
            pass

    def test_a_run_goes_on_where_it_was(self) -> None:
        file = self.write("rows", "".join(map(row, range(50))) + "x\n")
        job, folder = self.job([file], "--part-bytes", "1000"), Folder(str(self.folder / "out"))
        parts = list(parts_of(job, 0))
        with folder.claimed(job):
            for part in parts[::2]:
                decode_part(job, part)
        with folder.claimed(job):
            self.assertEqual([folder.summary_of(part) is not None for part in parts], [not at % 2 for at in range(len(parts))])
            self.assertEqual([part.number for part, _ in folder.finished(0)], [0])
            for part in parts[1::2]:
                decode_part(job, part)
            self.assertEqual(folder.join(job).rows, 51)
        # A part whose rows are gone or cut isn't finished.
        folder.rows_path(parts[1]).unlink()
        os.truncate(folder.rows_path(parts[2]), 5)
        self.assertEqual([folder.summary_of(part) is not None for part in parts[:4]], [True, False, False, True])

    def test_what_a_worker_left_is_no_part(self) -> None:
        job, folder = self.job([self.write("rows", row(1))]), Folder(str(self.folder / "out"))
        with self.assertRaises(Failure), folder.claimed(job):
            os.utime(job.inputs[0].path, (1, 1))
            decode_part(job, next(parts_of(job, 0)))
        self.assertEqual([path.name for path in folder.path.iterdir()], ["state"])
        self.assertEqual(sorted(path.name for path in folder.state.rglob("part-*") if path.parent == folder.parts), [])

    def test_another_run_is_rejected(self) -> None:
        file, out = self.write("rows", row(1)), str(self.folder / "out")
        self.claim(self.job([file]))
        self.claim(self.job([file]))
        for words, what in (
            (("--part-bytes", "9"), "options"), (("--raw-keys",), "options"), (("-i", "hex"), "options"),
            (("--depth", "9"), "options"), (("--value-field", "v"), "options"), (("--bits",), "options"),
            (("--versions", self.write("versions", f"0 1 {self.metadata}")), "--versions"),
        ):  # fmt: skip
            text = f"{out}: the run there has another {what}: take another folder"
            self.check_rejected(lambda: self.claim(self.job([file], *words)), text)
        text = f"{out}: the run there has another INPUT: take another folder"
        self.check_rejected(lambda: self.claim(self.job([file, file])), text)
        job = dataclasses.replace(self.job([file]), name="call")
        self.check_rejected(lambda: self.claim(job), f"{out}: the run there has another NAME: take another folder")
        self.metadata = str(CHAIN / "chain15.metadata")
        text = f"{out}: the run there has another METADATA: take another folder"
        self.check_rejected(lambda: self.claim(self.job([file])), text)
        self.metadata = str(CHAIN / "chain.metadata")
        self.write("rows", row(2) + row(1))
        text = f"{out}: {file} has changed since the run began there: take another folder"
        self.check_rejected(lambda: self.claim(self.job([file])), text)

    def test_a_folder_of_another_kind_is_rejected(self) -> None:
        file, out = self.write("rows", row(1)), self.folder / "out"
        out.mkdir()
        self.claim(self.job([file]))
        shutil.rmtree(out)
        out.mkdir()
        (out / "mine").touch()
        self.check_rejected(lambda: self.claim(self.job([file])), f"{out}: it has files that are of no run")
        self.assertEqual([path.name for path in out.iterdir()], ["mine"])

    def test_two_runs_do_not_work_in_a_folder(self) -> None:
        job = self.job([self.write("rows", row(1))])
        with Folder(job.folder).claimed(job):
            self.check_rejected(lambda: self.claim(job), f"{job.folder}: another run works in it")
        self.claim(job)

    def test_what_changes_meanwhile_is_rejected(self) -> None:
        copy = self.write("copy.metadata", pathlib.Path(self.metadata).read_bytes())
        self.metadata = copy
        file = self.write("rows", row(1))
        job = self.job([file])
        with Folder(job.folder).claimed(job):
            part = next(parts_of(job, 0))
            decode_part(job, part)
            self.write("copy.metadata", (CHAIN / "chain15.metadata").read_bytes())
            self.check_rejected(lambda: decode_part(job, part), f"{copy}: it has changed since the run began")
            self.write("copy.metadata", (CHAIN / "chain.metadata").read_bytes())
            decode_part(job, part)
            os.utime(file, (1, 1))
            self.check_rejected(lambda: decode_part(job, part), f"{file}: it has changed since the run began")

    def test_failures_are_pickled(self) -> None:
        failure = pickle.loads(pickle.dumps(Failure(Status.MEMORY, "text")))
        self.assertEqual((type(failure), failure.status, str(failure)), (Failure, Status.MEMORY, "text"))


class Printed(unittest.TestCase):
    def test_a_bar_has_what_is_done_and_left(self) -> None:
        from scaleview.archive.job import Summary

        stream = io.StringIO()
        progress = Progress(stream, 400)
        progress.add_known(Summary(5, 1, 100, 9, False))
        progress.add(Summary(3000, 2, 100, 9, False))
        progress.refresh()
        self.assertEqual(stream.getvalue(), "")
        text = "[###############...............]  50%  1,500 rows/s  2 errors  0:04 left"
        self.assertEqual(progress.text(2.0), text)
        progress._printed -= 1
        progress.refresh()
        self.assertRegex(stream.getvalue(), r"^\r\x1b\[K\[#{15}\.{15}\]  50%  [0-9,]+ rows/s  2 errors  0:0[0-9] left$")
        Progress(None, 0).add(Summary(1, 1, 1, 1, True))

    def test_a_time_has_hours_where_it_is_long(self) -> None:
        self.assertEqual([clock(it) for it in (0.9, 61, 3600, 36061.5)], ["0:00", "1:01", "1:00:00", "10:01:01"])


class Command(Case):
    """The command's words and statuses where no worker is started."""

    def setUp(self) -> None:
        super().setUp()
        self.metadata, self.out = str(CHAIN / "chain.metadata"), str(self.folder / "out")

    def run_command(self, *words: str) -> tuple[int, str, str]:
        """The status of a command, and what it prints."""
        with contextlib.redirect_stdout(io.StringIO()) as out, contextlib.redirect_stderr(io.StringIO()) as err:
            try:
                status = command.main(words)
            except SystemExit as ended:
                status = int(ended.code or 0)
        return int(status), out.getvalue(), err.getvalue()

    def check(self, status: int, line: str, *words: str) -> None:
        """One line, and no folder."""
        self.assertEqual(self.run_command(*words), (status, "", f"scaleview: {line}\n"))
        self.assertFalse(os.path.exists(self.out))

    def test_wrong_words(self) -> None:
        file = self.write("rows", row(1))
        usual = (self.metadata, ACCOUNT, file, "--out", self.out)
        for words, line in (
            ((), "the following arguments are required: METADATA, NAME, INPUT, --out"),
            (usual[:3], "the following arguments are required: --out"),
            ((*usual, "--workers", "0"), "argument --workers: '0' is no number from 1 to 4096"),
            ((*usual, "--workers", "+1"), "argument --workers: '+1' is no number from 1 to 4096"),
            ((*usual, "--depth", "1025"), "argument --depth: '1025' is no number from 0 to 1024"),
            ((*usual, "--part-bytes", "0"), f"argument --part-bytes: '0' is no number from 1 to {1 << 40}"),
            ((*usual, "--memory", "x"), f"argument --memory: 'x' is no number from 1 to {(1 << 64) - 1}"),
            ((*usual, "--workers", "1", "--scheduler", "a"), "argument --scheduler: not allowed with argument --workers"),
            ((*usual, "--key-field", "value"), "two fields have one name"),
            ((*usual, "--more"), "unrecognized arguments: --more"),
            ((*usual, "--versions", self.write("v", f"0 1 {self.metadata}"), "-i", "hex"), "--versions needs rows with blocks: --input json"),
        ):  # fmt: skip
            status, out, err = self.run_command(*words)
            self.assertEqual((status, out), (2, ""))
            self.assertEqual(err.replace(" (--help has more)", ""), f"scaleview: usage: {line}\n")
            self.assertFalse(os.path.exists(self.out))

    def test_help_has_examples(self) -> None:
        status, out, err = self.run_command("--help")
        self.assertEqual((status, err), (0, ""))
        self.assertIn("exit status: 0 if", out)

    def test_missing_and_wrong_files(self) -> None:
        file, gone = self.write("rows", row(1)), str(self.folder / "gone")
        packed = self.write("rows.gz", gzip.compress(row(1).encode()))
        wrong = self.write("wrong.metadata", b"meta\x0e\x04")
        options = ("--out", self.out)
        for words, line in (
            ((self.metadata, ACCOUNT, file, gone, *options), f"{gone}: No such file or directory"),
            ((gone, ACCOUNT, file, *options), f"{gone}: No such file or directory"),
            ((self.metadata, ACCOUNT, file, *options, "--versions", gone), f"{gone}: No such file or directory"),
            ((self.metadata, ACCOUNT, str(self.folder), *options), f"{self.folder}: Is a directory"),
            ((self.metadata, ACCOUNT, "/dev/null", *options), "/dev/null: it is no file"),
            ((self.metadata, ACCOUNT, file, packed, *options), f"{packed}: it is compressed: add -z"),
            ((self.metadata, ACCOUNT, file, *options, "-z"), f"{file}: it isn't compressed: omit -z"),
            ((file, ACCOUNT, file, *options), f"{file}: registry: NotMetadata at 0"),
            ((wrong, ACCOUNT, file, *options), f"{wrong}: registry: Truncated at 6"),
            ((self.metadata, "storage:System.No", file, *options), 'type: UnknownName "storage:System.No"'),
            ((self.metadata, "System.Account", file, *options), 'type: UnknownName "System.Account"'),
        ):
            self.check(1, line, *words)
        for text, line in (
            ("0 9", "line 1: expected FIRST LAST FILE, where LAST may be -"),
            ("\n0 x file", "line 2: expected FIRST LAST FILE, where LAST may be -"),
            ("9 0 file", "line 1: the last block stands before the first"),
            (f"5 9 {self.metadata}\n0 5 {self.metadata}", "two ranges have block 5"),
            (f"0 - {self.metadata}\n7 8 {self.metadata}", "two ranges have block 7"),
            ("# none", "it has no line FIRST LAST FILE"),
        ):
            versions = self.write("versions", text)
            separator = " " if not line.startswith("line") else " "
            self.check(1, f"{versions}:{separator}{line}", self.metadata, ACCOUNT, file, *options, "--versions", versions)
        versions = self.write("versions", "0 1 gone")
        self.check(1, f"{gone}: No such file or directory", self.metadata, ACCOUNT, file, *options, "--versions", versions)

    def test_no_version_with_the_name_is_one_line(self) -> None:
        versions = self.write("versions", f"0 1 {CHAIN / 'chain15.metadata'}\n")
        file = self.write("rows", row(1))
        line = 'type: UnknownName "storage:System.No"'
        self.check(1, line, self.metadata, "storage:System.No", file, "--out", self.out, "--versions", versions)

    @unittest.skipIf(os.geteuid() == 0, "the superuser may read all files")
    def test_what_may_not_be_read_is_a_device(self) -> None:
        file = self.write("rows", row(1))
        os.chmod(file, 0)
        self.check(3, f"{file}: Permission denied", self.metadata, ACCOUNT, file, "--out", self.out)

    @unittest.skipIf(HAS_CLUSTER, "the package distributed is there")
    def test_a_missing_cluster_is_one_line(self) -> None:
        file = self.write("rows", row(1))
        line = "the package distributed is missing: install python3-distributed, or distributed by pip"
        self.check(3, line, self.metadata, ACCOUNT, file, "--out", self.out)


def digests(out: pathlib.Path) -> dict[str, str]:
    """What is in the files of a run that users read."""
    files = sorted(path for path in out.iterdir() if path.is_file())
    return {path.name: hashlib.sha256(path.read_bytes()).hexdigest() for path in files}


class ClusterCase(Case):
    """Runs over two files, of which every hundredth row is spoilt."""

    rows = 30_000
    part_bytes = 150_000
    inputs: pathlib.Path
    #: The texts of all files that a run has to write, and their sums.
    parts: dict[str, str]
    expected: dict[str, str]

    @classmethod
    def setUpClass(cls) -> None:
        made = tempfile.TemporaryDirectory()
        cls.addClassCleanup(made.cleanup)
        cls.inputs = pathlib.Path(made.name)
        cls.make_input()

    @classmethod
    def make_input(cls) -> None:
        """Makes the files, and what a run has to make of them."""
        cls.parts, errors = {}, []
        for input, numbers in enumerate((range(cls.rows // 3), range(cls.rows // 3, cls.rows))):
            file, place = cls.inputs / f"rows-{input}.jsonl", 0
            with open(file, "w") as written:
                for at, number in enumerate(numbers):
                    name = f"part-{input:05}-{place // cls.part_bytes:06}.jsonl"
                    is_spoilt = number % 100 == 50
                    line, text = (row(number), row_text(number)) if not is_spoilt else ("spoilt\n", "")
                    cls.parts[name] = cls.parts.get(name, "") + text
                    if is_spoilt:
                        error = {"file": str(file), "row": at + 1, "field": None, "reason": "NotJson", "place": 0, "path": None}
                        errors.append(json.dumps(error) + "\n")
                    written.write(line)
                    place += len(line)
        cls.parts["errors.jsonl"] = "".join(errors)
        cls.expected = {name: hashlib.sha256(text.encode()).hexdigest() for name, text in sorted(cls.parts.items())}

    def setUp(self) -> None:
        super().setUp()
        self.out = self.folder / "out"

    def words(self, *more: str) -> list[str]:
        """The words of a command over the inputs."""
        files = [str(self.inputs / f"rows-{input}.jsonl") for input in range(2)]
        options = ["--out", str(self.out), "--part-bytes", str(self.part_bytes), *more]
        return [str(CHAIN / "chain.metadata"), ACCOUNT, *files, *options]

    def start(self, *more: str) -> subprocess.Popen[str]:
        """Starts a run as a process of its own."""
        return subprocess.Popen(
            [sys.executable, "-m", "scaleview.archive", *self.words(*more)],
            stdout=subprocess.PIPE, stderr=subprocess.PIPE, universal_newlines=True, start_new_session=True,
        )  # fmt: skip

    def finish(self, *more: str) -> None:
        """Runs to the end, and compares all that was written."""
        process = self.start(*more)
        out, err = process.communicate(timeout=120)
        self.assertEqual((process.returncode, err), (0, ""))
        size = sum((self.inputs / f"rows-{input}.jsonl").stat().st_size for input in range(2))
        self.assertRegex(out, rf"^{self.rows} rows, {self.rows // 100} errors, {size} bytes, [0-9]+\.[0-9] s\n$")
        self.check_output()

    def check_output(self) -> None:
        self.assertEqual(digests(self.out), self.expected)

    def finished(self) -> dict[str, int]:
        """The parts that are finished, with the files' numbers, which a part that is written anew changes. Each is complete."""
        found = {}
        for path in self.out.glob("part-*"):
            self.assertEqual(hashlib.sha256(path.read_bytes()).hexdigest(), self.expected[path.name])
            if (self.out / "state" / "parts" / f"{path.stem}.json").exists():
                found[path.name] = path.stat().st_ino
        return found

    def wait_for_parts(self, process: subprocess.Popen[str], count: int) -> None:
        """Waits until a run has finished so many parts."""
        while process.poll() is None and len(list(self.out.glob("part-*"))) < count:
            time.sleep(0.01)


def workers_of(pid: int) -> list[Any]:
    """The worker processes of a run."""
    import psutil

    children = psutil.Process(pid).children()
    return [child for child in children if "scaleview.archive.worker" in child.cmdline()]


@NEEDS_CLUSTER
class Runs(ClusterCase):
    """Runs as processes of their own."""

    def test_one_two_and_four_processes_write_the_same(self) -> None:
        for count in ("1", "2", "4"):
            shutil.rmtree(self.out, ignore_errors=True)
            self.finish("--workers", count)

    def test_a_run_that_is_killed_goes_on(self) -> None:
        chance, most = random.Random(7), len(self.expected) - 2
        for _ in range(2):
            with self.start("--workers", "2") as process:
                known = self.finished() if self.out.exists() else {}
                self.wait_for_parts(process, chance.randrange(len(known), most))
                os.kill(process.pid, signal.SIGKILL)
            self.assertEqual(process.returncode, -signal.SIGKILL)
            self.assertFalse((self.out / "errors.jsonl").exists())
            self.assertEqual({name: self.finished().get(name) for name in known}, known)
        known = self.finished()
        self.assertGreater(len(known), 0)
        self.finish("--workers", "2")
        self.assertEqual({name: self.finished()[name] for name in known}, known)
        # A run that is done does nothing.
        known = self.finished()
        self.finish("--workers", "2")
        self.assertEqual(self.finished(), known)

    def test_a_run_that_is_interrupted_goes_on(self) -> None:
        for number in (signal.SIGINT, signal.SIGTERM):
            process = self.start("--workers", "2")
            self.wait_for_parts(process, len(list(self.out.glob("part-*"))) + 3)
            # As a terminal does, for all processes of the run.
            os.killpg(process.pid, number)
            out, err = process.communicate(timeout=60)
            line = f"scaleview: stopped; the same command goes on where it was, in {self.out}\n"
            self.assertEqual((process.returncode, out, err), (130, "", line))
        self.assertGreater(len(self.finished()), 5)
        self.finish("--workers", "1")


    def kill_worker(self, process: subprocess.Popen[str], parts: int) -> bool:
        """Kills a worker of a run that has finished so many parts, and returns whether others were missing then."""
        self.wait_for_parts(process, parts)
        time.sleep(random.uniform(0, 0.05))
        found = workers_of(process.pid)
        if not found or len(list(self.out.glob("part-*"))) >= len(self.expected) - 1:
            return False
        random.choice(found).kill()
        return True

    def test_workers_that_are_killed_at_any_time_change_nothing(self) -> None:
        kills = 0
        while kills < 10:
            shutil.rmtree(self.out, ignore_errors=True)
            process = self.start("--workers", "2")
            for parts in sorted(random.sample(range(len(self.expected) - 10), 5)):
                kills += self.kill_worker(process, parts)
            out, err = process.communicate(timeout=120)
            self.assertEqual((process.returncode, err), (0, ""))
            self.check_output()

    def test_no_scheduler_is_one_line(self) -> None:
        for address in ("tcp://127.0.0.1:9", "nonsense://x"):
            with mock.patch.dict(os.environ, DASK_DISTRIBUTED__COMM__TIMEOUTS__CONNECT="1s"):
                process = self.start("--scheduler", address)
            out, err = process.communicate(timeout=60)
            self.assertEqual((process.returncode, out), (3, ""))
            self.assertRegex(err, rf"^scaleview: {address}: no scheduler: .*\n$")

    def test_a_full_disk_is_one_line(self) -> None:
        process = self.start("--workers", "1")
        self.wait_for_parts(process, 2)
        # A worker can't make files in a folder that isn't there.
        os.rename(self.out / "state" / "unfinished", self.out / "state" / "gone")
        out, err = process.communicate(timeout=60)
        self.assertEqual((process.returncode, out), (1, ""))
        self.assertRegex(err, r"^scaleview: .*unfinished.*: No such file or directory\n$")

    def test_a_scheduler_that_ends_is_one_line(self) -> None:
        file, words = self.folder / "scheduler.json", ["--port", "0", "--host", "127.0.0.1", "--dashboard-address", "127.0.0.1:0"]
        program = [sys.executable, "-m", "distributed.cli.dask_scheduler", *words, "--scheduler-file", str(file)]
        with subprocess.Popen(program, stderr=subprocess.DEVNULL) as scheduler:
            while not file.exists() or not file.read_text():
                time.sleep(0.05)
            with mock.patch.dict(os.environ, DASK_DISTRIBUTED__COMM__TIMEOUTS__CONNECT="1s"):
                process = self.start("--scheduler", json.loads(file.read_text())["address"])
            while not (self.out / "state" / "manifest.json").exists():
                time.sleep(0.05)
            time.sleep(1)
            scheduler.kill()
        out, err = process.communicate(timeout=60)
        self.assertEqual((process.returncode, out, err), (3, "", "scaleview: the scheduler is gone\n"))

    def test_workers_and_tasks_that_end_again_and_again_end_the_run(self) -> None:
        from distributed import CancelledError, KilledWorker
        from scaleview.archive import run

        processes = mock.Mock(count=2, deaths=25)
        cluster = run.Cluster(mock.Mock(), processes)
        with self.assertRaisesRegex(Failure, "^the workers end again and again: is there enough memory\\?$") as raised:
            cluster.check()
        self.assertEqual(raised.exception.status, 4)
        cluster.note_progress()
        cluster.check()
        processes.deaths = 45
        cluster.check()
        for error, status in ((KilledWorker("task", mock.Mock(), 3), 4), (CancelledError("task"), 3), (ImportError("no"), 3)):
            with self.assertRaises(Failure) as raised:
                run._result_of(mock.Mock(result=mock.Mock(side_effect=error)))
            self.assertEqual(raised.exception.status, status)


@NEEDS_CLUSTER
class Clusters(ClusterCase):
    """Runs on a cluster of two workers."""

    @classmethod
    def setUpClass(cls) -> None:
        super().setUpClass()
        from distributed import LocalCluster

        settings = {"silence_logs": logging.CRITICAL, "local_directory": str(cls.inputs / "workers")}
        address = {"dashboard_address": "127.0.0.1:0"}
        cls.cluster = LocalCluster(2, threads_per_worker=1, dashboard_address=None, scheduler_kwargs=address, **settings)
        cls.addClassCleanup(cls.cluster.close)

    cluster: Any

    def run_on_cluster(self, words: list[str]) -> tuple[int, str, str]:
        with contextlib.redirect_stdout(io.StringIO()) as out, contextlib.redirect_stderr(io.StringIO()) as err:
            status = command.main([*words, "--scheduler", self.cluster.scheduler_address])
        return status, out.getvalue(), err.getvalue()

    def test_compressed_files_are_decoded_with_a_bar(self) -> None:
        files = []
        for input in range(2):
            files.append(str(self.folder / f"rows-{input}.jsonl.gz"))
            data = (self.inputs / f"rows-{input}.jsonl").read_bytes()
            pathlib.Path(files[-1]).write_bytes(gzip.compress(data, 1)[: -1 if input else None])
        options = ["--out", str(self.out), "--part-bytes", str(self.part_bytes), "-z", "--progress"]
        status, out, err = self.run_on_cluster([str(CHAIN / "chain.metadata"), ACCOUNT, *files, *options])
        self.assertEqual(status, 0)
        self.assertRegex(out, rf"^{self.rows + 1} rows, {self.rows // 100 + 1} errors, [0-9]+ bytes, ")
        self.assertRegex(err, r"^(\r\x1b\[K\[#*\.*\] +[0-9]+%  [0-9,]+ rows/s  [0-9,]+ errors  [0-9:]+ left)+\r\x1b\[K$")
        found = digests(self.out)
        lines_there = (self.out / "errors.jsonl").read_text().replace(".jsonl.gz", ".jsonl").splitlines()
        last = json.loads(lines_there.pop())
        self.assertEqual((last["row"], last["reason"]), (self.rows - self.rows // 3 + 1, "TruncatedGzip"))
        self.assertEqual([json.loads(line)["row"] for line in lines_there], [json.loads(line)["row"] for line in self.parts["errors.jsonl"].splitlines()])
        self.assertEqual({**found, "errors.jsonl": ""}, {**self.expected, "errors.jsonl": ""})

    def test_what_a_task_raises_ends_the_run_with_one_line(self) -> None:
        file = self.folder / "rows.jsonl"
        shutil.copy(self.inputs / "rows-0.jsonl", file)
        with mock.patch.object(Folder, "_compare", lambda *_: os.utime(file, (1, 1))):
            found = self.run_on_cluster([str(CHAIN / "chain.metadata"), ACCOUNT, str(file), "--out", str(self.out)])
        self.assertEqual(found, (1, "", f"scaleview: {file}: it has changed since the run began\n"))
        self.assertEqual([path.name for path in self.out.iterdir()], ["state"])


if __name__ == "__main__":
    unittest.main()
