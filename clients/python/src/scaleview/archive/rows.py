"""Rows: their fields, their JSON texts, and why some are rejected."""

from __future__ import annotations

import json
from typing import Any, Callable, Dict, List, NamedTuple, NoReturn, Optional, Union

from .. import OutOfMemory, Refused
from .job import Form, Job
from .sources import Fault, Piece
from .usual import Group, are_plain, fields_of, groups_of
from .versions import Types, Versions


class Rejection(NamedTuple):
    """A row that is rejected."""

    #: The position of the row in its part.
    row: int
    #: The name of the field that is rejected, or None for the row as a whole.
    field: Optional[str]
    reason: str
    place: Optional[int]
    path: Optional[str]


class WrongRow(Exception):
    """A row that hasn't the fields that it should have."""

    def __init__(self, reason: str, field: Optional[str], place: Optional[int] = None) -> None:
        super().__init__(reason, field, place)
        self.reason = reason
        self.field = field
        self.place = place


#: Is called with the JSON texts of rows, and with those that are rejected.
Write = Callable[[List[str], List[Rejection]], None]

# So many characters of texts, or so many rejections, are written together.
_MOST_HELD, _MOST_REJECTIONS = 1 << 20, 1 << 12

# So many values are decoded together, as long as none is rejected.
_GROUP = 64

# A ValueError or a RecursionError that is none of these comes from the module json.
_REJECTED = (Refused, OutOfMemory, WrongRow, ValueError, RecursionError)


def _rejection_of(row: int, field: Optional[str], error: BaseException) -> Rejection:
    """Returns why a row is rejected whose field, or whose text, raised an exception."""
    path: Optional[str] = getattr(error, "path", None)
    if isinstance(error, WrongRow):
        return Rejection(row, error.field, error.reason, error.place, None)
    if isinstance(error, Refused):
        return Rejection(row, field, error.reason, error.place, path)
    if isinstance(error, OutOfMemory):
        return Rejection(row, field, "OutOfMemory", None, path)
    if field is not None:
        raise error
    if isinstance(error, UnicodeDecodeError):
        return Rejection(row, None, "BadUtf8", error.start, None)
    place = error.pos if isinstance(error, json.JSONDecodeError) else None
    return Rejection(row, None, "NotJson", place, None)


def _reject_constant(name: str) -> NoReturn:
    """Rejects NaN and infinities, which the module json reads and JSON doesn't have."""
    raise ValueError(f"{name} isn't JSON")


_decoder = json.JSONDecoder(parse_constant=_reject_constant)


def _row_of(line: str) -> Any:
    """Returns what a line of JSON holds, with or without space around it."""
    try:
        return _decoder.decode(line)
    except json.JSONDecodeError:
        raise
    except (ValueError, RecursionError):
        raise WrongRow("NotJson", None) from None


def _lines_of(text: str) -> List[str]:
    """Returns lines without their line ends, each of which may be a CR and a LF."""
    lines = text.split("\n")
    if "\r" not in text:
        return lines
    return [line[:-1] if line.endswith("\r") else line for line in lines]


class Rows:
    """Decodes the rows of a part one after the other."""

    def __init__(self, job: Job, write: Write) -> None:
        self._names = job.fields
        self._are_plain = are_plain(job.fields)
        self._is_hex = job.form is Form.HEX
        self._needs_block = bool(job.versions)
        self._versions = Versions(job)
        # No block is in it.
        self._types = Types(0, -1, str, None)
        #: How many rows there were.
        self.count = 0
        self._write = write
        self._texts: List[str] = []
        self._rejections: List[Rejection] = []
        # How many characters the texts have.
        self._held = 0

    def add(self, piece: Piece) -> None:
        """Adds the rows of a piece."""
        if isinstance(piece, Fault):
            self._rejections.append(Rejection(self.count, None, piece.reason, piece.place, None))
            self.count += 1
        elif isinstance(piece, list):
            self._add_values(piece)
        elif self._is_hex:
            # Each byte is a character, so that places count bytes.
            self._add_values(_lines_of(piece.decode("latin-1")))
        else:
            try:
                text = piece.decode()
            except UnicodeDecodeError:
                self._add_bytes(piece.split(b"\n"))
            else:
                self._add_json(text)

    def flush(self) -> None:
        """Writes what came of the rows so far."""
        self._write(self._texts, self._rejections)
        self._texts, self._rejections, self._held = [], [], 0

    def _reject(self, field: Optional[str], error: BaseException) -> None:
        """Adds a row whose field, or whose text, raised an exception."""
        self._rejections.append(_rejection_of(self.count, field, error))
        self.count += 1
        if len(self._rejections) >= _MOST_REJECTIONS:
            self.flush()

    def _hold(self, texts: List[str]) -> None:
        """Adds the texts of rows that are all decoded."""
        self._texts += texts
        self.count += len(texts)
        self._held += sum(map(len, texts))
        if self._held > _MOST_HELD:
            self.flush()

    def _add_values(self, values: Union[List[bytes], List[str]]) -> None:
        """Adds values that have no other fields, as bytes or digits."""
        write = self._versions.types_at(0).value
        for start in range(0, len(values), _GROUP):
            group = values[start : start + _GROUP]
            try:
                texts = [f'{{"value":{text}}}' for text in map(write, group)]
            except _REJECTED:
                self._add_each(group, write)
            else:
                self._hold(texts)

    def _add_each(self, values: Union[List[bytes], List[str]], write: Callable[[Any], str]) -> None:
        """Adds values some of which are rejected."""
        for value in values:
            try:
                text = f'{{"value":{write(value)}}}'
            except _REJECTED as error:
                self._reject(self._names.value, error)
            else:
                self._hold([text])

    def _add_bytes(self, lines: List[bytes]) -> None:
        """Adds lines of JSON some of which aren't UTF-8."""
        for line in lines:
            try:
                text = line.decode()
            except UnicodeDecodeError as error:
                self._reject(None, error)
            else:
                self._add_line(text)

    def _add_json(self, text: str) -> None:
        """Adds lines of JSON."""
        for lines in groups_of(text):
            try:
                texts = self._texts_of(fields_of(lines, self._names) if self._are_plain else None)
            except _REJECTED:
                texts = None
            if texts is not None:
                self._hold(texts)
            else:
                for line in lines.split("\n"):
                    self._add_line(line)

    def _texts_of(self, group: Optional[Group]) -> Optional[List[str]]:
        """Returns the texts of rows of the usual form, or None if their types aren't those of the
        row before."""
        if group is None:
            return None
        blocks, keys, values = group
        numbers = list(map(int, blocks)) if self._needs_block else [0]
        if not self._types.first <= min(numbers) <= max(numbers) <= self._types.last:
            return None
        write, write_key = self._types.value, self._types.key
        if keys is None:
            texts = map(write, values)
            return [f'{{"block":{block},"value":{text}}}' for block, text in zip(blocks, texts)]
        if write_key is None:
            return None
        triples = zip(blocks, map(write_key, keys), map(write, values))
        return [f'{{"block":{block},"key":{key},"value":{text}}}' for block, key, text in triples]

    def _add_line(self, line: str) -> None:
        """Adds a line of JSON of any form."""
        field: Optional[str] = None
        try:
            row = _row_of(line)
            if not isinstance(row, dict):
                raise WrongRow("NotObject", None)
            self._check(row)
            block, key = row.get(self._names.block), row.get(self._names.key)
            if not self._types.first <= (block or 0) <= self._types.last:
                self._types = self._types_at(block or 0)
            field = self._names.value
            text = f'"value":{self._types.value(row[field])}}}'
            if key is not None:
                field = self._names.key
                text = f'"key":{self._text_of_key(key)},{text}'
            text = "{" + text if block is None else f'{{"block":{block},{text}'
        except _REJECTED as error:
            self._reject(field, error)
        else:
            self._hold([text])

    def _check(self, row: Dict[str, Any]) -> None:
        """Rejects a row whose value is absent or no text, or whose block is no whole number, or
        absent where it is needed."""
        block_name, _, value_name = self._names
        if type(row.get(value_name)) is not str:
            raise WrongRow("WrongField" if value_name in row else "NoField", value_name)
        block = row.get(block_name)
        if block is not None and type(block) is not int:
            raise WrongRow("WrongField", block_name)
        if block is None and self._needs_block:
            raise WrongRow("NoField", block_name)

    def _types_at(self, block: int) -> Types:
        if block < 0:
            raise WrongRow("WrongField", self._names.block)
        return self._versions.types_at(block)

    def _text_of_key(self, key: object) -> str:
        if not isinstance(key, str):
            raise WrongRow("WrongField", self._names.key)
        write = self._types.key
        return json.dumps(key) if write is None else write(key)
