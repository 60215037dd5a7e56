"""Bytes of inputs, and where rows begin and end in them. No row is decoded here."""

from __future__ import annotations

import dataclasses
import gzip
import mmap
import os
import zlib
from typing import BinaryIO, Callable, Iterator, List, Optional, Tuple, Union

#: How many bytes are read at a time.
PIECE = 1 << 20

#: Beyond the end of every file.
EVERYTHING = 1 << 62


@dataclasses.dataclass(frozen=True)
class Fault:
    """A row that can't be found in its input."""

    reason: str
    #: In bytes from the start of the row for TooLong, and else of the input.
    place: int
    #: Whether the rest of the input can't be read.
    is_final: bool


#: Lines without the last line end, or values, or a fault in place of a row.
Piece = Union[bytes, List[bytes], Fault]


class Source:
    """The bytes of an input from a place on. What is taken may be put back."""

    def __init__(self, read: Callable[[int], bytes], place: int) -> None:
        self._read = read
        self._kept = b""
        #: The place of the next byte, from the start of the input.
        self.place = place
        #: Why no more bytes can be read although there should be some.
        self.fault: Optional[str] = None

    def take(self, count: int) -> bytes:
        """Returns so many bytes. There are fewer at the end of the input, or before a fault."""
        pieces, missing = [self._kept], count - len(self._kept)
        while missing > 0 and self.fault is None:
            piece = self._next(missing)
            if not piece:
                break
            pieces.append(piece)
            missing -= len(piece)
        data = b"".join(pieces)
        self._kept = data[count:]
        data = data[:count] if self._kept else data
        self.place += len(data)
        return data

    def _next(self, count: int) -> bytes:
        try:
            return self._read(count)
        except EOFError:
            self.fault = "TruncatedGzip"
        except (gzip.BadGzipFile, zlib.error):
            self.fault = "BadGzip"
        return b""

    def put_back(self, data: bytes) -> None:
        """Puts back what was taken last."""
        self._kept = data + self._kept if self._kept else data
        self.place -= len(data)

    def skip(self, count: int) -> int:
        """Skips so many bytes, and returns how many there were."""
        left = count
        while left > 0:
            taken = len(self.take(min(left, PIECE)))
            if not taken:
                break
            left -= taken
        return count - left

    def skip_line(self, end: int = EVERYTHING) -> None:
        """Skips all to the end of a line, or to a place after `end`."""
        while self.place < end:
            data = self.take(PIECE)
            found = data.find(b"\n")
            if found >= 0:
                self.put_back(data[found + 1 :])
            if found >= 0 or not data:
                return

    @property
    def is_at_end(self) -> bool:
        """Whether there are no more bytes and no fault."""
        data = self.take(1)
        self.put_back(data)
        return not data and self.fault is None


def plain_source(file: BinaryIO, place: int) -> Source:
    """Returns the bytes of a file from a place on."""
    file.seek(place)
    return Source(file.read, place)


def gzip_source(file: BinaryIO) -> Source:
    """Returns the bytes that a compressed file unpacks to."""
    # `read` would lose the bytes before a fault.
    source = Source(gzip.GzipFile(fileobj=file, mode="rb").read1, 0)
    if not os.fstat(file.fileno()).st_size:
        source.fault = "TruncatedGzip"
    return source


def lines(source: Source, end: int, most: int) -> Iterator[Piece]:
    """Iterates over the lines that begin before `end`. The source stands where a line begins.

    A line of more than `most` bytes is a fault. The last line needs no line end.
    """
    size = min(PIECE, most + 1)
    while source.place < end:
        start = source.place
        data = source.take(size)
        cut = _end_of_lines(data, end - start)
        if cut > 0:
            source.put_back(data[cut:])
            yield data[: cut - 1]
            size = min(PIECE, most + 1)
        elif len(data) < size:
            if source.fault is not None:
                yield Fault(source.fault, source.place, is_final=True)
            elif data:
                yield data
            return
        elif size > most:
            source.skip_line()
            yield Fault("TooLong", most, is_final=False)
            size = min(PIECE, most + 1)
        else:
            source.put_back(data)
            size = min(2 * size, most + 1)


def _end_of_lines(data: bytes, span: int) -> int:
    """Returns where the complete lines end that begin in the first `span` bytes, or 0."""
    if len(data) > span:
        found = data.find(b"\n", span - 1)
        if found >= 0:
            return found + 1
    return data.rfind(b"\n", 0, span) + 1


class _WrongLength(Exception):
    """A length that isn't one."""


def _length_at(data: Union[bytes, mmap.mmap], at: int) -> Tuple[int, int]:
    """Returns a length, a compact integer of 32 bits, and where it ends.

    Raises:
        IndexError: It isn't complete.
        _WrongLength: It isn't in its shortest form, or too large.
    """
    first = data[at]
    mode = first & 3
    if mode == 0:
        return first >> 2, at + 1
    if mode == 3 and first != 3:
        raise _WrongLength("CompactTooLarge")
    end = at + (0, 2, 4, 5)[mode]
    data[end - 1]
    number = int.from_bytes(data[at + (mode == 3) : end], "little")
    length = number if mode == 3 else number >> 2
    if length < (0, 1 << 6, 1 << 14, 1 << 30)[mode]:
        raise _WrongLength("CompactNotShortest")
    return length, end


def values(source: Source, end: int, most: int) -> Iterator[Piece]:
    """Iterates over the values that begin before `end`, each with its length in front. The source
    stands where a length begins.

    A value of more than `most` bytes is a fault, and so is a length that isn't one: what follows
    that can't be read.
    """
    size = PIECE
    while source.place < end:
        start = source.place
        data = source.take(size)
        found, at, fault = _values_in(data, min(len(data), end - start), most)
        source.put_back(data[at:])
        if found:
            yield found
        if fault == "TooLong" and _skip_value(source, data, at):
            yield Fault("TooLong", most, is_final=False)
        elif fault is not None:
            yield Fault("Truncated" if fault == "TooLong" else fault, start + at, is_final=True)
            return
        elif len(data) < size and source.place < end:
            if source.fault is not None or at < len(data):
                yield Fault(source.fault or "Truncated", start + at, is_final=True)
            return
        size = PIECE if at else 2 * size


def _skip_value(source: Source, data: bytes, at: int) -> bool:
    """Skips the value before which a source stands, and returns whether it is complete."""
    length, body = _length_at(data, at)
    return source.skip(body - at + length) == body - at + length


def _values_in(data: bytes, span: int, most: int) -> Tuple[List[bytes], int, Optional[str]]:
    """Returns the complete values that begin in the first `span` bytes, where they end, and why the
    next one is rejected."""
    found: List[bytes] = []
    at, size = 0, len(data)
    try:
        while at < span:
            first = data[at]
            length, body = (first >> 2, at + 1) if not first & 3 else _length_at(data, at)
            if length > most:
                return found, at, "TooLong"
            end = body + length
            if end > size:
                break
            found.append(data[body:end])
            at = end
    except IndexError:
        pass
    except _WrongLength as wrong:
        return found, at, str(wrong)
    return found, at, None


def part_starts(path: str, part_bytes: int) -> Iterator[int]:
    """Iterates over the places where the parts of a file of values begin: for each range of so many
    bytes the first value in it. A range without one has the place of the next. No range begins
    after a length that isn't one."""
    size = os.stat(path).st_size
    yield 0
    if size == 0:
        return
    with open(path, "rb") as file, mmap.mmap(file.fileno(), 0, access=mmap.ACCESS_READ) as data:
        at, border = 0, part_bytes
        try:
            while at < size:
                if at >= border:
                    yield at
                    border = (at // part_bytes + 1) * part_bytes
                first = data[at]
                length, body = (first >> 2, at + 1) if not first & 3 else _length_at(data, at)
                at = body + length
        except (IndexError, _WrongLength):
            return
