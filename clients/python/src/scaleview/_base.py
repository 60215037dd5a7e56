"""The exceptions and classes that the extension module makes. It imports this module."""

from __future__ import annotations

import json
import operator
from typing import Any, Iterable, Iterator, Optional, Sequence, SupportsIndex, Union, overload


class Refused(ValueError):
    """Bytes, a type, a value or a limit that the library rejects.

    Attributes:
        code: The library's number, or 0 for OddHex and BadHex.
        reason: The library's name of it, such as "Truncated". Text of hexadecimal digits may be
            OddHex, if a digit is missing, and BadHex.
        part: What is rejected: "registry", "check" for a reference between its types, "type", "limits" or "value".
        place: The place in bytes from the start, or in characters for OddHex and BadHex, or None
            if it has none.
        from_type: The position of the type that refers to one that doesn't exist, or None.
        to_type: The position of a type that doesn't exist, or None.
        item: The position of the rejected item of `decode_many`, or None.
        name: The name that metadata doesn't have, or has no bytes for, or None.
        path: Where in a value its bytes are rejected, such as "value.fields[3].name", with variants
            and fields by their names. It is None if the bytes of no value are rejected or they
            came in pieces, for TrailingBytes, and if there is no memory for it.
    """

    def __init__(
        self,
        code: int,
        reason: str,
        part: str,
        place: Optional[int] = None,
        from_type: Optional[int] = None,
        to_type: Optional[int] = None,
        item: Optional[int] = None,
        name: Optional[str] = None,
        path: Optional[str] = None,
    ) -> None:
        self.code = code
        self.reason = reason
        self.part = part
        self.place = place
        self.from_type = from_type
        self.to_type = to_type
        self.item = item
        self.name = name
        self.path = path
        super().__init__(code, reason, part, place, from_type, to_type, item, name, path)

    def __str__(self) -> str:
        text = f"{self.part}: {self.reason}"
        if self.name is not None:
            text += " " + json.dumps(self.name, ensure_ascii=False)
        if self.to_type is not None:
            text += f" to type {self.to_type}" if self.part == "registry" else f" {self.to_type}"
        if self.from_type is not None:
            text += f" in type {self.from_type}"
        if self.place is not None:
            text += f" at {self.place}"
        return text if self.item is None else f"{text} in item {self.item}"


class UnknownName(Refused, KeyError):
    """A name that metadata doesn't have, in `name`. It is a KeyError as well."""


class EncodeError(Refused):
    """A part of a value that the library doesn't encode, such as one that is too deep.

    Attributes:
        path: Where it is, such as "value.fields[3].name".
        node: The position of its node among those of the value.
    """

    path: str

    def __init__(self, code: int, reason: str, path: str, node: int) -> None:
        super().__init__(code, reason, "value")
        self.path = path
        self.node = node
        self.args = (code, reason, path, node)

    def __str__(self) -> str:
        return f"{self.path}: {self.reason}"


class OutOfMemory(MemoryError):
    """An allocation of the library failed, or would have exceeded the bound `memory`, which the text then names."""


class Empties(Sequence[None]):
    """A sequence of elements that take no bytes: `count` times None, without the memory of a list.

    A value of five bytes may have 2**32 - 1 such elements, so `decode` makes no list of them.
    """

    __slots__ = ("_count",)

    _count: int

    def __init__(self, count: int) -> None:
        number = operator.index(count)
        if not 0 <= number < 1 << 32:
            raise OverflowError("count is out of range: it has to be in 0 to 2**32 - 1")
        object.__setattr__(self, "_count", number)

    def __setattr__(self, name: str, value: object) -> None:
        raise AttributeError(f"{name} can't be set")

    def __len__(self) -> int:
        return self._count

    def __getitem__(self, index: Any) -> Any:
        found = range(self._count)[index]
        return Empties(len(found)) if isinstance(found, range) else None

    def __eq__(self, other: object) -> bool:
        """Returns whether they are as many, or a list of so many None."""
        if isinstance(other, list):
            return len(other) == self._count == other.count(None)
        return self._count == other._count if isinstance(other, Empties) else NotImplemented

    def __contains__(self, value: object) -> bool:
        return self.count(value) > 0

    def count(self, value: object) -> int:
        """Returns how many elements equal the value, without looking at each."""
        return [None].count(value) * self._count  # type: ignore[arg-type]

    def __hash__(self) -> int:
        return hash((Empties, self._count))

    def __repr__(self) -> str:
        return f"Empties({self._count})"

    def __reduce__(self) -> Any:
        return Empties, (self._count,)


class Bits(Sequence[bool]):
    """A bit sequence: an immutable sequence of bool, which equals a list or a tuple of the same ones.

        >>> bits = Bits([True, False, True])
        >>> bits, len(bits), bits[0], bits[1:]
        (0b101, 3, True, 0b01)
        >>> bits == [True, False, True]
        True

    Raises:
        TypeError: An element isn't a bool.
    """

    __slots__ = ("_bits",)

    # A byte for each bit, 0 or 1.
    _bits: bytes

    def __init__(self, bits: Iterable[bool] = ()) -> None:
        elements = tuple(bits)
        for at, bit in enumerate(elements):
            if not isinstance(bit, bool):
                raise TypeError(f"expected a bool at {at}, not {type(bit).__name__}")
        object.__setattr__(self, "_bits", bytes(elements))

    @classmethod
    def _of(cls, bits: bytes) -> Bits:
        made = cls.__new__(cls)
        object.__setattr__(made, "_bits", bits)
        return made

    def __setattr__(self, name: str, value: object) -> None:
        raise AttributeError(f"{name} can't be set")

    def __len__(self) -> int:
        return len(self._bits)

    @overload
    def __getitem__(self, index: SupportsIndex) -> bool: ...

    @overload
    def __getitem__(self, index: slice) -> Bits: ...

    def __getitem__(self, index: Union[SupportsIndex, slice]) -> Union[bool, Bits]:
        found = self._bits[index]
        return Bits._of(found) if isinstance(found, bytes) else found == 1

    def __iter__(self) -> Iterator[bool]:
        return map(bool, self._bits)

    def __reversed__(self) -> Iterator[bool]:
        return map(bool, reversed(self._bits))

    def __eq__(self, other: object) -> bool:
        """Returns whether they are the same bits, or a list or a tuple of them."""
        if isinstance(other, Bits):
            return self._bits == other._bits
        if isinstance(other, list):
            return len(other) == len(self) and other == list(self)
        if isinstance(other, tuple):
            return len(other) == len(self) and other == tuple(self)
        return NotImplemented

    def __contains__(self, value: object) -> bool:
        return self.count(value) > 0

    def count(self, value: object) -> int:
        """Returns how many bits equal the value."""
        ones = self._bits.count(1)
        zeros = len(self._bits) - ones
        return [True].count(value) * ones + [False].count(value) * zeros  # type: ignore[arg-type]

    def __hash__(self) -> int:
        # A tuple that is equal has the same.
        return hash(tuple(self))

    def __repr__(self) -> str:
        return "0b" + self._bits.translate(_DIGITS).decode()

    def __reduce__(self) -> Any:
        return Bits._of, (self._bits,)


_DIGITS = bytes.maketrans(b"\0\1", b"01")
