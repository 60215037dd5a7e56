"""Builds registries for the tests."""

from __future__ import annotations

from typing import Optional, Tuple

PRIMITIVES = "bool char str u8 u16 u32 u64 u128 u256 i8 i16 i32 i64 i128 i256".split()
Field = Tuple[Optional[str], int]


def compact(number: int) -> bytes:
    if number < 1 << 6:
        return bytes([number << 2])
    if number < 1 << 14:
        return (number << 2 | 1).to_bytes(2, "little")
    return (number << 2 | 2).to_bytes(4, "little")


def text(word: str) -> bytes:
    return compact(len(word.encode())) + word.encode()


def fields_of(fields: tuple[Field, ...]) -> bytes:
    parts = [(b"\0" if name is None else b"\1" + text(name)) + compact(type_id) + b"\0\0" for name, type_id in fields]
    return compact(len(parts)) + b"".join(parts)


def composite(*fields: Field) -> bytes:
    return b"\0" + fields_of(fields)


def variant(*arms: tuple[str, int, tuple[Field, ...]]) -> bytes:
    parts = [text(name) + fields_of(fields) + bytes([index]) + b"\0" for name, index, fields in arms]
    return b"\1" + compact(len(parts)) + b"".join(parts)


def sequence(element: int) -> bytes:
    return b"\2" + compact(element)


def array(length: int, element: int) -> bytes:
    return b"\3" + length.to_bytes(4, "little") + compact(element)


def members(*types: int) -> bytes:
    return b"\4" + compact(len(types)) + b"".join(map(compact, types))


def primitive(name: str) -> bytes:
    return b"\5" + bytes([PRIMITIVES.index(name)])


def compact_of(target: int) -> bytes:
    return b"\6" + compact(target)


def bits(store: int, order: int) -> bytes:
    return b"\7" + compact(store) + compact(order)


def registry_of(*definitions: bytes, **paths: str) -> bytes:
    """A registry of these types. A path is named by the position of its type, as `_0="a::B"`."""
    made = compact(len(definitions))
    for type_id, definition in enumerate(definitions):
        segments = paths[f"_{type_id}"].split("::") if f"_{type_id}" in paths else []
        path = compact(len(segments)) + b"".join(map(text, segments))
        made += compact(type_id) + path + b"\0" + definition + b"\0"
    return made
