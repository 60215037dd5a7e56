"""Writes the registries and values that the counts are of, and a list of them: NAME ID FILE BYTES LABEL.

The first word names the folder, and the others the values' lengths where they are not those of `run`.
"""

import pathlib
import sys

folder = pathlib.Path(sys.argv[1])
sizes = [int(size) for size in sys.argv[2:]]


def compact(number):
    if number < 1 << 6:
        return bytes([number << 2])
    if number < 1 << 14:
        return (number << 2 | 1).to_bytes(2, "little")
    return (number << 2 | 2).to_bytes(4, "little")


def registry(*definitions):
    types = [
        compact(place) + b"\0\0" + definition + b"\0"
        for place, definition in enumerate(definitions)
    ]
    return compact(len(types)) + b"".join(types)


def primitive(code):
    return b"\5" + bytes([code])


def sequence(element):
    return b"\2" + compact(element)


def composite(*fields):
    return b"\0" + compact(len(fields)) + b"".join(b"\0" + compact(ty) + b"\0\0" for ty in fields)


STR, U8, U16, U32 = 2, 3, 4, 5

# each of these has elements of as many bytes
u32s = (registry(primitive(U32), sequence(0)), 1, lambda i: i.to_bytes(4, "little"))
small = (
    registry(primitive(U8), primitive(U16), primitive(U32), composite(0, 1, 2), sequence(3)),
    4,
    lambda i: bytes(7),
)
texts = (registry(primitive(STR), sequence(0)), 1, lambda i: compact(15) + b"fifteen letters")

rows = []


def write(name, types, ty, value, label):
    (folder / f"{name}.registry").write_bytes(types)
    file = f"{name}.{len(value)}.value"
    (folder / file).write_bytes(value)
    rows.append(f"{name} {ty} {file} {len(value)} {label}")


for size in sizes or (1 << 16, 1 << 22):
    for name, (types, ty, element), label in (
        ("u32s", u32s, "sequence of u32"),
        ("small", small, "sequence of composites of a u8, a u16 and a u32"),
        ("texts", texts, "sequence of texts of 15 bytes"),
    ):
        count = size // len(element(0))
        write(name, types, ty, compact(count) + b"".join(map(element, range(count))), label)
for size in sizes or (1 << 16, 1 << 20, 1 << 22):
    write("text", registry(primitive(STR)), 0, compact(size) + b"a" * size, "one text")
for size in sizes:
    write("bytes", registry(primitive(U8), sequence(0)), 1, compact(size) + b"a" * size, "one run of bytes")

(folder / "list").write_text("".join(f"{row}\n" for row in rows))
