"""Decodes a value as the command does, whole or in pieces, or lists the types of a registry.

python3 decode.py types FILE [--metadata]
python3 decode.py decode FILE ID VALUEFILE [--metadata] [--bits] [--hex] [--depth D] [--pieces N]
"""

import argparse
import pathlib
import re
import sys
from typing import NoReturn

from scaleview import DEPTH, Decoder, Refused, Registry


def parse() -> argparse.Namespace:
    parser = argparse.ArgumentParser(prog="decode.py")
    commands = parser.add_subparsers(dest="command", required=True)
    types = commands.add_parser("types")
    decode = commands.add_parser("decode")
    for command in (types, decode):
        command.add_argument("file", type=pathlib.Path)
        command.add_argument("--metadata", action="store_true")
    decode.add_argument("id", type=int)
    decode.add_argument("value", type=pathlib.Path)
    decode.add_argument("--bits", action="store_true")
    decode.add_argument("--hex", action="store_true")
    decode.add_argument("--depth", type=int, default=DEPTH)
    decode.add_argument("--pieces", type=int)
    return parser.parse_args()


def fail(line: object, status: int) -> NoReturn:
    print(f"scaleview: {line}", file=sys.stderr)
    sys.exit(status)


def read(path: pathlib.Path) -> bytes:
    try:
        return path.read_bytes()
    except OSError as error:
        fail(f"{path}: {error.strerror}", 3)


def bytes_of_hex(text: bytes) -> bytes:
    """Returns the bytes of hexadecimal text, where 0x in front and a line end are optional."""
    start = 2 if text.startswith(b"0x") else 0
    digits = re.sub(rb"\r?\n\Z", b"", text[start:])
    if len(digits) % 2:
        fail(f"value: OddHex at {start + len(digits)}", 1)
    wrong = re.search(rb"[^0-9A-Fa-f]", digits)
    if wrong:
        fail(f"value: BadHex at {start + wrong.start()}", 1)
    return bytes.fromhex(digits.decode())


def decode_in_pieces(registry: Registry, type_id: int, value: bytes, depth: int, step: int) -> str:
    decoder = Decoder(registry, type_id, depth=depth)
    for at in range(0, len(value), step):
        used = decoder.feed(value[at : at + step])
        if used is not None:
            if at + used < len(value):
                fail(f"value: TrailingBytes at {at + used}", 1)
            break
    return decoder.finish_json()


def run(words: argparse.Namespace) -> None:
    data = read(words.file)
    value = b"" if words.command == "types" else read(words.value)
    bits = words.command == "decode" and words.bits
    registry = Registry(data, metadata=words.metadata, bits=bits)
    if words.command == "types":
        print("".join(f"{found}\n" for found in registry.types), end="")
        return
    if words.hex:
        value = bytes_of_hex(value)
    if words.pieces:
        print(decode_in_pieces(registry, words.id, value, words.depth, words.pieces))
    else:
        print(registry.decode_json(words.id, value, depth=words.depth))


def main() -> None:
    try:
        run(parse())
    except Refused as refused:
        fail(refused, 1)
    except OverflowError as error:
        fail(error, 2)
    except MemoryError as error:
        fail(str(error) or "an allocation failed", 4)


if __name__ == "__main__":
    main()
