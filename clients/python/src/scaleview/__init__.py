"""Decodes SCALE, the binary codec of Polkadot and Substrate chains, into Python values, and encodes them.

    >>> registry = Registry(bytes.fromhex("04000000050300"))
    >>> registry.decode(0, b"\\x2a")
    42
    >>> registry.encode(0, 42)
    b'*'

A registry describes the types of a chain. `Registry` opens one, or the metadata that begins with
it. `Metadata` opens all of a chain's metadata, and decodes values by what they are: extrinsics,
events, or those of a storage entry. The values of the types are:

- bool, str and int; 256-bit and compact integers are ints, and a char is a str of one character;
- bytes for sequences and arrays of u8, and a list for others;
- a dict in field order for a composite whose fields all have names, which differ, and a tuple for other
  composites and for tuples;
- `Variant` for a variant;
- None for types of no bytes, and `Empties` for a sequence of them;
- `Bits` for a bit sequence, of a registry that was opened with `bits=True`.

Any thread may use a registry and its decoders. Long inputs are decoded without the lock of the interpreter.

The decoder behind this package is proved; the package is not.
"""

from __future__ import annotations

try:
    from . import _native
except ImportError as error:
    if getattr(error, "name", None) not in ("scaleview", "scaleview._native"):
        raise
    raise ImportError(
        f"scaleview can't be loaded: install it by `pip install ./clients/python` ({error})"
    ) from error
from ._base import Bits, Empties, EncodeError, OutOfMemory, Refused, UnknownName
from ._json import json_default, to_json_for_browsers
from ._metadata import Metadata, Method, Named, StorageEntry
from ._native import DEPTH, LIMIT, Decoder, Variant
from ._registry import Arm, Field, Param, Registry, Type

__version__ = "0.1.0"
__all__ = [
    "Metadata",
    "Registry",
    "Decoder",
    "Variant",
    "Empties",
    "Bits",
    "Type",
    "Named",
    "StorageEntry",
    "Method",
    "Field",
    "Arm",
    "Param",
    "Refused",
    "UnknownName",
    "EncodeError",
    "OutOfMemory",
    "to_json_for_browsers",
    "json_default",
    "DEPTH",
    "LIMIT",
]
