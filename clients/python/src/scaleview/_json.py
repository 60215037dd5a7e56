"""Decoded values as what the module json writes for browsers."""

from __future__ import annotations

from typing import Any

from ._base import Bits, Empties
from ._native import Variant

# The greatest integer up to which JavaScript reads each one as it is.
_MOST = (1 << 53) - 1


def to_json_for_browsers(value: Any) -> Any:
    """Returns what `json.dumps` writes for `JSON.parse`, which reads it without loss.

        >>> value = {"who": (b"\\x01\\xff",), "free": 1 << 53, "phase": Variant("Done", [5])}
        >>> to_json_for_browsers(value)
        {'who': '0x01ff', 'free': '9007199254740992', 'phase': {'Done': [5]}}

    - An int is a number up to 2**53 - 1, either sign, and beyond it text of its decimal digits.
    - Bytes are text: 0x, and two lower-case hexadecimal digits for each.
    - A tuple of one is what it holds, so that newtypes don't show; other tuples and lists are
      arrays.
    - A dict is an object with the same keys in the same order.
    - A Variant is an object with its name as the one key. Its fields are an object or an array,
      also of one.
    - Bits are text: 0b, and a digit for each. Empties are {"count": N}. None, bool and str stay.

    Values don't say whether a tuple of one is a newtype or a tuple, or how wide an int is: the form
    can't be encoded again.

    Raises:
        TypeError: A part isn't what `decode` makes.
    """
    if value is None or isinstance(value, (bool, str)):
        return value
    if isinstance(value, int):
        return value if -_MOST <= value <= _MOST else str(value)
    if isinstance(value, dict):
        return {name: to_json_for_browsers(part) for name, part in value.items()}
    if isinstance(value, tuple) and len(value) == 1:
        return to_json_for_browsers(value[0])
    if isinstance(value, (list, tuple)):
        return [to_json_for_browsers(part) for part in value]
    return json_default(value)


def json_default(value: Any) -> Any:
    """Returns what `to_json_for_browsers` does of a Variant, bytes, Bits or Empties.

    It is an argument of `json.dumps(value, default=json_default)`, which asks it for these alone.
    The ints and tuples that don't stand in a Variant are written by `json` itself: ints as numbers
    of any size, and tuples as arrays. `json.dumps(to_json_for_browsers(value))` has one form
    throughout.

    Raises:
        TypeError: It is none of these.
    """
    if isinstance(value, Variant):
        fields = value.fields
        items = fields if isinstance(fields, dict) else list(fields)
        return {value.name: to_json_for_browsers(items)}
    if isinstance(value, bytes):
        return "0x" + value.hex()
    if isinstance(value, Bits):
        return str(value)
    if isinstance(value, Empties):
        return {"count": len(value)}
    raise TypeError(f"expected a decoded value, not {type(value).__name__}")
