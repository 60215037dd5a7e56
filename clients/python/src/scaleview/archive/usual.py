"""Lines of JSON in the form that most programs write: their fields without a parser.

A line is `{"block": 1, "key": "0x00", "value": "0x00"}`, with one space after each colon and comma
or with none, and perhaps without the key. Whether the texts are digits is found when they are
decoded. Where they are, the line is JSON and means this.
"""

from __future__ import annotations

import re
from typing import Iterator, List, NamedTuple, Optional

from .job import Fields

# About so many characters are read together, so that one other line costs little.
_GROUP = 1 << 14

# What stands in JSON as it is.
_PLAIN = re.compile(r"[ !#-\[\]-~]*")
# Numbers with what stands around them.
_BLOCKS = {
    True: re.compile("(?:: (?:0|[1-9][0-9]{0,17}), )*"),
    False: re.compile("(?::(?:0|[1-9][0-9]{0,17}),)*"),
}


class Group(NamedTuple):
    """The fields of some lines. Blocks are numbers as JSON has them."""

    blocks: List[str]
    keys: Optional[List[str]]
    values: List[str]


def are_plain(fields: Fields) -> bool:
    """Returns whether JSON has the names of the fields as they are."""
    return all(_PLAIN.fullmatch(name) for name in fields)


def groups_of(text: str) -> Iterator[str]:
    """Iterates over lines, some at a time."""
    start, size = 0, len(text)
    while start <= size:
        end = text.rfind("\n", start, start + _GROUP) if size - start > _GROUP else size
        if end < 0:
            end = text.find("\n", start)
        if end < 0:
            end = size
        yield text[start:end]
        start = end + 1


def fields_of(text: str, fields: Fields) -> Optional[Group]:
    """Returns the fields of lines, or None if one of them has another form than the first."""
    words = text.split('"')
    has_key = len(words) > 3 and words[3] == fields.key
    period = 10 if has_key else 6
    count, rest = divmod(len(words), period)
    if rest != 1 or not count:
        return None
    is_spaced = words[2].startswith(": ")
    colon, comma = (": ", ", ") if is_spaced else (":", ",")
    shape = {1: fields.block, period - 3: fields.value, period - 2: colon}
    if has_key:
        shape.update({4: colon, 3: fields.key, 6: comma})
    is_usual = words[0] == "{" and words[-1] == "}"
    is_usual = is_usual and words[period:-1:period].count("}\n{") == count - 1
    if not is_usual or any(words[at::period].count(word) != count for at, word in shape.items()):
        return None
    blocks = words[2::period]
    if not _BLOCKS[is_spaced].fullmatch("".join(blocks)):
        return None
    start, end = len(colon), -len(comma)
    keys = words[5::period] if has_key else None
    return Group([block[start:end] for block in blocks], keys, words[period - 1 :: period])
