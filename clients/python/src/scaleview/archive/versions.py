"""The metadata of each block, and the types that the rows of a block are decoded by."""

from __future__ import annotations

import bisect
import functools
import hashlib
from typing import Any, Callable, NamedTuple, Optional, Tuple

from .. import Metadata, Named, UnknownName, _kept
from .failures import Failure, Status
from .job import Job, Keys, Version

#: Returns the JSON text of a value, of its bytes or of their digits.
Write = Callable[[Any], str]

# No chain has as many blocks.
_MOST_BLOCKS = 1 << 64

# How many versions have their types at hand, so that blocks may be in any order.
_AT_HAND = 16


class Types(NamedTuple):
    """What the rows of a range of blocks are decoded by."""

    first: int
    last: int
    value: Write
    #: None if keys stay as they are given.
    key: Optional[Write]


def open_metadata(version: Version, has_bits: bool) -> Metadata:
    """Opens the metadata of a version, or returns the one that this process has of it.

    Raises:
        Failure: The file isn't what it was when the run began.
        OSError: It can't be read.
    """
    with open(version.path, "rb") as file:
        data = file.read()
    if hashlib.sha256(data).hexdigest() != version.sha256:
        raise Failure(Status.REJECTED, f"{version.path}: it has changed since the run began")
    return _kept.opened(Metadata, data, True, has_bits)


class Versions:
    """The types of each block."""

    def __init__(self, job: Job) -> None:
        self._job = job
        self._firsts = [version.first for version in job.versions]
        self._writes = functools.lru_cache(maxsize=_AT_HAND)(functools.partial(_writes, job))

    def types_at(self, block: int) -> Types:
        """Returns the types of a block and of those around it that have the same."""
        at = bisect.bisect_right(self._firsts, block)
        first, last = 0, max(block, _MOST_BLOCKS)
        if at > 0:
            version = self._job.versions[at - 1]
            end = max(block, _MOST_BLOCKS) if version.last is None else version.last
            if block <= end:
                return Types(version.first, end, *self._writes(version))
            first = end + 1
        if at < len(self._firsts):
            last = self._firsts[at] - 1
        return Types(first, last, *self._writes(self._job.metadata))


def _writes(job: Job, version: Version) -> Tuple[Write, Optional[Write]]:
    """Returns what writes the values and the keys of a version. Where the metadata lacks the name
    that raises UnknownName for each value."""
    metadata = open_metadata(version, job.has_bits)
    try:
        found = metadata.type_of(job.name)
    except UnknownName as error:
        return functools.partial(_reject, error.args), None
    is_opaque = job.is_opaque or job.name == "extrinsic"
    return _write_of(job, found, is_opaque), _write_of_key(job, metadata)


def _reject(args: Tuple[Any, ...], value: object) -> str:
    raise UnknownName(*args)


def _write_of_key(job: Job, metadata: Metadata) -> Optional[Write]:
    word, _, entry = job.name.partition(":")
    if job.keys is Keys.AS_GIVEN or word != "storage":
        return None
    try:
        return _write_of(job, metadata.type_of("key:" + entry), is_opaque=False)
    except UnknownName:
        return None


def _write_of(job: Job, found: Named, is_opaque: bool) -> Write:
    limits, decode = job.limits, found.registry.decode_json
    if limits == type(limits)() and not is_opaque:
        # A call without keywords is faster.
        return functools.partial(decode, found.id)
    memory: Any = ... if limits.memory is None else limits.memory
    return functools.partial(
        decode, found.id, depth=limits.depth, limit=limits.bytes, memory=memory, opaque=is_opaque
    )
