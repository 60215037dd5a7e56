"""What a run does: its inputs, the metadata of each block, its options, and its parts."""

from __future__ import annotations

import dataclasses
import enum
from typing import NamedTuple, Optional, Tuple

from .. import DEPTH, LIMIT

#: How many bytes of an input a part has, unless another number is given.
PART_BYTES = 1 << 26


class Form(enum.Enum):
    """How an input holds its rows."""

    JSON = "json"
    HEX = "hex"
    LENGTHS = "lengths"


class Packing(enum.Enum):
    """Whether an input is compressed."""

    PLAIN = "plain"
    GZIP = "gzip"


class Keys(enum.Enum):
    """What is done with the keys of rows."""

    DECODED = "decoded"
    AS_GIVEN = "as given"


class Fields(NamedTuple):
    """The names of a row's fields in the inputs."""

    block: str = "block"
    key: str = "key"
    value: str = "value"


@dataclasses.dataclass(frozen=True)
class Limits:
    """What a value may have and take, as `Registry.decode` names it."""

    depth: int = DEPTH
    bytes: int = LIMIT
    #: The bound of memory of a value, or None for the one that `decode` has.
    memory: Optional[int] = None

    @property
    def line(self) -> int:
        """The most bytes of a line: two digits for each byte of a value, and as much again."""
        return 4 * self.bytes + 4096


@dataclasses.dataclass(frozen=True)
class Input:
    """A file of rows, as it was when the run began."""

    #: As the command line has it, and as errors.jsonl does.
    file: str
    path: str
    size: int
    mtime_ns: int


@dataclasses.dataclass(frozen=True)
class Version:
    """A file of metadata, and the blocks whose rows it describes."""

    path: str
    sha256: str
    first: int = 0
    #: The last block, or None if there is none.
    last: Optional[int] = None


@dataclasses.dataclass(frozen=True)
class Job:
    """A run as a whole. Its tasks get it by pickling."""

    folder: str
    inputs: Tuple[Input, ...]
    #: The metadata of the blocks that no other version has, and of rows without a block.
    metadata: Version
    #: In order of their blocks, which differ.
    versions: Tuple[Version, ...]
    name: str
    form: Form = Form.JSON
    packing: Packing = Packing.PLAIN
    keys: Keys = Keys.DECODED
    fields: Fields = Fields()
    limits: Limits = Limits()
    has_bits: bool = False
    is_opaque: bool = False
    part_bytes: int = PART_BYTES


@dataclasses.dataclass(frozen=True)
class Part:
    """The rows of an input that begin in a range of its bytes, which the input alone decides.

    The bytes of a compressed file are those that it unpacks to.
    """

    #: The position of the input among the inputs.
    input: int
    #: The position of the part in the input.
    number: int
    #: Where the range begins, and the bytes that the worker reads.
    start: int
    end: int
    is_last: bool

    @property
    def name(self) -> str:
        return f"part-{self.input:05}-{self.number:06}"


@dataclasses.dataclass(frozen=True)
class Summary:
    """What a finished part has."""

    rows: int
    errors: int
    #: How many bytes of the input it took, as far as that is known.
    input_bytes: int
    output_bytes: int
    is_last: bool
