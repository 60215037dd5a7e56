"""What ends a run: one line, and the status that the command ends with."""

from __future__ import annotations

import contextlib
import enum
import errno
from typing import Any, Iterator, Tuple


class Status(enum.IntEnum):
    """The exit statuses of the command."""

    DONE = 0
    REJECTED = 1
    USAGE = 2
    DEVICE = 3
    MEMORY = 4
    INTERRUPTED = 130


class Failure(Exception):
    """Ends a run. It is raised by workers as well, and can be pickled."""

    def __init__(self, status: Status, line: str) -> None:
        super().__init__(status, line)
        self.status = status
        self.line = line

    def __str__(self) -> str:
        return self.line

    def __reduce__(self) -> Tuple[Any, ...]:
        return Failure, (self.status, self.line)


# A file that is absent or of another kind is a wrong input. Everything else is the system's.
_WRONG_FILE = (errno.ENOENT, errno.ENOTDIR, errno.EISDIR, errno.ELOOP, errno.ENAMETOOLONG)


def failure_of(error: OSError) -> Failure:
    """Returns what an error of the system ends a run with."""
    status = Status.REJECTED if error.errno in _WRONG_FILE else Status.DEVICE
    what = error.strerror or str(error)
    return Failure(status, what if error.filename is None else f"{error.filename}: {what}")


@contextlib.contextmanager
def as_failures() -> Iterator[None]:
    """Turns errors of the system and failed allocations into failures."""
    try:
        yield
    except OSError as error:
        raise failure_of(error) from None
    except MemoryError as error:
        raise Failure(Status.MEMORY, str(error) or "an allocation failed") from None
