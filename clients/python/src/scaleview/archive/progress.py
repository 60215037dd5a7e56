"""What a run prints of its progress, and at its end."""

from __future__ import annotations

import time
from typing import Optional, TextIO

from .job import Summary

_CELLS = 30
_SECONDS_BETWEEN = 0.2


class Progress:
    """A bar on a stream, with rows a second and the time that is left. Without one nothing is
    printed."""

    def __init__(self, stream: Optional[TextIO], total_bytes: int) -> None:
        self._stream = stream
        self._total = max(total_bytes, 1)
        self._began = self._printed = time.monotonic()
        self._rows = self._errors = 0
        #: What is done, and how much of it was done before this run.
        self._bytes = self._bytes_before = 0

    def add_known(self, summary: Summary) -> None:
        """Adds a part that an earlier run has finished."""
        self._bytes += summary.input_bytes
        self._bytes_before += summary.input_bytes

    def add(self, summary: Summary) -> None:
        """Adds a part that is finished now."""
        self._bytes += summary.input_bytes
        self._rows += summary.rows
        self._errors += summary.errors

    def refresh(self) -> None:
        """Shows the bar as it is now, unless it was shown a moment ago."""
        now = time.monotonic()
        if self._stream is not None and now - self._printed >= _SECONDS_BETWEEN:
            self._printed = now
            self._print(self.text(now - self._began))

    def text(self, seconds: float) -> str:
        """Returns the bar as it is so many seconds after the start."""
        done = min(self._bytes / self._total, 1.0)
        cells = int(done * _CELLS)
        bar = "#" * cells + "." * (_CELLS - cells)
        fresh = self._bytes - self._bytes_before
        left = (self._total - self._bytes) * seconds / fresh if fresh > 0 else 0.0
        rate = self._rows / seconds if seconds > 0 else 0.0
        errors = f"{self._errors:,} errors"
        return f"[{bar}] {done:4.0%}  {rate:,.0f} rows/s  {errors}  {clock(left)} left"

    def end(self) -> None:
        """Removes the bar."""
        self._print("")

    def _print(self, text: str) -> None:
        if self._stream is not None:
            self._stream.write(f"\r\x1b[K{text}")
            self._stream.flush()


def clock(seconds: float) -> str:
    """Returns a time as hours, minutes and seconds."""
    minutes, whole = divmod(max(int(seconds), 0), 60)
    hours, minutes = divmod(minutes, 60)
    return f"{hours}:{minutes:02}:{whole:02}" if hours else f"{minutes}:{whole:02}"
