"""The worker processes of a run, each of which is started again when it is killed."""

from __future__ import annotations

import subprocess
import sys
import threading
from types import TracebackType
from typing import List, Optional, Type

_SECONDS_BETWEEN = 0.1


class Processes:
    """Workers of a scheduler on this machine.

    A nanny of Dask's would start them again as well, but not one that is killed while it starts.
    """

    def __init__(self, address: str, folder: str, count: int) -> None:
        self._words = [sys.executable, "-m", f"{__package__}.worker", address, folder]
        self._closing = threading.Event()
        self._running: List[subprocess.Popen[bytes]] = []
        self._watcher = threading.Thread(target=self._watch, daemon=True)
        self.count = count
        #: How many were started again.
        self.deaths = 0

    def __enter__(self) -> Processes:
        self._running = [self._start() for _ in range(self.count)]
        self._watcher.start()
        return self

    def __exit__(
        self,
        kind: Optional[Type[BaseException]],
        error: Optional[BaseException],
        trace: Optional[TracebackType],
    ) -> None:
        """Ends all at once. A part that one of them writes isn't finished then."""
        self._closing.set()
        self._watcher.join()
        for process in self._running:
            process.kill()
            self._leave(process)

    def _start(self) -> subprocess.Popen[bytes]:
        """Starts a worker, which Ctrl-C in a terminal doesn't reach."""
        return subprocess.Popen(
            self._words,
            stdin=subprocess.PIPE,
            stdout=subprocess.DEVNULL,
            stderr=subprocess.DEVNULL,
            start_new_session=True,
        )

    def _watch(self) -> None:
        while not self._closing.wait(_SECONDS_BETWEEN):
            for at, process in enumerate(self._running):
                if process.poll() is not None:
                    self._leave(process)
                    self.deaths += 1
                    self._running[at] = self._start()

    @staticmethod
    def _leave(process: subprocess.Popen[bytes]) -> None:
        process.wait()
        if process.stdin is not None:
            process.stdin.close()
