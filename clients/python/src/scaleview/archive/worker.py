"""A worker process of a run. It ends with the process that started it.

    python -m scaleview.archive.worker ADDRESS FOLDER
"""
# mypy: allow-untyped-calls

from __future__ import annotations

import asyncio
import os
import sys
import threading

import dask.config
from distributed import Worker


def _end_with_parent() -> None:
    """Ends this process, whatever it does, when the other end of its standard input is closed."""
    while os.read(0, 1):
        pass
    os._exit(0)


# Dask's profile of a worker isn't looked at, and would take its time.
_SETTINGS = {"distributed.worker.profile.interval": "1h", "distributed.worker.profile.cycle": "1h"}


async def _work(address: str, folder: str) -> None:
    dask.config.set(_SETTINGS)
    async with Worker(address, nthreads=1, local_directory=folder, dashboard=False) as worker:
        await worker.finished()


if __name__ == "__main__":
    threading.Thread(target=_end_with_parent, daemon=True).start()
    asyncio.run(_work(*sys.argv[1:]))
