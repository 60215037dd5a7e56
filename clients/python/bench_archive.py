"""Measures an archive: rows a second of a loop over `decode_many` in one process, and of a run with
1, 2 and 4 workers; and the resident memory of workers as a run goes on.

    PYTHONPATH=clients/out/python /usr/bin/python3 clients/python/bench_archive.py [ROWS] [WORKERS..]

ROWS is 4,000,000 if it isn't given, and 10,000,000 shows that memory is flat. The rows are accounts
in lines of JSON, with a block and without keys, in a folder that is removed at the end. It needs
about 500 bytes for each row in TMPDIR.

Three loops are measured. The first one has the bytes of values at hand and drops the values. The
second one reads the rows of the file that the command reads, by `json.loads`, and drops the values:
the command is compared with it. The third one also writes what `json.dumps` makes of the values, as
the command does. The command's times are those of all the command, and without the start of the
cluster, which is the time of a run over one row. Each rate is the best of two.
"""

from __future__ import annotations

import json
import os
import pathlib
import random
import shutil
import subprocess
import sys
import tempfile
import threading
import time
from typing import Callable, Dict, Iterator, List, Tuple

from scaleview import Metadata, to_json_for_browsers

CHAIN = pathlib.Path(__file__).resolve().parents[2] / "examples" / "chain" / "chain.metadata"
NAME, BATCH, DIFFERENT = "storage:System.Account", 10_000, 1000
ROWS, WORKERS = 4_000_000, [1, 2, 4]
# Smaller than usual, so that so few rows have many times as many parts as there are workers.
PART_BYTES = 1 << 24


def accounts() -> List[bytes]:
    """Bytes of accounts, whose balances have different lengths."""
    chance, found = random.Random(1), []
    for _ in range(DIFFERENT):
        counters = (chance.getrandbits(20), chance.getrandbits(3), 1, 0)
        balances = (chance.getrandbits(chance.randrange(80)), 0, 0, 1 << 127)
        found.append(b"".join(it.to_bytes(4, "little") for it in counters) + b"".join(it.to_bytes(16, "little") for it in balances))
    return found


def make(path: pathlib.Path, rows: int) -> None:
    values = [it.hex() for it in accounts()]
    with open(path, "w", encoding="ascii") as file:
        for block in range(rows):
            file.write(f'{{"block": {block}, "value": "0x{values[block % DIFFERENT]}"}}\n')


def loop_in_memory(rows: int) -> float:
    """The rows a second of `decode_many` over bytes that are at hand."""
    metadata, items = Metadata(CHAIN.read_bytes()), accounts() * (BATCH // DIFFERENT)
    type_id = int(metadata.type_of(NAME))
    began = time.perf_counter()
    for _ in range(rows // BATCH):
        metadata.decode_many(type_id, items)
    return rows / (time.perf_counter() - began)


def batches(path: pathlib.Path) -> Iterator[List[str]]:
    with open(path, encoding="ascii") as file:
        while lines := file.readlines(200 * BATCH):
            yield lines


def loop_over_file(path: pathlib.Path) -> float:
    """The rows a second of `decode_many` over the rows of a file."""
    metadata, count = Metadata(CHAIN.read_bytes()), 0
    type_id = int(metadata.type_of(NAME))
    began = time.perf_counter()
    for lines in batches(path):
        count += len(metadata.decode_many(type_id, [json.loads(line)["value"] for line in lines]))
    return count / (time.perf_counter() - began)


def loop_with_texts(path: pathlib.Path, out: pathlib.Path) -> float:
    """The rows a second of a loop that does what the command does."""
    metadata, count = Metadata(CHAIN.read_bytes()), 0
    type_id = int(metadata.type_of(NAME))
    began = time.perf_counter()
    with open(out, "w", encoding="ascii") as file:
        for lines in batches(path):
            rows = [json.loads(line) for line in lines]
            values = metadata.decode_many(type_id, [row["value"] for row in rows])
            for row, value in zip(rows, values):
                row["value"] = to_json_for_browsers(value)
                file.write(json.dumps(row) + "\n")
            count += len(rows)
    return count / (time.perf_counter() - began)


def resident(pid: int) -> Dict[int, int]:
    """The resident bytes of the worker processes of a run, by their ids."""
    found = {}
    children = pathlib.Path(f"/proc/{pid}/task/{pid}/children")
    threads = list(pathlib.Path(f"/proc/{pid}/task").glob("*/children")) if children.exists() else []
    for child in {int(word) for path in threads for word in path.read_text().split()}:
        try:
            if b"scaleview.archive.worker" in pathlib.Path(f"/proc/{child}/cmdline").read_bytes():
                pages = int(pathlib.Path(f"/proc/{child}/statm").read_text().split()[1])
                found[child] = pages * os.sysconf("SC_PAGE_SIZE")
        except (FileNotFoundError, ProcessLookupError, IndexError):
            pass
    return found


def command(path: pathlib.Path, out: pathlib.Path, workers: int) -> Tuple[float, List[int]]:
    """The seconds of a run, and the greatest resident memory of a worker each second."""
    words = [str(CHAIN), NAME, str(path), "--out", str(out), "--workers", str(workers)]
    words += ["--part-bytes", str(PART_BYTES)]
    began, held = time.perf_counter(), []
    process = subprocess.Popen([sys.executable, "-m", "scaleview.archive", *words], stdout=subprocess.DEVNULL)
    while process.poll() is None:
        held.append(max(resident(process.pid).values(), default=0))
        time.sleep(0.25)
    if process.returncode:
        sys.exit(f"the command ended with {process.returncode}")
    shutil.rmtree(out)
    return time.perf_counter() - began, held


def show_loops(folder: pathlib.Path, rows: int) -> float:
    """Measures the loops over some rows, and returns the rate of the second one."""
    path, out = folder / "few.jsonl", folder / "loop.jsonl"
    few = min(rows, 300_000)
    make(path, few)
    found = 0.0
    calls: List[Tuple[str, Callable[[], float]]] = [
        ("a loop over decode_many, in memory", lambda: loop_in_memory(few)),
        ("the same over the rows of a file", lambda: loop_over_file(path)),
        ("the same with texts that are written", lambda: loop_with_texts(path, out)),
    ]
    for what, loop in calls:
        rate = max(loop() for _ in range(2))
        found = rate if "of a file" in what else found
        print(f"{what:40}{rate:12,.0f} rows/s", flush=True)
    return found


def show_workers(folder: pathlib.Path, rows: int, counts: List[int], of_loop: float) -> None:
    """Measures the command with each number of workers."""
    path, one, first = folder / "rows.jsonl", folder / "one.jsonl", 0.0
    make(one, 1)
    for workers in counts:
        start = min(command(one, folder / "out", workers)[0] for _ in range(2))
        seconds, held = min((command(path, folder / "out", workers) for _ in range(2)), key=lambda it: it[0])
        rate = rows / (seconds - start)
        first = first or rate / workers
        print(f"{workers} workers, {seconds:.1f} s, {start:.1f} s of them to start: {rows / seconds:,.0f} rows/s, {rate:,.0f} without the start")
        print(f"  {rate / of_loop:.2f} of the loop over a file, {rate / first / workers:.2f} of as many times one worker's")
        show_memory(held)


def main() -> None:
    rows = int(sys.argv[1]) if len(sys.argv) > 1 else ROWS
    counts = [int(word) for word in sys.argv[2:]] or WORKERS
    with tempfile.TemporaryDirectory() as made:
        folder = pathlib.Path(made)
        make(folder / "rows.jsonl", rows)
        size = (folder / "rows.jsonl").stat().st_size
        print(f"{rows} rows, {size} bytes, load {os.getloadavg()[0]:.1f}, {os.cpu_count()} processors", flush=True)
        show_workers(folder, rows, counts, show_loops(folder, rows))
        print(f"load {os.getloadavg()[0]:.1f}")


def show_memory(held: List[int]) -> None:
    """The greatest resident memory of a worker in each tenth of a run."""
    size = max(len(held) // 10, 1)
    tenths = [max(held[at : at + size]) >> 20 for at in range(0, len(held), size)][:10]
    print(f"  MiB of a worker in each tenth of the time: {' '.join(map(str, tenths))}", flush=True)


if __name__ == "__main__":
    main()
