#!/usr/bin/env python3
"""Makes an archive of accounts, decodes it on two processes, and compares counts, sums and rejected
rows with the answer that was made with it.

    PYTHONPATH=clients/out/python python3 examples/archive/check.py [ROWS]
"""

from __future__ import annotations

import json
import pathlib
import subprocess
import sys
import tempfile
from typing import Any, Dict, List

import make

# The archive is cut into about so many parts.
PARTS = 20


def run(folder: pathlib.Path, rows: int) -> str:
    """Decodes the archive, and returns what the command prints."""
    part_bytes = sum((folder / name).stat().st_size for name in inputs()) // PARTS + 1
    command = [sys.executable, "-m", "scaleview.archive", "new.metadata", "storage:System.Account", *inputs()]
    options = ["--versions", "versions.txt", "--out", "out", "--workers", "2", "--part-bytes", str(part_bytes)]
    ended = subprocess.run([*command, *options], cwd=folder, stdout=subprocess.PIPE, universal_newlines=True)
    if ended.returncode:
        sys.exit(f"archive: the command ended with {ended.returncode}")
    return ended.stdout


def inputs() -> List[str]:
    return ["first.jsonl", "second.jsonl"]


def sums_of(folder: pathlib.Path) -> Dict[str, int]:
    """The sums of all rows of all parts. Blocks don't descend from one row to the next."""
    names = ["old rows", "new rows", "blocks", "owners", *make.Account._fields]
    sums, block = dict.fromkeys(names, 0), 0
    for path in sorted((folder / "out").glob("part-*.jsonl")):
        for line in path.read_text(encoding="ascii").splitlines():
            row = json.loads(line)
            assert row["block"] >= block, f"{path}: block {row['block']} comes after {block}"
            block = row["block"]
            value = row["value"]
            sums["new rows" if "sufficients" in value else "old rows"] += 1
            sums["blocks"] += block
            sums["owners"] += int(row["key"]["key0"][0][2:10], 16)
            flat = {**value, **value["data"], "flags": value["data"]["flags"][0]}
            for name in make.Account._fields:
                sums[name] += int(flat.get(name, 0))
    return sums


def errors_of(folder: pathlib.Path) -> List[List[Any]]:
    lines = (folder / "out" / "errors.jsonl").read_text(encoding="ascii").splitlines()
    names = ("file", "row", "field", "reason", "place")
    return [[row[name] for name in names] for row in map(json.loads, lines)]


def check(folder: pathlib.Path, rows: int) -> None:
    make.make(folder, rows)
    answer = json.loads((folder / "answer.json").read_text())
    print(run(folder, rows), end="")
    for what, found, expected in (
        ("sums", sums_of(folder), answer["sums"]),
        ("errors", errors_of(folder), answer["errors"]),
    ):
        if found != expected:
            sys.exit(f"archive: the {what} aren't those of answer.json")
    print(f"archive: {rows} rows, {len(answer['errors'])} of them spoilt, are as they should be")


if __name__ == "__main__":
    with tempfile.TemporaryDirectory() as made:
        check(pathlib.Path(made), int(sys.argv[1]) if len(sys.argv) == 2 else make.ROWS)
