"""The folder of a run: its parts, what is known of each, and what the run was begun with.

    part-00000-000000.jsonl   the rows of a part
    errors.jsonl              the rejected rows of all parts, once all are finished
    state/manifest.json       the inputs and options, by which a run that goes on is compared
    state/parts/              the summary and the rejected rows of each finished part
    state/unfinished/         files that a worker writes
    state/lock                what a run locks

A part is finished once its summary is renamed into place, after its other files.
"""

from __future__ import annotations

import contextlib
import dataclasses
import errno
import fcntl
import itertools
import json
import os
import pathlib
import shutil
import uuid
from typing import Any, BinaryIO, Dict, Iterator, List, Optional, Tuple

from .failures import Failure, Status
from .job import Job, Part, Summary
from .rows import Rejection


def write_whole(path: pathlib.Path, unfinished: pathlib.Path, pieces: Iterator[bytes]) -> None:
    """Writes a file that is there completely or not at all."""
    made = unfinished / f"{path.name}.{uuid.uuid4().hex}"
    with open(made, "wb") as file:
        for piece in pieces:
            file.write(piece)
        sync(file)
    os.replace(made, path)


def sync(file: BinaryIO) -> None:
    """Waits until the system has stored what was written."""
    file.flush()
    os.fsync(file.fileno())


def _sync_folder(path: pathlib.Path) -> None:
    handle = os.open(path, os.O_RDONLY)
    try:
        os.fsync(handle)
    except OSError:
        # Some file systems don't know it for folders.
        pass
    finally:
        os.close(handle)


class PartWriter:
    """The files of a part that isn't finished."""

    def __init__(self, folder: Folder, part: Part) -> None:
        mark = uuid.uuid4().hex
        self._folder, self._part = folder, part
        self._rows_path = folder.unfinished / f"{part.name}.{mark}.jsonl"
        self._errors_path = folder.unfinished / f"{part.name}.{mark}.errors"
        self._rows = open(self._rows_path, "wb")
        self._errors = open(self._errors_path, "wb")
        self._error_count = 0

    def write(self, texts: List[str], rejections: List[Rejection]) -> None:
        """Writes the texts of rows, and why others were rejected."""
        if texts:
            self._rows.write(("\n".join(texts) + "\n").encode())
        if rejections:
            lines = (json.dumps(rejection) + "\n" for rejection in rejections)
            self._errors.write("".join(lines).encode())
            self._error_count += len(rejections)

    def finish(self, rows: int, input_bytes: int, is_last: bool) -> Summary:
        """Renames the files into place, the summary last."""
        output_bytes = self._rows.tell()
        summary = Summary(rows, self._error_count, input_bytes, output_bytes, is_last)
        sync(self._rows)
        sync(self._errors)
        self.close()
        os.replace(self._rows_path, self._folder.rows_path(self._part))
        os.replace(self._errors_path, self._folder.errors_path(self._part))
        text = json.dumps(dataclasses.asdict(summary)) + "\n"
        path = self._folder.summary_path(self._part)
        write_whole(path, self._folder.unfinished, iter([text.encode()]))
        return summary

    def close(self) -> None:
        self._rows.close()
        self._errors.close()


class Folder:
    """The folder of a run."""

    def __init__(self, path: str) -> None:
        self.path = pathlib.Path(path)
        self.state = self.path / "state"
        self.parts = self.state / "parts"
        self.unfinished = self.state / "unfinished"
        self.manifest = self.state / "manifest.json"
        self.errors = self.path / "errors.jsonl"

    def rows_path(self, part: Part) -> pathlib.Path:
        return self.path / f"{part.name}.jsonl"

    def errors_path(self, part: Part) -> pathlib.Path:
        return self.parts / f"{part.name}.errors"

    def summary_path(self, part: Part) -> pathlib.Path:
        return self.parts / f"{part.name}.json"

    def summary_of(self, part: Part) -> Optional[Summary]:
        """Returns the summary of a part, or None if it isn't finished."""
        try:
            summary = Summary(**json.loads(self.summary_path(part).read_bytes()))
            size = self.rows_path(part).stat().st_size
        except FileNotFoundError:
            return None
        return summary if size == summary.output_bytes else None

    @contextlib.contextmanager
    def part_writer(self, part: Part) -> Iterator[PartWriter]:
        """Opens the files of a part, and closes them however the part ends."""
        writer = PartWriter(self, part)
        try:
            yield writer
        finally:
            writer.close()

    @contextlib.contextmanager
    def claimed(self, job: Job) -> Iterator[None]:
        """Makes the folder, or goes on in it, and keeps other runs away.

        Raises:
            Failure: It has other files, another run's parts, or another run works in it.
        """
        is_new = not self.manifest.exists()
        if is_new and self.path.exists() and any(it.name != "state" for it in self.path.iterdir()):
            raise Failure(Status.REJECTED, f"{self.path}: it has files that are of no run")
        self.parts.mkdir(parents=True, exist_ok=True)
        with open(self.state / "lock", "wb") as lock:
            self._lock(lock)
            shutil.rmtree(self.unfinished, ignore_errors=True)
            self.unfinished.mkdir(exist_ok=True)
            self._compare(manifest_of(job))
            yield
            shutil.rmtree(self.unfinished, ignore_errors=True)

    def _lock(self, lock: BinaryIO) -> None:
        try:
            fcntl.flock(lock, fcntl.LOCK_EX | fcntl.LOCK_NB)
        except OSError as error:
            if error.errno in (errno.EAGAIN, errno.EACCES):
                raise Failure(Status.REJECTED, f"{self.path}: another run works in it") from None
            # Not all file systems of several machines have locks.

    def _compare(self, manifest: Dict[str, Any]) -> None:
        """Compares the manifest with that of the run that began in the folder, or writes it."""
        if not self.manifest.exists():
            text = json.dumps(manifest, indent=1) + "\n"
            write_whole(self.manifest, self.unfinished, iter([text.encode()]))
            return
        known = json.loads(self.manifest.read_bytes())
        if known != manifest:
            raise Failure(Status.REJECTED, f"{self.path}: {_difference(known, manifest)}")

    def finished(self, input: int) -> Iterator[Tuple[Part, Summary]]:
        """Iterates over the first parts of an input that are finished, with their summaries."""
        for number in itertools.count():
            part = Part(input, number, 0, 0, is_last=False)
            summary = self.summary_of(part)
            if summary is not None:
                yield part, summary
            if summary is None or summary.is_last:
                return

    def join(self, job: Job) -> Summary:
        """Writes errors.jsonl of the rejected rows of all parts, and returns the sums of all."""
        sums: List[Summary] = []
        write_whole(self.errors, self.unfinished, self._error_lines(job, sums))
        _sync_folder(self.parts)
        _sync_folder(self.path)
        return Summary(
            rows=sum(it.rows for it in sums),
            errors=sum(it.errors for it in sums),
            input_bytes=sum(it.size for it in job.inputs),
            output_bytes=sum(it.output_bytes for it in sums),
            is_last=True,
        )

    def _error_lines(self, job: Job, sums: List[Summary]) -> Iterator[bytes]:
        """Iterates over the lines of errors.jsonl, and adds a summary for each part."""
        for input, found in enumerate(job.inputs):
            before = 0
            for part, summary in self.finished(input):
                with open(self.errors_path(part), "rb") as file:
                    for line in file:
                        yield error_line(found.file, before, Rejection(*json.loads(line)))
                before += summary.rows
                sums.append(summary)


def error_line(file: str, before: int, rejection: Rejection) -> bytes:
    """Returns a line of errors.jsonl. Rows count from 1, with so many before the part."""
    placed = rejection._replace(row=before + rejection.row + 1)
    return (json.dumps({"file": file, **placed._asdict()}) + "\n").encode()


def manifest_of(job: Job) -> Dict[str, Any]:
    """Returns what a run that goes on has to have in common with the one that began."""
    return {
        "NAME": job.name,
        "METADATA": job.metadata.sha256,
        "--versions": [[it.first, it.last, it.sha256] for it in job.versions],
        "options": {
            "--input": job.form.value,
            "--gzip": job.packing.value,
            "--keys": job.keys.value,
            "fields": list(job.fields),
            "limits": dataclasses.asdict(job.limits),
            "--bits": job.has_bits,
            "--opaque": job.is_opaque,
            "--part-bytes": job.part_bytes,
        },
        "INPUT": [[it.file, it.size, it.mtime_ns] for it in job.inputs],
    }


def _difference(known: Dict[str, Any], manifest: Dict[str, Any]) -> str:
    """Returns how two manifests differ."""
    for before, now in zip(known.get("INPUT", []), manifest["INPUT"]):
        if before[0] == now[0] and before != now:
            return f"{now[0]} has changed since the run began there: take another folder"
    for name, its in manifest.items():
        if known.get(name) != its:
            return f"the run there has another {name}: take another folder"
    return "the run there is of another version: take another folder"
