"""What workers do: the parts of inputs."""

from __future__ import annotations

import contextlib
import os
from typing import BinaryIO, Callable, Iterator

from .failures import Failure, Status, as_failures
from .folder import Folder
from .job import Form, Job, Packing, Part, Summary
from .rows import Rows
from .sources import (
    EVERYTHING,
    Fault,
    Piece,
    Source,
    gzip_source,
    lines,
    part_starts,
    plain_source,
    values,
)

#: What is called with each part that a task finishes.
Report = Callable[[Part, Summary], None]


def parts_of(job: Job, input: int) -> Iterator[Part]:
    """Iterates over the parts of an input that isn't compressed. It reads the lengths of values,
    but no lines."""
    found = job.inputs[input]
    if job.form is Form.LENGTHS:
        starts = part_starts(found.path, job.part_bytes)
    else:
        starts = iter(range(0, max(found.size, 1), job.part_bytes))
    number, start = 0, next(starts)
    for end in starts:
        yield Part(input, number, start, end, is_last=False)
        number, start = number + 1, end
    yield Part(input, number, start, EVERYTHING, is_last=True)


def decode_part(job: Job, part: Part) -> Summary:
    """Decodes a part of an input that isn't compressed."""
    with as_failures(), _opened(job, part.input) as file:
        if job.form is Form.LENGTHS:
            source = plain_source(file, part.start)
        else:
            # A line that begins with the part has a line end before it.
            source = plain_source(file, max(part.start - 1, 0))
            if part.start:
                source.skip_line(part.end)
        size = job.inputs[part.input].size
        taken = min(part.end, size) - part.start
        return _write_part(job, part, source, lambda: taken)


def decode_gzip(job: Job, input: int, report: Report) -> None:
    """Decodes a compressed file part by part. Finished parts are unpacked and left as they are."""
    folder = Folder(job.folder)
    with as_failures(), _opened(job, input) as file:
        source = gzip_source(file)
        number, is_last = 0, False
        while not is_last:
            start = source.place
            end = (start // job.part_bytes + 1) * job.part_bytes
            part = Part(input, number, start, end, is_last=False)
            summary = folder.summary_of(part)
            if summary is None:
                before = file.tell()
                summary = _write_part(job, part, source, lambda: file.tell() - before)
                report(part, summary)
            else:
                _pass_part(job, source, end)
            number, is_last = number + 1, summary.is_last


@contextlib.contextmanager
def _opened(job: Job, input: int) -> Iterator[BinaryIO]:
    """Opens an input, and checks before and after it is read that it is what it was when the run
    began."""
    with open(job.inputs[input].path, "rb") as file:
        _check_input(job, input, file)
        yield file
        _check_input(job, input, file)


def _check_input(job: Job, input: int, file: BinaryIO) -> None:
    known, found = job.inputs[input], os.fstat(file.fileno())
    if (known.size, known.mtime_ns) != (found.st_size, found.st_mtime_ns):
        raise Failure(Status.REJECTED, f"{known.file}: it has changed since the run began")


def _pieces(job: Job, source: Source, end: int) -> Iterator[Piece]:
    if job.form is Form.LENGTHS:
        return values(source, end, job.limits.bytes)
    return lines(source, end, job.limits.line)


def _pass_part(job: Job, source: Source, end: int) -> None:
    """Goes to the end of a part."""
    for _ in _pieces(job, source, end):
        pass


def _write_part(job: Job, part: Part, source: Source, taken: Callable[[], int]) -> Summary:
    """Decodes the rows of a part, and writes its files."""
    is_last = part.is_last
    with Folder(job.folder).part_writer(part) as writer:
        rows = Rows(job, writer.write)
        for piece in _pieces(job, source, part.end):
            rows.add(piece)
            is_last = is_last or isinstance(piece, Fault) and piece.is_final
        rows.flush()
        if job.packing is Packing.GZIP:
            is_last = is_last or source.is_at_end
        return writer.finish(rows.count, taken(), is_last)
