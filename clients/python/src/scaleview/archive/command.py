"""The command: its words, and what it prints."""

from __future__ import annotations

import argparse
import hashlib
import os
import re
import stat
import sys
import time
from typing import Any, Callable, List, NoReturn, Optional, Sequence, Tuple, Union

from .. import DEPTH, LIMIT, Metadata, Refused, UnknownName
from .failures import Failure, Status, as_failures
from .job import PART_BYTES, Fields, Form, Input, Job, Keys, Limits, Packing, Version
from .progress import Progress

_DESCRIPTION = """\
Decodes the values of one name in files of any size, on many processes. The parts of the files are
decoded into part-*.jsonl in DIR, and errors.jsonl there has the rows that are rejected. A run that
was stopped goes on where it was.
"""

_EXAMPLES = """\
examples:
  # {"block": 1, "key": "0x..", "value": "0x.."} in each line, on all processors
  python -m scaleview.archive chain.metadata storage:System.Account accounts.jsonl --out out

  # digits in each line of compressed files, on two processes
  python -m scaleview.archive chain.metadata storage:System.Events blocks-*.hex.gz -i hex -z \\
      --out out --workers 2

  # blocks of several versions: each line of versions.txt is FIRST LAST FILE, such as
  #     0 1375085 v1020.metadata
  #     1375086 - v1050.metadata
  python -m scaleview.archive chain.metadata storage:System.Account accounts.jsonl --out out \\
      --versions versions.txt

  # on a cluster whose machines share the folders
  python -m scaleview.archive chain.metadata extrinsic blocks.bin -i lengths --out out \\
      --scheduler tcp://10.0.0.1:8786

exit status: 0 if all rows are in the parts or in errors.jsonl; 1 if metadata, an input or DIR is
rejected; 2 for wrong words; 3 if a file, a worker or a scheduler fails; 4 if memory doesn't
suffice; 130 if it is stopped.
"""


class _Parser(argparse.ArgumentParser):
    """A parser whose errors are failures."""

    def error(self, message: str) -> NoReturn:
        raise Failure(Status.USAGE, f"usage: {message} (--help has more)")


def _number(least: int, most: int) -> Callable[[str], int]:
    """Returns what reads a number from an argument."""

    def read(word: str) -> int:
        if not re.fullmatch("[0-9]{1,20}", word) or not least <= int(word) <= most:
            raise argparse.ArgumentTypeError(f"{word!r} is no number from {least} to {most}")
        return int(word)

    return read


def _parser() -> argparse.ArgumentParser:
    parser = _Parser(
        prog="python -m scaleview.archive",
        description=_DESCRIPTION,
        epilog=_EXAMPLES,
        formatter_class=argparse.RawDescriptionHelpFormatter,
    )
    add = parser.add_argument
    add("metadata", metavar="METADATA", help="a chain's metadata, version 14 or 15, as raw bytes")
    add("name", metavar="NAME", help="what the values are, such as storage:System.Account")
    add("inputs", metavar="INPUT", nargs="+", help="a file of rows")
    add("--out", metavar="DIR", required=True, help="the folder of the parts")
    _add_inputs(parser.add_argument_group("inputs"))
    _add_values(parser.add_argument_group("values"))
    _add_workers(parser.add_argument_group("workers"))
    return parser


def _add_inputs(group: Any) -> None:
    add, forms = group.add_argument, [form.value for form in Form]
    text = "lines of JSON objects (json), lines of hexadecimal digits, or values after lengths"
    add("-i", "--input", choices=forms, default=Form.JSON.value, help=text)
    add("-z", "--gzip", action="store_true", help="the inputs are compressed by gzip")
    for field in Fields._fields:
        text = f"the field of the {field} ({field})"
        add(f"--{field}-field", metavar="FIELD", default=field, help=text)
    add("--part-bytes", metavar="N", type=_number(1, 1 << 40), default=PART_BYTES,
        help=f"how many bytes of an input a part has ({PART_BYTES})")  # fmt: skip


def _add_values(group: Any) -> None:
    add = group.add_argument
    text = "lines FIRST LAST FILE: the metadata of ranges of blocks"
    add("--versions", metavar="FILE", help=text)
    add("--raw-keys", action="store_true", help="leave keys as they are given")
    add("--bits", action="store_true", help="read bit sequences")
    add("--opaque", action="store_true", help="values have their length in front")
    add("--depth", metavar="D", type=_number(0, 1024), default=DEPTH,
        help=f"the greatest depth of a value ({DEPTH})")  # fmt: skip
    add("--bytes", metavar="N", type=_number(0, 1 << 40), default=LIMIT,
        help=f"the most bytes of a value ({LIMIT})")  # fmt: skip
    add("--memory", metavar="N", type=_number(1, (1 << 64) - 1),
        help="the most bytes of memory for a value and its text")  # fmt: skip


def _add_workers(group: Any) -> None:
    where = group.add_mutually_exclusive_group()
    where.add_argument("--workers", metavar="N", type=_number(1, 1 << 12),
                       help="the number of processes on this machine (all processors)")  # fmt: skip
    text = "a cluster, whose machines share all folders"
    where.add_argument("--scheduler", metavar="ADDRESS", help=text)
    text = "show a bar if this is no terminal, too"
    group.add_argument("--progress", action="store_true", help=text)


def _job_of(words: argparse.Namespace) -> Job:
    """Returns the job that the words describe. Files are looked at, and nothing is written.

    Raises:
        Failure: A file is missing or rejected.
    """
    packing = Packing.GZIP if words.gzip else Packing.PLAIN
    versions = _versions_of(words.versions) if words.versions else ()
    fields = Fields(words.block_field, words.key_field, words.value_field)
    if len(set(fields)) < len(fields):
        raise Failure(Status.USAGE, "usage: two fields have one name")
    if versions and words.input != Form.JSON.value:
        raise Failure(Status.USAGE, "usage: --versions needs rows with blocks: --input json")
    job = Job(
        folder=os.path.abspath(words.out),
        inputs=tuple(_input_of(file, packing) for file in words.inputs),
        metadata=_version_of(words.metadata, 0, None),
        versions=versions,
        name=words.name,
        form=Form(words.input),
        packing=packing,
        keys=Keys.AS_GIVEN if words.raw_keys else Keys.DECODED,
        fields=fields,
        limits=Limits(words.depth, words.bytes, words.memory),
        has_bits=words.bits,
        is_opaque=words.opaque,
        part_bytes=words.part_bytes,
    )
    _check_metadata(job)
    return job


def _input_of(file: str, packing: Packing) -> Input:
    path = os.path.abspath(file)
    with open(file, "rb") as opened:
        found = os.fstat(opened.fileno())
        if not stat.S_ISREG(found.st_mode):
            raise Failure(Status.REJECTED, f"{file}: it is no file")
        begin = opened.read(2)
    if begin and (begin == b"\x1f\x8b") != (packing is Packing.GZIP):
        what = "isn't compressed: omit -z" if packing is Packing.GZIP else "is compressed: add -z"
        raise Failure(Status.REJECTED, f"{file}: it {what}")
    return Input(file, path, found.st_size, found.st_mtime_ns)


def _version_of(file: str, first: int, last: Optional[int]) -> Version:
    with open(file, "rb") as opened:
        data = opened.read()
    return Version(os.path.abspath(file), hashlib.sha256(data).hexdigest(), first, last)


def _versions_of(file: str) -> Tuple[Version, ...]:
    """Returns the versions that a file lists, in order of their blocks."""
    with open(file, encoding="utf-8", errors="surrogateescape") as opened:
        lines = opened.read().split("\n")
    found = []
    for number, line in enumerate(lines, 1):
        words = line.split(None, 2)
        if not words or words[0].startswith("#"):
            continue
        found.append(_version_in(f"{file}: line {number}", os.path.dirname(file), words))
    found.sort(key=lambda version: version.first)
    for version, after in zip(found, found[1:]):
        if version.last is None or version.last >= after.first:
            raise Failure(Status.REJECTED, f"{file}: two ranges have block {after.first}")
    if not found:
        raise Failure(Status.REJECTED, f"{file}: it has no line FIRST LAST FILE")
    return tuple(found)


def _version_in(place: str, folder: str, words: List[str]) -> Version:
    is_range = len(words) == 3 and re.fullmatch("[0-9]{1,19} ([0-9]{1,19}|-)", " ".join(words[:2]))
    if not is_range:
        raise Failure(Status.REJECTED, f"{place}: expected FIRST LAST FILE, where LAST may be -")
    first, last = int(words[0]), None if words[1] == "-" else int(words[1])
    if last is not None and last < first:
        raise Failure(Status.REJECTED, f"{place}: the last block stands before the first")
    return _version_of(os.path.join(folder, words[2].rstrip()), first, last)


def _check_metadata(job: Job) -> None:
    """Opens each metadata, and looks whether one of them has the name."""
    lacking: Optional[UnknownName] = None
    found = 0
    for version in {version.path: version for version in (job.metadata, *job.versions)}.values():
        with open(version.path, "rb") as file:
            data = file.read()
        try:
            Metadata(data, bits=job.has_bits).type_of(job.name)
            found += 1
        except UnknownName as error:
            lacking = error
        except Refused as error:
            raise Failure(Status.REJECTED, f"{version.path}: {error}") from None
    if lacking is not None and not found:
        raise Failure(Status.REJECTED, str(lacking))


def _run(arguments: Optional[Sequence[str]]) -> None:
    words = _parser().parse_args(arguments)
    with as_failures():
        job = _job_of(words)
    try:
        from .run import Scheduler, Workers, run
    except ModuleNotFoundError as error:
        if (error.name or "").partition(".")[0] not in ("distributed", "dask"):
            raise
        what = "install python3-distributed, or distributed by pip"
        line = f"the package distributed is missing: {what}"
        raise Failure(Status.DEVICE, line) from None
    where: Union[Scheduler, Workers] = Workers(words.workers)
    if words.scheduler:
        where = Scheduler(words.scheduler)
    shows = words.progress or sys.stderr.isatty()
    progress = Progress(sys.stderr if shows else None, sum(it.size for it in job.inputs))
    began = time.monotonic()
    try:
        sums = run(job, where, progress)
    except KeyboardInterrupt:
        progress.end()
        line = f"stopped; the same command goes on where it was, in {words.out}"
        raise Failure(Status.INTERRUPTED, line) from None
    seconds = time.monotonic() - began
    print(f"{sums.rows} rows, {sums.errors} errors, {sums.input_bytes} bytes, {seconds:.1f} s")


def main(arguments: Optional[Sequence[str]] = None) -> int:
    """Runs the command, and returns its exit status."""
    try:
        _run(arguments)
        sys.stdout.flush()
    except Failure as failure:
        print(f"scaleview: {failure.line}", file=sys.stderr)
        return failure.status
    except KeyboardInterrupt:
        print("scaleview: stopped", file=sys.stderr)
        return Status.INTERRUPTED
    return Status.DONE
