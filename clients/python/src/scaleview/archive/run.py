"""A run on the workers of a cluster. This module and `worker` alone import `distributed`."""
# mypy: allow-untyped-calls

from __future__ import annotations

import contextlib
import dataclasses
import functools
import itertools
import logging
import signal
import threading
import uuid
from typing import Any, Dict, Iterator, List, Optional, Set, Tuple, Union

import dask.config
import dask.system
from distributed import (
    CancelledError,
    Client,
    Future,
    KilledWorker,
    LocalCluster,
    get_worker,
)
from distributed.comm.core import CommClosedError

from .failures import Failure, Status, as_failures
from .folder import Folder
from .job import Job, Packing, Part, Summary
from .processes import Processes
from .progress import Progress
from .tasks import decode_gzip, decode_part, parts_of

# How often each worker of our own, or the workers of a task, may end until a part is finished.
_MOST_DEATHS = 10
# How many tasks the scheduler has for each thread of a worker.
_TASKS_OF_A_THREAD = 2
# How often the bar, signals and worker processes are looked at, if no part is finished meanwhile.
_SECONDS_BETWEEN = 0.25


@dataclasses.dataclass(frozen=True)
class Workers:
    """Processes of this machine: so many, or one for each processor."""

    count: Optional[int]


@dataclasses.dataclass(frozen=True)
class Scheduler:
    """A cluster."""

    address: str


#: A function that a worker calls, and its arguments.
Task = Tuple[Any, ...]


class Cluster:
    """A connection to a scheduler, and the worker processes that are ours."""

    def __init__(self, client: Client, processes: Optional[Processes]) -> None:
        self.client = client
        self._processes = processes
        self._deaths = 0

    def thread_count(self) -> int:
        """Returns how many tasks can be under way."""
        threads: int = sum(self.client.nthreads().values())
        return threads if self._processes is None else self._processes.count

    def note_progress(self) -> None:
        """Forgets the workers that have ended."""
        if self._processes is not None:
            self._deaths = self._processes.deaths

    def check(self) -> None:
        """Raises a failure if workers end and nothing else happens."""
        if self._processes is not None:
            deaths = self._processes.deaths - self._deaths
            if deaths > _MOST_DEATHS * self._processes.count:
                line = "the workers end again and again: is there enough memory?"
                raise Failure(Status.MEMORY, line)


def run(job: Job, where: Union[Workers, Scheduler], progress: Progress) -> Summary:
    """Does what isn't done yet of a job, and returns the sums of all its parts.

    Raises:
        Failure: The run ends. Finished parts stay, and the next run goes on there.
    """
    folder = Folder(job.folder)
    with as_failures(), folder.claimed(job):
        topic = f"scaleview-archive-{uuid.uuid4().hex}"
        tasks = _open_tasks(job, folder, topic, progress)
        first = next(tasks, None)
        if first is not None:
            with _cluster_of(where, folder) as cluster:
                if job.packing is Packing.GZIP:
                    report = functools.partial(_add_reported, progress)
                    cluster.client.subscribe_topic(topic, report)
                with _noted_signals() as noted:
                    _run_tasks(cluster, itertools.chain([first], tasks), progress, noted)
        progress.end()
        return folder.join(job)


def _open_tasks(job: Job, folder: Folder, topic: str, progress: Progress) -> Iterator[Task]:
    """Iterates over the tasks of what isn't finished, in the order of the inputs."""
    for input in range(len(job.inputs)):
        if job.packing is Packing.GZIP:
            is_done = False
            for _, summary in folder.finished(input):
                progress.add_known(summary)
                is_done = summary.is_last
            if not is_done:
                yield _decode_gzip, job, input, topic
            continue
        for part in parts_of(job, input):
            known = folder.summary_of(part)
            if known is None:
                yield decode_part, job, part
            else:
                progress.add_known(known)


def _decode_gzip(job: Job, input: int, topic: str) -> None:
    """Decodes a compressed file on a worker, and reports each part."""

    def report(part: Part, summary: Summary) -> None:
        get_worker().log_event(topic, dataclasses.asdict(summary))

    decode_gzip(job, input, report)


def _add_reported(progress: Progress, event: Tuple[float, Dict[str, Any]]) -> None:
    progress.add(Summary(**event[1]))


@contextlib.contextmanager
def _cluster_of(where: Union[Workers, Scheduler], folder: Folder) -> Iterator[Cluster]:
    """Connects to a cluster, or starts one."""
    with contextlib.ExitStack() as stack:
        try:
            if isinstance(where, Scheduler):
                cluster = Cluster(stack.enter_context(Client(where.address)), None)
            else:
                cluster = _start(where.count or dask.system.CPU_COUNT, folder, stack)
        except (OSError, ValueError, RuntimeError) as error:
            line = f"no workers: {error}"
            if isinstance(where, Scheduler):
                line = f"{where.address}: no scheduler: {error}"
            raise Failure(Status.DEVICE, line) from None
        yield cluster


def _start(count: int, folder: Folder, stack: contextlib.ExitStack) -> Cluster:
    """Starts a scheduler in this process, and worker processes."""
    stack.enter_context(dask.config.set({"distributed.scheduler.allowed-failures": _MOST_DEATHS}))
    local = LocalCluster(
        n_workers=0,
        processes=True,
        silence_logs=logging.CRITICAL,
        dashboard_address=None,
        # Without a dashboard there is still a server. Any free port will do for it.
        scheduler_kwargs={"dashboard_address": "127.0.0.1:0"},
    )
    address = stack.enter_context(local).scheduler_address
    client = stack.enter_context(Client(address))
    return Cluster(client, stack.enter_context(Processes(address, str(folder.unfinished), count)))


@contextlib.contextmanager
def _noted_signals() -> Iterator[List[int]]:
    """Adds signals to a list that would otherwise raise KeyboardInterrupt. That might be raised in
    a finalizer, and then be lost."""
    noted: List[int] = []
    before = {}
    if threading.current_thread() is threading.main_thread():
        for number in (signal.SIGINT, signal.SIGTERM):
            before[number] = signal.signal(number, lambda number, _: noted.append(number))
    try:
        yield noted
    finally:
        for number, handler in before.items():
            signal.signal(number, handler)


def _run_tasks(
    cluster: Cluster, tasks: Iterator[Task], progress: Progress, noted: List[int]
) -> None:
    """Gives the scheduler as many tasks as keep the workers busy, and new ones as they end.

    Raises:
        KeyboardInterrupt: A signal was noted.
    """
    pending: Set[Future] = set()
    has_ended = threading.Event()
    while True:
        wanted = _TASKS_OF_A_THREAD * max(cluster.thread_count(), 1) - len(pending)
        for function, *arguments in itertools.islice(tasks, max(wanted, 0)):
            future = cluster.client.submit(function, *arguments, pure=False)
            future.add_done_callback(lambda _: has_ended.set())
            pending.add(future)
        if not pending:
            return
        has_ended.wait(_SECONDS_BETWEEN)
        has_ended.clear()
        if noted:
            raise KeyboardInterrupt
        ended = [future for future in pending if future.done()]
        for future in ended:
            pending.remove(future)
            summary = _result_of(future)
            if summary is not None:
                progress.add(summary)
        if ended:
            cluster.note_progress()
        cluster.check()
        progress.refresh()


def _result_of(future: Future) -> Optional[Summary]:
    """Returns what a task returned.

    Raises:
        Failure: The task failed, or its workers or its scheduler are gone.
    """
    try:
        summary: Optional[Summary] = future.result()
    except KilledWorker:
        line = "a part ended all workers that had it: is there enough memory?"
        raise Failure(Status.MEMORY, line) from None
    except (CancelledError, CommClosedError):
        raise Failure(Status.DEVICE, "the scheduler is gone") from None
    except ImportError as error:
        raise Failure(Status.DEVICE, f"a worker has another scaleview or none: {error}") from None
    return summary
