"""Who does the tasks of a fleet: processes of this machine, or the workers of a Dask cluster. A task whose process or worker is ended in its
midst is done again by another one."""

from __future__ import annotations

import logging
import os
import pickle
import socket
import subprocess
import sys
import threading
import time
from collections.abc import Callable, Iterable, Iterator
from concurrent.futures import Future, ThreadPoolExecutor
from queue import Empty, SimpleQueue
from typing import Any
from urllib.parse import urlsplit

from j39plan import program
from j39plan.fleet.drives import Drive, drive_of, empty

# How often a task is begun whose process is ended.
TRIES = 3

# How long a scheduler and its workers are waited for, in seconds, how long one that starts until it listens, and how long an answer at a time.
PATIENCE, STARTING, MOMENT = 60, 5, 0.5

# What a task is done with: the text of the plan and what `show` answers of it, what the log is called and where it lies, and the options of
# `against`.
Task = tuple[str, str, str, str, list[str]]


def lost(task: Task, why: str) -> Drive:
    """The table of a log that nobody could read to its end."""
    found = empty(task[2])
    found["status"], found["failed"] = program.FAULT, why
    return found


def found_version() -> str:
    """The version of the program that this process finds, empty where there is none."""
    try:
        return program.call(["--version"])[1].strip()
    except SystemExit:
        return ""


class Worker:
    """A process of this machine that does tasks, one after another: it is handed each by a pipe, and hands back what it answers."""

    def __init__(self) -> None:
        self._process = subprocess.Popen([sys.executable, os.path.join(program.PACKAGE, "fleet", "worker.py")], stdin=subprocess.PIPE, stdout=subprocess.PIPE)

    def do(self, task: Task) -> Drive:
        """What a task answers; EOFError or OSError where the process is ended."""
        assert self._process.stdin is not None and self._process.stdout is not None
        pickle.dump(task, self._process.stdin)
        self._process.stdin.flush()
        found: Drive = pickle.load(self._process.stdout)
        return found

    def end(self) -> None:
        """Ends the process. Its pipes are left to the thread that may wait for them."""
        self._process.kill()
        self._process.wait()


def next_of(answers: SimpleQueue[Future[Drive]]) -> Future[Drive]:
    """The next answer. An interrupt that comes right before a wait begins is seen at its end, so no wait is long."""
    while True:
        try:
            return answers.get(timeout=MOMENT)
        except Empty:
            continue


class Processors:
    """Processes of this machine, each with a thread that hands it tasks. One that is ended costs no other its task, and its own is done again."""

    def __init__(self, processes: int) -> None:
        self._processes, self._mine = processes, threading.local()
        self._workers: list[Worker] = []
        self._is_over, self._changing = False, threading.Lock()

    def done(self, tasks: Iterable[Task]) -> Iterator[Drive]:
        """What the tasks answer, each as soon as it does."""
        threads, answers = ThreadPoolExecutor(self._processes), SimpleQueue[Future[Drive]]()
        try:
            futures = [threads.submit(self._do, task) for task in tasks]
            for future in futures:
                future.add_done_callback(answers.put)
            for _ in futures:
                yield next_of(answers).result()
        finally:
            with self._changing:
                self._is_over = True
            threads.shutdown(wait=False, cancel_futures=True)
            for worker in self._workers:
                worker.end()

    def _worker(self) -> Worker | None:
        """This thread's process, a new one where it has none; None where all is over."""
        with self._changing:
            if self._is_over:
                return None
            worker: Worker | None = getattr(self._mine, "worker", None)
            if worker is None:
                worker = self._mine.worker = Worker()
                self._workers.append(worker)
            return worker

    def _do(self, task: Task) -> Drive:
        for _ in range(TRIES):
            worker = self._worker()
            if worker is None:
                break
            try:
                return worker.do(task)
            except (EOFError, OSError, ValueError, pickle.UnpicklingError):
                worker.end()
                self._mine.worker = None
        return lost(task, f"the process that read it was ended, {TRIES} times")


def refuse_unless_listening(address: str) -> None:
    """Refuses an address at which no scheduler listens, and none begins to for a while: Dask itself tries that much longer."""
    there, end = urlsplit(address if "://" in address else f"tcp://{address}"), time.monotonic() + STARTING
    while there.scheme in ("tcp", "tls"):
        try:
            with socket.create_connection((there.hostname, there.port or 0), timeout=max(end - time.monotonic(), MOMENT)):
                return
        except (OSError, ValueError) as fault:
            if time.monotonic() + MOMENT >= end:
                raise program.Refused(program.DEVICE, f"{address}: no scheduler listens there, within {STARTING} s: {fault}") from None
        time.sleep(MOMENT)


class Cluster:
    """The workers of a Dask cluster. They read the logs by the same names, and have the program and the package `j39plan`."""

    def __init__(self, address: str) -> None:
        try:
            import distributed
        except ImportError:
            raise program.Refused(program.MISSING, "distributed isn't there: apt-get install python3-distributed") from None
        logging.getLogger("distributed").setLevel(logging.CRITICAL)  # what matters is said by the tables
        self._distributed = distributed
        refuse_unless_listening(address)
        try:
            self._client = distributed.Client(address, timeout=PATIENCE)
            self._client.wait_for_workers(1, timeout=PATIENCE)
        except (OSError, TimeoutError, ValueError) as fault:
            raise program.Refused(program.DEVICE, f"{address}: no scheduler with a worker answers: {fault}") from None
        self._look_at_workers()

    def done(self, tasks: Iterable[Task]) -> Iterator[Drive]:
        """What the tasks answer, each as soon as it does. A task whose worker is ended goes to another one."""
        futures = {self._client.submit(drive_of, *task, pure=False): task for task in tasks}
        try:
            for future in self._distributed.as_completed(list(futures)):
                yield self._answer(future, futures[future])
        finally:
            self._client.close()

    def _answer(self, future: Any, task: Task) -> Drive:
        """What a task answered, or why nobody could do it."""
        try:
            found: Drive = future.result()
            return found
        except self._distributed.scheduler.KilledWorker:
            return lost(task, "the workers that read it were ended, again and again")
        except Exception as fault:  # the scheduler is gone, or a worker has other versions
            return lost(task, f"{type(fault).__name__}: {fault}")

    def _look_at_workers(self) -> None:
        """Refuses a cluster of which a worker has another program, or none."""
        here = program.call(["--version"])[1].strip()
        try:
            there = self._client.run(found_version)
        except Exception as fault:  # what a worker raises, whatever it is
            self._client.close()
            why = f"a worker can't do tasks: {type(fault).__name__}: {fault}: it needs python3-j39plan and the program"
            raise program.Refused(program.MISSING, why) from None
        for worker, version in there.items():
            if version != here:
                self._client.close()
                raise program.Refused(program.MISSING, f"{worker} has {version or 'no program'}, and here is {here}")


def team(processes: int | None, scheduler: str | None) -> Callable[[Iterable[Task]], Iterator[Drive]]:
    """Who does tasks: a cluster, if a scheduler is named, else so many processes, as many as there are processors where that isn't said."""
    if scheduler:
        return Cluster(scheduler).done
    return Processors(processes or len(os.sched_getaffinity(0))).done
