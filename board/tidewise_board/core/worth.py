"""What changes of a day are worth: each instance is planned by a run of its own, and each difference is that of two `verify` lines."""
from __future__ import annotations

import os
import subprocess
import tempfile
import threading
import time
from collections.abc import Callable
from concurrent.futures import ThreadPoolExecutor
from dataclasses import dataclass

from .program import Failed, Program, Text, Word
from .progress import whole_lines
from .reading import Unread, Verdict
from .runs import Inputs, verify


@dataclass(frozen=True)
class Planned:
    """What `verify` says of a run's certificate, or what the program refuses, and the seconds by the clock."""
    verdict: Verdict | None
    refused: str
    seconds: float


class Planning:
    """Runs over some instances, a few at once, each with a limit in seconds. `close` ends those that go on."""

    def __init__(self, program: Program, tides: str, limit: float, budget: int) -> None:
        self.program, self.limit, self.budget = program, limit, budget
        self.tides = program.store.put(tides.encode())
        self._runs: set[subprocess.Popen[bytes]] = set()
        self._lock = threading.Lock()
        self._closed = False

    def all(self, instances: list[str], at_once: int, done: Callable[[int], None]) -> list[Planned]:
        """What each instance carries; `done` is told how many have ended."""
        with ThreadPoolExecutor(at_once) as pool:
            try:
                futures = [pool.submit(self.one, instance) for instance in instances]
                found = []
                for number, future in enumerate(futures, 1):
                    found.append(future.result())
                    done(number)
                return found
            finally:
                pool.shutdown(wait=False, cancel_futures=True)
                self.close()

    def one(self, instance: str) -> Planned:
        """Plans one instance."""
        began = time.monotonic()
        inputs = Inputs(self.program.store.put(instance.encode()), self.tides)
        with tempfile.TemporaryDirectory(dir=self.program.store.folder) as folder:
            report, proof = os.path.join(folder, "report"), os.path.join(folder, "proof")
            self._run(inputs, folder)
            verdict = self._verdict(inputs, proof)
            with open(report, encoding="utf-8", errors="replace") as file:
                said = file.readline(200).strip()
        return Planned(verdict, "" if verdict else said or "no report", time.monotonic() - began)

    def _run(self, inputs: Inputs, folder: str) -> None:
        """A run to its end, or to the limit."""
        words: list[Word] = ["prove", "port", Text(inputs.instance, "day.json"), Text(inputs.tides, "tides.csv"), str(self.budget), "proof"]
        with self._lock:
            if self._closed:
                raise Failed("the runs were ended")
            run = self.program.start(words, folder)
            self._runs.add(run)
        try:
            run.wait(self.limit)
        except subprocess.TimeoutExpired:
            run.terminate()
            run.wait()
        finally:
            with self._lock:
                self._runs.discard(run)

    def _verdict(self, inputs: Inputs, proof: str) -> Verdict | None:
        """What `verify` says of a certificate; None where there is none, or it is refused."""
        if not os.path.exists(proof):
            return None
        whole_lines(proof)
        try:
            return verify(self.program, inputs, self.program.store.put_file(proof), fresh=True)
        except Unread:
            return None

    def close(self) -> None:
        """Ends the runs that go on, and begins no other."""
        with self._lock:
            self._closed = True
            for run in self._runs:
                run.terminate()
