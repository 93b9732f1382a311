"""Runs pieces of work side by side, each in a process of its own with a database of its own."""

from __future__ import annotations

import multiprocessing
import os
import sys
import time
import unittest
from collections import Counter
from dataclasses import dataclass, field
from multiprocessing.connection import Connection, wait
from typing import Any, Callable, Dict, Generic, Iterator, TypeVar

T = TypeVar("T")

PASSED_OVER = "passed over"


@dataclass(frozen=True)
class Result:
    """The outcome of a test, and why it failed or was skipped. `worked` is processor time, without that of servers.
    """

    name: str
    seconds: float
    worked: float
    outcome: str = "ok"
    said: str = ""


@dataclass(frozen=True)
class Done:
    """The results of a piece, and the numbers that its tests added up."""

    results: list[Result]
    counted: Counter[str] = field(default_factory=Counter)


@dataclass(frozen=True)
class Piece(Generic[T]):
    """A named piece of work. Its process starts without any module of safebound_sql loaded."""

    name: str
    work: Callable[[], T]


Environment = Dict[str, str]


def all_done(pieces: list[Piece[T]], environments: list[Environment]) -> Iterator[tuple[Piece[T], T | None]]:
    """The result of each piece, as soon as it is there. The result is None if the process ended without one.

    Each process gets one of the environments. No two processes have the same one at the same time.
    """
    waiting, free = pieces[::-1], list(environments)
    running: dict[Connection, tuple[Piece[T], Environment]] = {}
    while waiting or running:
        while waiting and free:
            piece, environment = waiting.pop(), free.pop()
            running[_started(piece, environment)] = piece, environment
        for ready in wait(list(running)):
            assert isinstance(ready, Connection)
            piece, environment = running.pop(ready)
            free.append(environment)
            yield piece, _received(ready)


def _started(piece: Piece[T], environment: Environment) -> Connection:
    """Starts a process that is a copy of this one (a fork)."""
    fork = multiprocessing.get_context("fork")
    receives, sends = fork.Pipe(duplex=False)
    fork.Process(target=_worked, args=(piece, environment, sends), daemon=True).start()
    sends.close()
    return receives


def _worked(piece: Piece[T], environment: Environment, sends: Connection) -> None:
    os.environ.update(environment)
    sends.send(piece.work())


def _received(receives: Connection) -> Any:
    try:
        return receives.recv()
    except EOFError:
        return None
    finally:
        receives.close()


class TimedResult(unittest.TestResult):
    """Results of tests, and the time that each took."""

    def __init__(self) -> None:
        super().__init__()
        self.took: dict[str, tuple[float, float]] = {}

    def startTest(self, test: unittest.TestCase) -> None:
        super().startTest(test)
        self.took[test.id()] = time.monotonic(), _processor_time()

    def stopTest(self, test: unittest.TestCase) -> None:
        super().stopTest(test)
        begin, worked = self.took[test.id()]
        self.took[test.id()] = time.monotonic() - begin, _processor_time() - worked

    def results(self) -> list[Result]:
        failed = [(test, "failed", text) for test, text in self.failures + self.errors]
        failed += [(test, "failed", "succeeded, and shouldn't") for test in self.unexpectedSuccesses]
        over = [(test, PASSED_OVER, why) for test, why in self.skipped]
        wrong = [
            Result(test.id(), *self.took.get(test.id(), (0, 0)), outcome, text) for test, outcome, text in failed + over
        ]
        names = {result.name for result in wrong}
        return wrong + [Result(name, *took) for name, took in self.took.items() if name not in names]


def _processor_time() -> float:
    """The processor time of this process and of those that it started."""
    return sum(os.times()[:4])


def tests(names: list[str]) -> Done:
    """Runs tests by their names."""
    result = TimedResult()
    unittest.defaultTestLoader.loadTestsFromNames(names).run(result)
    bases = sys.modules.get("bases")
    return Done(result.results(), bases.COUNTED if bases else Counter())


def found(names: list[str], processes: int) -> list[tuple[str, list[str]]]:
    """The tests of these names, or all tests, in pieces. The tests of a class are one piece, or a few pieces if the
    class is `apart`.
    """
    loader = unittest.defaultTestLoader
    suite = loader.loadTestsFromNames(names) if names else loader.discover(os.getcwd(), "test_*.py")
    classes: dict[str, dict[str, None]] = {}
    apart = set()
    for test in _each(suite):
        name = test.id().rpartition(".")[0]
        classes.setdefault(name, {})[test.id()] = None
        if getattr(type(test), "apart", False):
            apart.add(name)
    pieces = []
    for name, ids in classes.items():
        own = list(ids)
        size = -(-len(own) // (2 * processes)) if name in apart else len(own)
        pieces += [(name, own[at : at + size]) for at in range(0, len(own), size)]
    return pieces


def _each(suite: unittest.TestSuite) -> Iterator[unittest.TestCase]:
    for test in suite:
        if isinstance(test, unittest.TestSuite):
            yield from _each(test)
        else:
            yield test
