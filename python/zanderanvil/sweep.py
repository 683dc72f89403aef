"""Many runs side by side: over sources, budgets, inputs and interrupts; and over schedulers and caches, by the laboratory."""
from __future__ import annotations

import functools
import itertools
from concurrent.futures import Executor
from dataclasses import dataclass, field
from typing import Any, Callable, Dict, Iterable, Iterator, List, Mapping, Optional, Sequence, TypeVar

from .laboratory import Laboratory
from .library import Refusal, Run, Zanderanvil

Given = TypeVar("Given")
Found = TypeVar("Found")


@dataclass(frozen=True)
class Case:
    """One run of a sweep: a name for its source, the source, and what the run is given."""

    name: str
    source: bytes
    interrupts: Sequence[int] = ()
    input: Optional[bytes] = None
    budget: int = 1000000


@dataclass
class Row:
    """A case with its run, or with what was refused."""

    case: Case
    run: Optional[Run] = None
    refused: Optional[str] = None
    settings: Dict[str, Any] = field(default_factory=dict)


# One library a process: a handle of ctypes does not go from one to another.
_libraries: dict[str, Zanderanvil] = {}


def run_case(library: str, case: Case) -> Row:
    """Runs one case by the library in a file."""
    it = _libraries.get(library) or _libraries.setdefault(library, Zanderanvil(library))
    try:
        return Row(case, it.run(case.source, case.budget, case.interrupts, case.input))
    except Refusal as refusal:
        return Row(case, refused=str(refusal))


def cases(sources: dict[str, bytes], interrupts: Iterable[Sequence[int]] = ((),), inputs: Iterable[Optional[bytes]] = (None,),
          budget: int = 1000000) -> Iterator[Case]:
    """Gives a case for each source with each list of interrupts and each input."""
    for (name, source), requests, input in itertools.product(sources.items(), list(interrupts), list(inputs)):
        yield Case(name, source, tuple(requests), input, budget)


def _by(executor: Optional[Executor], call: Callable[[Given], Found], listed: Sequence[Given]) -> List[Found]:
    """What a call gives for each of these, in their order, by an executor, or one after the other without one."""
    if executor is None:
        return [call(one) for one in listed]
    return [future.result() for future in [executor.submit(call, one) for one in listed]]


def sweep(library: str, wanted: Iterable[Case], executor: Optional[Executor] = None) -> list[Row]:
    """Runs all cases, in their order, by an executor of threads, processes or a cluster; without one, one after the other.

    A call of the library takes no lock and keeps nothing, so threads serve; it holds Python's lock while it starts alone.
    """
    return _by(executor, functools.partial(run_case, library), list(wanted))


@dataclass(frozen=True)
class Study:
    """One command of the laboratory on a source: `compare` for its schedulers, `caches`, or `profile`; with the arguments of the
    method of that name, as `{"line": 8}` of `caches`."""

    name: str
    source: bytes
    command: str
    given: Mapping[str, Any] = field(default_factory=dict)


def run_study(program: str, study: Study, timeout: Optional[float] = None) -> List[Dict[str, Any]]:
    """The records of one study, each with the name of its source and what it was given."""
    told = {name: value for name, value in study.given.items() if isinstance(value, (int, str))}
    try:
        records = getattr(Laboratory(program, timeout), study.command)(study.source, **study.given)
    except (Refusal, TimeoutError) as refusal:
        records = [{"refused": str(refusal)}]
    return [{"source": study.name, "command": study.command, **told, **record} for record in records]


def survey(program: str, wanted: Iterable[Study], executor: Optional[Executor] = None,
           timeout: Optional[float] = None) -> List[Dict[str, Any]]:
    """The records of all studies, in their order, by an executor of threads, processes or a cluster: each is a run of the
    laboratory's program. One that takes more than `timeout` seconds has a record `refused`, as one of a faulty source has."""
    call = functools.partial(run_study, program, timeout=timeout)
    return [record for records in _by(executor, call, list(wanted)) for record in records]
