"""Schedulers compared over many sources: flat records, paired differences with their 95% intervals, and a picture of them."""
from __future__ import annotations

import math
from concurrent.futures import Executor
from dataclasses import dataclass
from typing import Any, Dict, Iterable, List, Mapping, Optional, Sequence, Tuple, Union

from .laboratory import Laboratory, Scheduler
from .library import Refusal
from .sweep import Case, _by

# The schedulers that `compare` knows by name.
OWN = ("padded", "list", "copies", "best")
FIGURES = ("words", "noops", "cycles", "fetches", "misses", "squashes")
# What the 95% interval of a mean of n differences takes of its standard error, by n - 1 (Student); beyond the table that of the last.
STUDENT = (12.706, 4.303, 3.182, 2.776, 2.571, 2.447, 2.365, 2.306, 2.262, 2.228, 2.201, 2.179, 2.160, 2.145, 2.131, 2.120, 2.110, 2.101, 2.093,
           2.086, 2.080, 2.074, 2.069, 2.064, 2.060, 2.056, 2.052, 2.048, 2.045, 2.042)
BEYOND = ((40, 2.021), (60, 2.000), (120, 1.980), (math.inf, 1.960))
# The picture: widths and heights in pixels.
LEFT, WIDE, ROW_HIGH, EDGE = 220, 420, 26, 30

Record = Dict[str, Any]
# A scheduler by its name in `compare`, or a function of one's own; a source, or one with its input, interrupts and budget.
Named = Union[str, Scheduler]
Source = Union[bytes, Case]


def _given(case: Case) -> Record:
    return {"budget": case.budget, "interrupts": case.interrupts, "input": case.input}


def _case(name: str, source: Source) -> Case:
    return source if isinstance(source, Case) else Case(name, source)


def _records_of(job: Tuple[str, Optional[float], Mapping[str, Named], str, Source]) -> List[Record]:
    """The records of one source under all schedulers."""
    program, timeout, schedulers, name, source = job
    laboratory, case = Laboratory(program, timeout), _case(name, source)
    records: List[Record] = []
    known: Dict[str, Record] = {}
    for called, scheduler in schedulers.items():
        record: Record = {"source": name, "scheduler": called}
        try:
            if isinstance(scheduler, str):
                known = known or {row["plans"]: row for row in laboratory.compare(case.source, **_given(case))}
                row = known[scheduler]
                record.update({it: row[it] for it in FIGURES if it in row}, halted=row["halted"], rejected=0)
            else:
                planned = laboratory.plans(case.source, scheduler, **_given(case))
                record.update({it: planned.run.counts[it] for it in FIGURES}, halted=planned.run.halted, rejected=len(planned.rejected))
        except (Refusal, TimeoutError) as refusal:
            record["refused"] = str(refusal)
        except KeyError:
            raise ValueError(f"unknown scheduler {scheduler!r}: expected a function, or {', '.join(OWN)}") from None
        records.append(record)
    return records


@dataclass(frozen=True)
class Spread:
    """What some numbers are: how many, their mean with its 95% interval, their standard deviation, the least and the greatest. The interval
    and the deviation of fewer than two numbers are not numbers."""

    count: int
    mean: float
    low: float
    high: float
    deviation: float
    least: float
    most: float

    @property
    def is_shown(self) -> bool:
        """Whether the interval leaves out 0."""
        return self.count > 1 and (self.low > 0 or self.high < 0)


def spread(values: Iterable[float]) -> Spread:
    """Returns the mean of numbers with its 95% interval, by Student's distribution, and how much they differ."""
    listed = list(values)
    count = len(listed)
    if not count:
        return Spread(0, *[math.nan] * 6)
    mean = sum(listed) / count
    deviation = math.sqrt(sum((it - mean) ** 2 for it in listed) / (count - 1)) if count > 1 else math.nan
    half = deviation / math.sqrt(count) * _quantile(count - 1) if count > 1 else math.nan
    return Spread(count, mean, mean - half, mean + half, deviation, min(listed), max(listed))


@dataclass(frozen=True)
class Difference:
    """By how much one scheduler's figure differs from another's over the sources that halt under both, in percent of the second one's:
    the mean with its 95% interval, how many sources have less, the same, or more, and the standard deviation, the least and the greatest of
    the differences. Of fewer than two sources nothing can be said."""

    first: str
    second: str
    figure: str
    count: int
    mean: float
    low: float
    high: float
    less: int
    same: int
    more: int
    deviation: float = math.nan
    least: float = math.nan
    most: float = math.nan

    @property
    def is_shown(self) -> bool:
        """Whether the interval leaves out 0, so that the difference is more than chance over sources like these."""
        return self.count > 1 and (self.low > 0 or self.high < 0)

    def __str__(self) -> str:
        if self.count < 2:
            return f"{self.first} and {self.second}: {self.count} sources, too few to compare"
        said = f"{self.mean:+.2f}% {self.figure}, 95% interval {self.low:+.2f}% to {self.high:+.2f}%"
        rest = f"{self.less} of {self.count} sources less, {self.same} the same, {self.more} more"
        return f"{self.first} against {self.second}: {said} ({'a difference' if self.is_shown else 'no difference is shown'}); {rest}"


def _quantile(freedom: int) -> float:
    if freedom <= len(STUDENT):
        return STUDENT[freedom - 1]
    return next(value for most, value in BEYOND if freedom <= most)


@dataclass
class Evaluation:
    """The records of schedulers over sources: `source`, `scheduler`, `words`, `noops`, `cycles`, `fetches`, `misses`, `squashes`, `halted`,
    `rejected` (how many plans were), or `refused`. pandas.DataFrame(evaluation.records) is a table of them."""

    records: List[Record]

    def figures(self, scheduler: str, figure: str) -> Dict[str, int]:
        """A figure of each source that halts under a scheduler."""
        return {it["source"]: it[figure] for it in self.records if it["scheduler"] == scheduler and it.get("halted") and figure in it}

    def difference(self, first: str, second: str, figure: str = "cycles") -> Difference:
        """Compares two schedulers source by source."""
        one, other = self.figures(first, figure), self.figures(second, figure)
        pairs = [(one[it], other[it]) for it in one if it in other and other[it]]
        it = spread(100 * (a - b) / b for a, b in pairs)
        less, more = sum(a < b for a, b in pairs), sum(a > b for a, b in pairs)
        return Difference(first, second, figure, it.count, it.mean, it.low, it.high, less, it.count - less - more, more, it.deviation, it.least,
                          it.most)

    def differences(self, second: str, figure: str = "cycles") -> List[Difference]:
        """Compares every other scheduler with one, in the order of the records."""
        names = dict.fromkeys(it["scheduler"] for it in self.records)
        return [self.difference(it, second, figure) for it in names if it != second]

    def plot(self, second: str, figure: str = "cycles") -> str:
        """An SVG of these differences: a mark for each mean, and a line for its interval."""
        rows = [it for it in self.differences(second, figure) if it.count > 1]
        ends = [0.0, *(it.low for it in rows), *(it.high for it in rows)]
        low, high = min(ends), max(ends)
        wide = (high - low) or 1.0

        def at(value: float) -> float:
            return LEFT + EDGE + (value - low) / wide * (WIDE - 2 * EDGE)

        tall = ROW_HIGH * (len(rows) + 2)
        lines = [f'<svg xmlns="http://www.w3.org/2000/svg" width="{LEFT + WIDE}" height="{tall}" font-family="sans-serif" font-size="13">',
                 '<style>text{fill:#222}line{stroke:#222}@media(prefers-color-scheme:dark){text{fill:#ddd}line{stroke:#ddd}}</style>',
                 f'<line x1="{at(0):.1f}" y1="6" x2="{at(0):.1f}" y2="{tall - ROW_HIGH}" stroke-dasharray="3 3"/>',
                 f'<text x="{at(0):.1f}" y="{tall - 8}" text-anchor="middle">{_escaped(second)}: 0%, {_escaped(figure)}</text>']
        for number, it in enumerate(rows, 1):
            y = ROW_HIGH * number
            lines += [f'<text x="6" y="{y + 4}">{_escaped(it.first)} {it.mean:+.2f}%</text>',
                      f'<line x1="{at(it.low):.1f}" y1="{y}" x2="{at(it.high):.1f}" y2="{y}" stroke-width="2"/>',
                      f'<circle cx="{at(it.mean):.1f}" cy="{y}" r="4" fill="{"#0b6" if it.is_shown else "#999"}"/>']
        return "\n".join([*lines, "</svg>", ""])


def _escaped(text: str) -> str:
    return text.replace("&", "&amp;").replace("<", "&lt;").replace('"', "&quot;")


def evaluate(program: str, schedulers: Union[Mapping[str, Named], Iterable[str]], corpus: Mapping[str, Source],
             executor: Optional[Executor] = None, timeout: Optional[float] = None) -> Evaluation:
    """Runs each source of a corpus under each scheduler, by an executor of threads, processes or a cluster; without one, one after the
    other. A scheduler is a function (docs/LIBRARY.md), or the name of one that `compare` knows: padded, list, copies, best."""
    named: Mapping[str, Named] = schedulers if isinstance(schedulers, Mapping) else {it: it for it in schedulers}
    unknown: Sequence[str] = [it for it in named.values() if isinstance(it, str) and it not in OWN]
    if unknown:
        raise ValueError(f"unknown scheduler {unknown[0]!r}: expected a function, or {', '.join(OWN)}")
    jobs = [(program, timeout, named, name, source) for name, source in corpus.items()]
    return Evaluation([record for records in _by(executor, _records_of, jobs) for record in records])
