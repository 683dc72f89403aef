"""Zanderanvil from Python: a toolchain and simulator for MIPS-X, each command a call of the library for C.

    from zanderanvil import Zanderanvil

    it = Zanderanvil("built/libzanderanvil.so")
    run = it.run(b"addi r0,#72,r1\\nst 255[r0],r1\\nhalt\\n", interrupts=[5])
    print(run.console, run.cycles)

`Laboratory` has the laboratory's commands, by its program. `sweep` runs many runs side by side, and `survey` many studies of
the laboratory, by any executor of concurrent.futures. `evaluate` compares schedulers over many sources. `models` has caches and branch
schemes over a trace.
"""
import importlib.metadata
import os

from .evaluation import Difference, Evaluation, Spread, evaluate, spread
from .laboratory import Block, Dependence, Drawing, Laboratory, Plan, Planned, Scheduler
from .library import Explained, Meaning, Refusal, Run, Zanderanvil
from .sweep import Case, Row, Study, survey, sweep

__all__ = [
    "Block", "Case", "Dependence", "Difference", "Drawing", "Evaluation", "Explained", "Laboratory", "Meaning", "Plan", "Planned", "Refusal",
    "Row", "Run", "Scheduler", "Spread", "Study", "Zanderanvil", "evaluate", "spread", "survey", "sweep",
]


def _version() -> str:
    """The version: in a checkout that of the file VERSION, and else of what is installed."""
    folder = os.path.dirname(os.path.dirname(os.path.abspath(__file__)))
    if os.path.isfile(os.path.join(folder, "pyproject.toml")):
        with open(os.path.join(os.path.dirname(folder), "VERSION"), encoding="ascii") as file:
            return file.read().strip()
    return importlib.metadata.version("zanderanvil")


__version__ = _version()
