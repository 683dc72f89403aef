#!/usr/bin/env python3
"""Compares schedulers over the examples and generated sources by `evaluate` of the Python module, and its statistics with plain ones.

usage: checks/evaluate.py
"""
import math
import os
import statistics
import subprocess
import sys
import tempfile
import xml.etree.ElementTree as ElementTree
from concurrent.futures import ProcessPoolExecutor, ThreadPoolExecutor

import common
from common import TOP, tell

sys.path.insert(0, f"{TOP}/python")
sys.path.insert(0, f"{TOP}/examples/embed")
from study import transfers_first  # noqa: E402
from zanderanvil import Case, Evaluation, evaluate, spread  # noqa: E402

GENERATED, BUDGET = (4 if common.IS_SAMPLE else 12), 20_000
SCHEDULERS = {"padded": "padded", "list": "list", "best": "best", "own": transfers_first}
# Student's quantile of two and of four differences, which a table of another book has too.
QUANTILES = {2: 12.706, 4: 3.182}


def corpus():
    """Returns sources by their names: the examples that halt, and generated ones."""
    found = {}
    for name in sorted(os.listdir(f"{TOP}/examples")):
        if name.endswith(".s") and name not in ("emit.s", "letters.s", "ping.s", "pong.s"):
            with open(f"{TOP}/examples/{name}", "rb") as file:
                found[name] = Case(name, file.read(), input=b"021", budget=BUDGET)
    for seed in range(GENERATED):
        made = subprocess.run([common.program("mx_run"), "gen", str(seed), "40"], capture_output=True, check=True).stdout
        found[f"generated {seed}"] = Case(f"generated {seed}", made, budget=BUDGET)
    return found


def compare_records(program, sources):
    found = evaluate(program, SCHEDULERS, sources)
    wanted = [(name, it) for name in sources for it in SCHEDULERS]
    tell("a record for each source and scheduler", [(it["source"], it["scheduler"]) for it in found.records] == wanted, str(found.records[:2]))
    tell("each halts, and none is refused", all(it.get("halted") for it in found.records), str([it for it in found.records if not it.get("halted")][:2]))
    longer = [name for name, it in found.figures("padded", "words").items() if it < found.figures("best", "words")[name]]
    tell("no shortest plan is longer than the padded one", not longer, str(longer))
    one = {it["scheduler"]: it for it in found.records if it["source"] == "full_slots.s"}
    tell("full_slots.s: 7, 5, 4 words, and 4 by a scheduler of one's own", [one[it]["words"] for it in SCHEDULERS] == [7, 5, 4, 4], str(one))
    compare_fetches(sources)
    tell("rejected plans are counted", any(it["rejected"] for it in found.records if it["scheduler"] == "own"))
    with ThreadPoolExecutor(4) as pool:
        tell("threads give the same records", evaluate(program, SCHEDULERS, sources, pool).records == found.records)
    few = dict(list(sources.items())[:3])
    with ProcessPoolExecutor(2) as pool:
        tell("processes give the same records", evaluate(program, SCHEDULERS, few, pool).records == found.records[:12])
    return found


def compare_fetches(sources):
    """The fetches of the schedulers that `compare` knows are those of a run: `copies` is that of `run`."""
    own = evaluate(common.program("mx_lab"), {"copies": "copies"}, sources)
    for name, case in sources.items():
        with tempfile.TemporaryDirectory() as folder:
            for file, content in (("source", case.source), ("input", case.input or b"")):
                with open(f"{folder}/{file}", "wb") as it:
                    it.write(content)
            words = ["run", f"{folder}/source", "--budget", str(BUDGET), *(["--input", f"{folder}/input"] if case.input else [])]
            report = subprocess.run([common.program("mx_run"), *words], capture_output=True, check=True).stdout.decode("latin-1").split("\n")
        wanted = [int(line.split()[1]) for line in report[1:7] if line.split()[0] in ("cycles", "fetches", "misses")]
        seen = [own.figures("copies", it).get(name) for it in ("cycles", "fetches", "misses")]
        tell(f"{name}: cycles, fetches and misses of `copies` are those of `run`", seen == wanted, f"{seen} {wanted}")


def compare_statistics(found):
    values = [3.0, -1.0, 4.5]
    it = spread(values)
    holds = (it.count, it.least, it.most) == (3, -1.0, 4.5) and math.isclose(it.deviation, statistics.stdev(values)) and not it.is_shown
    tell("the spread of three numbers", holds and math.isclose(it.high - it.mean, 4.303 * statistics.stdev(values) / math.sqrt(3)), str(it))
    tell("the spread of none and of one", spread([]).count == 0 and math.isnan(spread([2]).low) and not spread([2]).is_shown)
    for second in ("list", "best"):
        for it in found.differences(second):
            one, other = found.figures(it.first, "cycles"), found.figures(second, "cycles")
            values = [100 * (one[name] - other[name]) / other[name] for name in one]
            error = statistics.stdev(values) / math.sqrt(len(values))
            holds = math.isclose(it.mean, statistics.mean(values), abs_tol=1e-9) and it.count == it.less + it.same + it.more == len(values)
            tell(f"{it.first} against {second}: the mean and the counts", holds, str(it))
            tell(f"{it.first} against {second}: the interval", error == 0 or 1.9 < (it.high - it.mean) / error < 2.3, str(it))
    for count, quantile in QUANTILES.items():
        pairs = [{"source": str(n), "scheduler": name, "halted": True, "cycles": cycles} for n in range(count)
                 for name, cycles in (("a", 100 + n), ("b", 100))]
        it = Evaluation(pairs).difference("a", "b")
        error = statistics.stdev(range(count)) / math.sqrt(count)
        tell(f"the interval of {count} differences", math.isclose(it.high - it.mean, quantile * error, rel_tol=1e-9), str(it))
    one = Evaluation([{"source": "x", "scheduler": name, "halted": True, "cycles": 5} for name in "ab"]).difference("a", "b")
    tell("one source shows nothing", not one.is_shown and "too few" in str(one), str(one))
    same = Evaluation([{"source": str(n), "scheduler": name, "halted": True, "cycles": 5 + n} for n in range(3) for name in "ab"]).difference("a", "b")
    tell("equal schedulers show no difference", not same.is_shown and same.same == 3, str(same))


def compare_picture(found):
    picture = ElementTree.fromstring(found.plot("list"))
    tell("the picture has a mark for each scheduler", len(picture.findall("{http://www.w3.org/2000/svg}circle")) == len(SCHEDULERS) - 1)


def refuse(program, sources):
    name, source = next(iter(sources.items()))
    records = evaluate(program, {"list": "list", "own": transfers_first}, {"faulty": b"frob\n", name: source}).records
    tell("a faulty source is refused, and the others are not", [("refused" in it) for it in records] == [True, True, False, False], str(records))
    try:
        evaluate(program, ["greedy"], sources)
        tell("an unknown scheduler", False, "no error")
    except ValueError as error:
        tell("an unknown scheduler", "greedy" in str(error), str(error))


def main():
    if len(sys.argv) > 1:
        common.wrong_arguments(f"unexpected argument {sys.argv[1]}")
    program = common.program("mx_lab")
    sources = corpus()
    found = compare_records(program, sources)
    compare_statistics(found)
    compare_picture(found)
    refuse(program, sources)
    return common.finish("evaluate.py", "records and figures", common.compared + len(found.records))


if __name__ == "__main__":
    sys.exit(main())
