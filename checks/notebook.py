#!/usr/bin/env python3
"""Executes docs/study.ipynb anew in a copy of what it reads, and compares the outputs with the stored ones, and its table with docs/STUDY.md.

usage: checks/notebook.py [--write]

It needs nbformat, nbclient and ipykernel (Debian's python3-nbformat, python3-nbclient, python3-ipykernel), for this Python or for
/usr/bin/python3. With --write it stores the outputs in the notebook.
"""
import os
import re
import shutil
import subprocess
import sys
import tempfile

import common
from common import TOP, tell

NEEDED = ("nbformat", "nbclient", "ipykernel")
DEBIAN = "/usr/bin/python3"
NOTEBOOK, SECONDS = "study.ipynb", 300
READ = ("docs/study.ipynb", "docs/study.csv", "docs/STUDY.md", "python/zanderanvil", "python/pyproject.toml", "VERSION")


def need_modules():
    """Goes on in a Python that has the modules, or ends the check."""
    question = f"import {', '.join(NEEDED)}"
    if subprocess.run([sys.executable, "-c", question], capture_output=True, check=False).returncode == 0:
        return
    if sys.executable != DEBIAN and os.access(DEBIAN, os.X_OK) \
            and subprocess.run([DEBIAN, "-c", question], capture_output=True, check=False).returncode == 0:
        os.execv(DEBIAN, [DEBIAN, "-B", *sys.argv])
    common.skip(f"{', '.join(NEEDED)}: one of them is missing")


def shown(cell):
    """Returns what a cell shows: each output as its kind and its text."""
    found = []
    for output in cell.get("outputs", []):
        if output["output_type"] == "stream":
            if output["name"] == "stdout":
                found.append(("stdout", output["text"]))
        else:
            found += [(kind, text) for kind, text in sorted(output.get("data", {"error": str(output)}).items())]
    return found


def execute(folder):
    """Returns the stored notebook, and the same one executed in a folder."""
    import nbclient
    import nbformat
    stored, fresh = (nbformat.read(f"{folder}/docs/{NOTEBOOK}", 4) for _ in range(2))
    for cell in fresh.cells:
        if cell.cell_type == "code":
            cell.outputs, cell.execution_count = [], None
    resources = {"metadata": {"path": f"{folder}/docs"}}
    try:
        nbclient.NotebookClient(fresh, timeout=SECONDS, kernel_name="python3", resources=resources, record_timing=False).execute()
    except (nbclient.exceptions.CellExecutionError, nbclient.exceptions.CellTimeoutError) as error:
        tell("the notebook is executed", False, str(error)[-300:])
    return stored, fresh


def write(fresh):
    """Stores the outputs in the notebook."""
    import nbformat
    fresh.metadata = {"kernelspec": {"name": "python3", "display_name": "Python 3", "language": "python"}}
    for cell in fresh.cells:
        cell.metadata = {}
    nbformat.write(fresh, f"{TOP}/docs/{NOTEBOOK}")


def compare(stored, fresh, page):
    """Compares the outputs of each cell, and the table with the page's."""
    printed = ""
    for number, (kept, now) in enumerate(zip(stored.cells, fresh.cells), 1):
        if kept.cell_type != "code":
            continue
        wanted, found = shown(kept), shown(now)
        tell(f"cell {number} shows what is stored", bool(wanted) and wanted == found, f"{found}"[:400], len(wanted) or 1)
        printed += "".join(text for kind, text in found if kind == "stdout")
    table = re.findall(r"^\| \w+ against \w+ \|.*$", printed, re.M)
    tell("the table is the first one of STUDY.md", len(table) == 3 and "\n".join(table) in page, "\n".join(table), len(table) or 1)


def main(words):
    if words not in ([], ["--write"]):
        common.wrong_arguments(f"unexpected argument {words[0]}")
    need_modules()
    os.environ.update(PYTHONDONTWRITEBYTECODE="1", PYDEVD_DISABLE_FILE_VALIDATION="1")
    with tempfile.TemporaryDirectory(prefix="notebook-") as folder:
        for it in READ:
            to = f"{folder}/{it}"
            os.makedirs(os.path.dirname(to), exist_ok=True)
            if os.path.isdir(f"{TOP}/{it}"):
                shutil.copytree(f"{TOP}/{it}", to, ignore=shutil.ignore_patterns("__pycache__"))
            else:
                shutil.copy(f"{TOP}/{it}", to)
        stored, fresh = execute(folder)
        with open(f"{folder}/docs/STUDY.md", encoding="utf-8") as file:
            page = file.read()
    if words:
        write(fresh)
        stored = fresh
    compare(stored, fresh, page)
    return common.finish("notebook.py", "outputs")


if __name__ == "__main__":
    sys.exit(main(sys.argv[1:]))
