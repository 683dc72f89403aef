#!/usr/bin/env python3
"""Makes a Debian package of the programs that are built, installs it into an empty root, and runs what is installed.

usage: checks/package.py

The package is one of programs without proofs: this is about the package, and its version and description have to say so. It needs
dpkg-deb; dpkg installs it where this is run by root, and the shells that are there parse the completions.
"""
import gzip
import os
import re
import shutil
import subprocess
import sys
import tempfile

import common

PREFIX = "usr"
CHECKED_SHELLS = (("bash", "-n", "bash-completion/completions/zanderanvil"), ("zsh", "-n", "zsh/site-functions/_zanderanvil"),
                  ("fish", "--no-execute", "fish/vendor_completions.d/zanderanvil.fish"))


def run(words, **more):
    """Runs a program, and returns how it ended."""
    return subprocess.run(words, capture_output=True, text=True, errors="replace", check=False, stdin=subprocess.DEVNULL, **more)


def make(folder):
    """Makes the package as a user whose files are for nobody else, and returns its path."""
    own = os.umask(0o077)
    said = run([f"{common.TOP}/mx", "package", "--unproved", folder])
    os.umask(own)
    made = [it for it in os.listdir(folder) if it.endswith(".deb")]
    common.tell("the package is made", said.returncode == 0 and len(made) == 1 and os.listdir(folder) == made, said.stderr)
    return f"{folder}/{made[0]}" if made else None


def compare_description(package):
    """Compares what the package says of itself."""
    fields = run(["dpkg-deb", "--field", package]).stdout
    with open(f"{common.TOP}/VERSION", encoding="utf-8") as it:
        number = it.read().strip()
    common.tell("its version says that it is unproved", f"Version: {number}+unproved\n" in fields, fields)
    common.tell("its description says that it is unproved", "NOT proved" in fields, fields)


def unpack(package, folder):
    """Installs the package into an empty root: by dpkg where that may, and unpacks it in any case. Returns the roots."""
    unpacked, installed = f"{folder}/unpacked", f"{folder}/installed"
    said = run(["dpkg-deb", "--extract", package, unpacked])
    common.tell("dpkg-deb unpacks it", said.returncode == 0, said.stderr)
    if os.geteuid() != 0 or shutil.which("dpkg") is None:
        return [unpacked]
    os.makedirs(f"{installed}/var/lib/dpkg/updates")
    os.makedirs(f"{installed}/var/lib/dpkg/info")
    for name in ("status", "available"):
        with open(f"{installed}/var/lib/dpkg/{name}", "w", encoding="utf-8"):
            pass
    # (an empty root has no C library that dpkg knows of)
    said = run(["dpkg", f"--root={installed}", "--force-depends", "--force-not-root", "--log=/dev/null", "--install", package])
    common.tell("dpkg installs it into an empty root", said.returncode == 0, said.stderr)
    return [unpacked, installed]


def compare_runs(root):
    """Compares what the installed command prints."""
    command, name = f"{root}/{PREFIX}/bin/zanderanvil", os.path.basename(root)
    with open(f"{common.TOP}/crates/mx_run/stdout", encoding="utf-8") as it:
        report = it.read()
    examples = f"{root}/{PREFIX}/share/doc/zanderanvil/examples"
    with tempfile.TemporaryDirectory(prefix="package-run-") as folder:
        environment = {"PATH": os.environ["PATH"], "HOME": folder}
        how = {"cwd": folder, "env": environment}
        said = run([command, "run", f"{examples}/hello.s"], **how)
        common.tell(f"{name}: run hello.s", (said.returncode, said.stdout, said.stderr) == (0, report, ""), said.stdout + said.stderr)
        said = run([command, "run", f"{examples}/hello.s", "-o", "report"], **how)
        with open(f"{folder}/report", encoding="utf-8") as it:
            common.tell(f"{name}: run hello.s -o report", (said.returncode, it.read(), said.stdout) == (0, report, ""), said.stderr)
        with open(f"{folder}/f.s", "w", encoding="utf-8") as it:
            it.write("frob\n")
        said = run([command, "run", "f.s"], **how)
        wanted = "f.s:1:1: error[F3]: unknown instruction 'frob'"
        common.tell(f"{name}: run f.s", said.returncode == 1 and said.stderr.startswith(wanted), said.stderr)
        said = run([command, "draw", "--budget", "x", "f.s"], **how)
        common.tell(f"{name}: hints name the installed command", "zanderanvil draw --help" in said.stderr, said.stderr)
        said = run([command, "explain", "F3"], **how)
        common.tell(f"{name}: explain F3", said.returncode == 0 and said.stdout.startswith("F3 "), said.stdout + said.stderr)
        said = run([command, "--version"], **how)
        common.tell(f"{name}: --version", "+unproved" in said.stdout and not said.stdout.rstrip().endswith(", proved"), said.stdout)


def compare_files(root):
    """Compares the manual pages, the completions and the documents."""
    share = f"{root}/{PREFIX}/share"
    said = run([f"{root}/{PREFIX}/bin/zanderanvil", "--help"]).stdout
    names = re.findall(r"(?m)^  ([a-z]+)[ ,]", said)
    commands = [it for it in names if it not in ("prove", "test", "install", "package", "library", "cc", "c", "translate", "serve")]
    for name in commands:
        path = f"{share}/man/man1/zanderanvil-{name}.1.gz"
        text = gzip.open(path, "rt", encoding="utf-8").read() if os.path.exists(path) else ""
        common.tell(f"the manual page of {name}", ".SH NAME" in text and ".SH SYNOPSIS" in text, text[:80])
    common.tell("each command has a line in --help", len(commands) > 15, commands)
    for shell, option, path in CHECKED_SHELLS:
        if shutil.which(shell):
            said = run([shell, option, f"{share}/{path}"])
            common.tell(f"{shell} parses its completion", said.returncode == 0 and not said.stderr, said.stderr)
    for name in ("README.md", "docs/SOURCE.md", "copyright"):
        common.tell(f"the document {name}", os.path.getsize(f"{share}/doc/zanderanvil/{name}") > 0)


def main(words):
    if words:
        common.wrong_arguments("usage: checks/package.py")
    common.need_tools("dpkg-deb")
    os.environ.update(MX_RUN=common.program("mx_run"), MX_LAB=common.program("mx_lab"), MX_QUIET="1")
    with tempfile.TemporaryDirectory(prefix="package-") as folder:
        made = f"{folder}/made"
        os.mkdir(made)
        package = make(made)
        if package:
            compare_description(package)
            roots = unpack(package, folder)
            for root in roots:
                compare_runs(root)
            compare_files(roots[0])
    return common.finish("package.py", "things of a package")


if __name__ == "__main__":
    sys.exit(main(sys.argv[1:]))
