#!/usr/bin/env python3
"""Makes a Debian package of the proved toolchain and laboratory in a folder, so that a second machine needs no toolchain.

usage: build/package.py VERSION COMMIT [--unproved] DIR

The package holds what tools/install.py puts below a folder, here /usr, and besides a manual page for each command, the documents and
the examples. With --unproved it has the programs that are built without proofs, or those that MX_RUN and MX_LAB name; its version then
ends with `+unproved`, its description says so, and so does `zanderanvil --version`. It needs dpkg-deb.
"""
import gzip
import hashlib
import os
import shutil
import subprocess
import sys
import tempfile

TOP = os.path.dirname(os.path.dirname(os.path.abspath(__file__)))
sys.path.append(f"{TOP}/tools")
import install  # noqa: E402

DOCUMENTS = "usr/share/doc/zanderanvil"
ARCHITECTURE = "amd64"
MAINTAINER = "Zanderanvil maintainers <maintainers@users.noreply.zanderanvil.example>"
DESCRIPTION = """Description: assembler, reorganizer, linker and simulator for MIPS-X
 Zanderanvil assembles sequential sources for MIPS-X, rearranges each basic
 block for the pipeline without interlocks, links them, and runs them cycle by
 cycle, with interrupts at the cycles that are asked for."""
PROVED = """
 .
 The programs of this package are proved: reordering keeps the meaning of
 every source, also where an interrupt comes between two moved instructions."""
UNPROVED = """
 .
 The programs of this package are NOT proved: they were built for a trial."""
# Debian compresses manual pages and the list of changes, without the time of day.
PACK = {"compresslevel": 9, "mtime": 0}
USAGE, WRITE_FAULT, FAILED = 2, 5, 10


def built_programs():
    """Returns the programs that are built without proofs, each with its bytes."""
    found = {}
    for name in install.PROGRAMS:
        with open(os.environ.get(name.upper()) or f"{TOP}/.mx/{name}", "rb") as it:
            found[name] = it.read()
    return found


def page_of(name, version):
    """Returns the manual page of a command."""
    command, roff = install.COMMANDS[name], install.roff
    title = f"zanderanvil-{name}"
    synopsis = f"{'[OPTIONS] ' if command.options else ''}{command.names}"
    lines = [f'.TH {title.upper()} 1 "" "zanderanvil {version}"', ".SH NAME", roff(f"{title} ") + "\\- " + roff(command.text), ".SH SYNOPSIS",
             ".B " + roff(f"zanderanvil {name}"), roff(synopsis), ".SH DESCRIPTION", roff(f"{command.text[0].upper()}{command.text[1:]}.")]
    if command.more:
        lines += [".PP", roff(command.more)]
    if command.options:
        lines += [".SH OPTIONS", "In parentheses: what holds without the option."]
    for option in command.options:
        lines += [".TP", ".B " + roff(f"{option.name} {option.value}".strip()), roff(option.text)]
    return "\n".join([*lines, ".SH SEE ALSO", ".BR zanderanvil (1)"]) + "\n"


def documents():
    """Returns the documents and the examples, by their paths."""
    found = {}
    for folder in ("docs", "docs/tutorial", "examples"):
        for name in sorted(os.listdir(f"{TOP}/{folder}")):
            path = f"{TOP}/{folder}/{name}"
            if os.path.isfile(path) and not name.endswith(".png"):
                with open(path, "rb") as it:
                    found[f"{DOCUMENTS}/{folder}/{name}"] = it.read()
    for name in ("README.md", "CHANGELOG.md"):
        with open(f"{TOP}/{name}", "rb") as it:
            found[f"{DOCUMENTS}/{name}"] = it.read()
    found[f"{DOCUMENTS}/changelog.gz"] = gzip.compress(found[f"{DOCUMENTS}/CHANGELOG.md"], **PACK)
    found[f"{DOCUMENTS}/copyright"] = b"Zanderanvil\n\nNo licence is chosen yet: all rights are the owner's.\n"
    return found


def files_of(version, programs, is_proved):
    """Returns the files of the package, by their paths below the root."""
    installed = install.contents(version, programs)
    if not is_proved:
        del installed["share/zanderanvil/proved"]
    files = {f"usr/{name}": content for name, content in installed.items()}
    pages = {"zanderanvil": files.pop("usr/share/man/man1/zanderanvil.1").decode()}
    pages.update({f"zanderanvil-{name}": page_of(name, version) for name in install.COMMANDS})
    files.update({f"usr/share/man/man1/{name}.1.gz": gzip.compress(text.encode(), **PACK) for name, text in pages.items()})
    return {**files, **documents()}


def control(number, files, is_proved):
    """Returns the package's description for dpkg."""
    size = sum(len(it) for it in files.values()) // 1024 + 1
    return f"""Package: zanderanvil
Version: {number}
Section: devel
Priority: optional
Architecture: {ARCHITECTURE}
Maintainer: {MAINTAINER}
Installed-Size: {size}
Depends: libc6
Recommends: python3
{DESCRIPTION}{PROVED if is_proved else UNPROVED}
"""


def write(root, files):
    """Writes files below a folder."""
    for name, content in files.items():
        path = f"{root}/{name}"
        os.makedirs(os.path.dirname(path), exist_ok=True)
        with open(path, "wb") as it:
            it.write(content)
        os.chmod(path, 0o755 if name.startswith(("usr/bin/", "usr/libexec/")) else 0o644)


def build(number, commit, programs, is_proved, folder):
    """Makes the package in a folder, and returns its path."""
    files = files_of(f"{number} ({commit})", programs, is_proved)
    sums = "".join(f"{hashlib.md5(content).hexdigest()}  {name}\n" for name, content in sorted(files.items()))
    package = f"{folder}/zanderanvil_{number}_{ARCHITECTURE}.deb"
    os.makedirs(folder, exist_ok=True)
    # (on the disk of the folder, so that the package is put there by one step)
    with tempfile.TemporaryDirectory(prefix=".package-", dir=folder) as root:
        os.chmod(root, 0o755)
        write(root, files)
        write(root, {"DEBIAN/control": control(number, files, is_proved).encode(), "DEBIAN/md5sums": sums.encode()})
        fresh = f"{root}.deb"
        try:
            subprocess.run(["dpkg-deb", "--root-owner-group", "--build", root, fresh], check=True, stdout=subprocess.DEVNULL)
            os.replace(fresh, package)
        finally:
            if os.path.exists(fresh):
                os.remove(fresh)
    return package


def main(words):
    is_proved = "--unproved" not in words
    given = [it for it in words if it != "--unproved"]
    if len(given) != 3:
        print(__doc__.strip(), file=sys.stderr)
        return USAGE
    if shutil.which("dpkg-deb") is None:
        print("zanderanvil: error: the command dpkg-deb is missing: install the Debian package dpkg", file=sys.stderr)
        return FAILED
    number, commit, folder = given
    # (what it holds is for all users of a machine, whatever this user hides from others)
    os.umask(0o022)
    programs = install.proved_programs() if is_proved else built_programs()
    package = build(number if is_proved else f"{number}+unproved", commit, programs, is_proved, os.path.abspath(folder))
    print(f"{package} is made: apt install {package} installs it")
    return 0


if __name__ == "__main__":
    try:
        sys.exit(main(sys.argv[1:]))
    except OSError as error:
        print(f"zanderanvil: error: {error.filename}: {error.strerror}", file=sys.stderr)
        sys.exit(WRITE_FAULT)
    except subprocess.CalledProcessError as error:
        print(f"zanderanvil: error: dpkg-deb ended with status {error.returncode}", file=sys.stderr)
        sys.exit(FAILED)
