#!/usr/bin/env python3
"""Files that ./mx and the installed zanderanvil write: completely or not at all, and never one that is read.

usage: checks/files.py

The cases run in a small repository with a toolchain of this check (checks/tiny.py). Where the environment names programs (MX_RUN,
MX_LAB), these run as well, on a disk that is full where this user may mount one.
"""
import contextlib
import os
import pty
import shutil
import stat
import subprocess
import sys
import threading
import time

from tiny import TOP, Tally, Tiny, end, has_terminals, read, write

OLD = "an old and good file\n"
SIZE_OF_DISK = "64k"


class Caller:
    """Calls commands by ./mx or by the installed program, in a folder of the check."""

    def __init__(self, tiny, name, words):
        self.tiny, self.name, self.words, self.folder = tiny, name, words, f"{tiny.folder}/work {name}"
        os.makedirs(self.folder)

    def __call__(self, *words, **more):
        how = {"stdin": subprocess.DEVNULL, "capture_output": True, "text": True, "timeout": 60}
        given = {it: more.pop(it) for it in ("stdin", "input") if it in more}
        if "input" in given:
            how.pop("stdin")
        return subprocess.run([*self.words, *words], cwd=self.folder, env=self.tiny.environment(MX_QUIET="1", **more), **{**how, **given})

    def path(self, name):
        return f"{self.folder}/{name}"

    def put(self, name, text=OLD):
        write(self.path(name), text)

    def has(self, name, text=OLD):
        return os.path.exists(self.path(name)) and read(self.path(name)) == text

    def left(self):
        """Returns the files that a run has left beside those that were named."""
        return [it for it in os.listdir(self.folder) if it.startswith(".")]


def inputs_stay(tally, call):
    """An output that is an input is refused."""
    commands = (("build", "s", "s"), ("build", "s", "./s"), ("build", "s", "link"), ("build", "s", "second"), ("draw", "s", "-o", "s"),
                ("draw", "s", "-os"), ("draw", "s", "--output=s"), ("draw", "s", "--output", "link"), ("draw", "-o=s", "s"),
                ("draw", "s", "--input", "i", "-o", "i"), ("profile", "s", "--interrupts=i", "-o", "i"), ("compare", "t", "s", "-o", "s"),
                ("plans", "t", "s", "-o", "s"), ("check", "--all", "s", "-o", "s"))
    for words in commands:
        for name in ("s", "t", "i"):
            call.put(name)
        for name, make in (("link", os.symlink), ("second", os.link)):
            if os.path.lexists(call.path(name)):
                os.remove(call.path(name))
            make(call.path("s"), call.path(name))
        ran = call(*words)
        lines = ran.stderr.splitlines()
        refused = ran.returncode == 2 and len(lines) == 1 and "is both an input and the output" in lines[0] and not ran.stdout
        tally.need(refused and call.has("s") and call.has("i"), f"{call.name} {' '.join(words)} is refused", ran)
    os.remove(call.path("second"))
    call.put("line")
    ran = call("profile", "s", "--by", "line", "-o", "line")
    tally.need(ran.returncode == 0 and call.has("line", "profile done\n"), f"{call.name}: a word that is no file is none", ran)
    with open(call.path("s"), encoding="utf-8") as it:
        ran = call("draw", "-", "-o", "s", stdin=it)
    tally.need(ran.returncode == 2 and call.has("s"), f"{call.name}: standard input is an input", ran)


def full_disk(tally, call):
    """A program that cannot write all of its file."""
    for words, name in ((("build", "s", "old"), "old"), (("migrate", "old", "old"), "old"), (("draw", "s", "-o", "old"), "old"),
                        (("draw", "s", "--output=link"), "old"), (("build", "s", "new"), "new"), (("draw", "s", "-onew"), "new")):
        call.put("s")
        call.put("old")
        os.remove(call.path("link"))
        os.symlink("old", call.path("link"))
        ran = call(*words, FULL="yes")
        kept = call.has("old") and not os.path.exists(call.path("new"))
        shown = words[-1].rpartition("=")[2].removeprefix("-o")
        told = ".mx-" not in ran.stderr and f"cannot be written: {shown}" in ran.stderr
        tally.need(ran.returncode == 5 and kept and told and not call.left(), f"{call.name} {' '.join(words)} on a full disk keeps {name}", ran)


def replaced(tally, call):
    """What is replaced, and what is written as it is."""
    call.put("s")
    call.put("old")
    os.chmod(call.path("old"), 0o640)
    before = os.stat(call.path("old"))
    ran = call("build", "s", "old")
    after = os.stat(call.path("old"))
    tally.need(ran.returncode == 0 and call.has("old", "image of s\n") and stat.S_IMODE(after.st_mode) == 0o640,
               f"{call.name}: an old file is replaced, with its permissions", ran)
    tally.need(after.st_ino != before.st_ino, f"{call.name}: by another file")
    ran = call("migrate", "old", "old")
    tally.need(ran.returncode == 0 and call.has("old", "image of old\n"), f"{call.name}: migrate may write over what it reads", ran)
    call.put("real")
    os.symlink("real", call.path("leads"))
    ran = call("draw", "s", "-o", "leads")
    tally.need(ran.returncode == 0 and os.path.islink(call.path("leads")) and call.has("real", "draw done\n"), f"{call.name}: a link stays one", ran)
    ran = call("draw", "s", "-o", "/dev/stdout")
    tally.need(ran.returncode == 0 and ran.stdout == "draw done\n", f"{call.name}: a pipe is written", ran)
    with open(call.path("out"), "w", encoding="utf-8") as it:
        number = os.fstat(it.fileno()).st_ino
        subprocess.run([*call.words, "draw", "s", "-o", "/dev/stdout"], cwd=call.folder, env=call.tiny.environment(MX_QUIET="1"), stdout=it)
    tally.need(call.has("out", "draw done\n") and os.stat(call.path("out")).st_ino == number, f"{call.name}: /dev/stdout is not replaced")
    ran = call("draw", "s", "-o", "/dev/null")
    tally.need(ran.returncode == 0 and stat.S_ISCHR(os.stat("/dev/null").st_mode), f"{call.name}: a device stays one", ran)
    os.mkfifo(call.path("fifo"))
    got = []
    reader = threading.Thread(target=lambda: got.append(read(call.path("fifo"))))
    reader.start()
    ran = call("build", "s", "fifo")
    reader.join(10)
    tally.need(got == ["image of s\n"] and stat.S_ISFIFO(os.stat(call.path("fifo")).st_mode), f"{call.name}: a FIFO stays one", ran)
    os.mkdir(call.path("folder"))
    for name in ("folder", "none/new"):
        ran = call("build", "s", name)
        tally.need(ran.returncode == 5 and os.path.isdir(call.path("folder")), f"{call.name}: {name} is refused by its program", ran)
    ran = call("draw", "s", "-o", "status", STATUS="3")
    tally.need(ran.returncode == 3 and call.has("status", "draw done\n"), f"{call.name}: an output with another status is kept", ran)
    for name in ("a file", "it's", "-o", "é", "x" * 255):
        ran = call("draw", "s", "-o", name)
        tally.need(ran.returncode == 0 and call.has(name, "draw done\n"), f"{call.name}: a file with the name {name[:10]!r}", ran)
    tally.need(not call.left(), f"{call.name}: nothing else is left", call.left())


def printed(tally, call):
    """What a command of the toolchain prints goes to the file of -o, unless it fails."""
    call.put("s")
    for words in (("run", "s", "-o", "out"), ("run", "-oout", "s"), ("list", "s", "--output=out"), ("meaning", "--output", "out", "s")):
        call.put("out")
        ran = call(*words)
        tally.need(ran.returncode == 0 and not ran.stdout and call.has("out", f"{words[0]} done\n"), f"{call.name} {' '.join(words)}", ran)
    ran = call("run", "s", "-o", "out", STATUS="3")
    tally.need(ran.returncode == 3 and call.has("out", "run done\n"), f"{call.name}: also of a run out of budget", ran)
    call.put("out")
    ran = call("run", "s", "-o", "out", STATUS="1")
    tally.need(ran.returncode == 1 and ran.stdout == "run done\n" and call.has("out"), f"{call.name}: a refused source goes to standard output", ran)
    for words in (("run", "s", "-o", "s"), ("share", "t", "s", "-os"), ("run", "t", "--input", "s", "--output=s")):
        ran = call(*words)
        tally.need(ran.returncode == 2 and call.has("s") and "both an input" in ran.stderr, f"{call.name} {' '.join(words)} is refused", ran)
    ran = call("run", "s", "-o", "/dev/stdout")
    tally.need(ran.returncode == 0 and ran.stdout == "run done\n", f"{call.name}: a pipe is written", ran)
    for words in (("run", "s", "-o"), ("run", "s", "-o", "")):
        ran = call(*words)
        tally.need(ran.returncode == 2 and "missing value" in ran.stderr, f"{call.name} {' '.join(words)} without a file", ran)
    ran = call("run", "s", "-o", "none/out")
    tally.need(ran.returncode == 5 and "none/out" in ran.stderr, f"{call.name}: a folder that is not there is named", ran)
    old = os.umask(0o077)
    ran = call("run", "s", "-o", "private")
    os.umask(old)
    tally.need(stat.S_IMODE(os.stat(call.path("private")).st_mode) == 0o600, f"{call.name}: a new file has the permissions of new files", ran)
    tally.need(not call.left(), f"{call.name}: nothing else is left", call.left())


def on_terminal(tally, call):
    """On a terminal the program still has one for its messages."""
    if not has_terminals():
        return
    call.put("s")
    call.put("old")
    for more, status in (({}, 0), ({"FULL": "yes"}, 5)):
        pid, terminal = pty.fork()
        if pid == 0:
            os.chdir(call.folder)
            os.execve(call.words[0], [*call.words, "draw", "s", "-o", "old"], call.tiny.environment(MX_QUIET="1", TERMINAL="yes", **more))
        said = b""
        with contextlib.suppress(OSError):
            while piece := os.read(terminal, 4096):
                said += piece
        ended_with = os.waitstatus_to_exitcode(os.waitpid(pid, 0)[1])
        os.close(terminal)
        holds = ended_with == status and b"a terminal" in said and b".mx-" not in said and (status == 0 or b"cannot be written: old" in said)
        tally.need(holds, f"{call.name}: messages on a terminal, with status {status}", f"{ended_with} {said!r}")
    tally.need(call.has("old", "draw done\n") and not call.left(), f"{call.name}: and the file is as it should be")


def installs(tally, tiny):
    """The installation, over one that runs."""
    prefix = f"{tiny.folder}/prefix"
    ran = tiny.mx("install", "")
    tally.need(ran.status == 2 and "usage" in ran.errors and not os.path.exists("/bin/zanderanvil"), "install '' is refused", ran)
    ran = tiny.mx("install", prefix)
    tally.need(ran.status == 0, "install", ran)
    program = f"{prefix}/libexec/zanderanvil/mx_run"
    # (a program that runs cannot be written to: `cp` of another one over it fails)
    shutil.copy(shutil.which("sleep"), program)
    running = subprocess.Popen([program, "60"])
    time.sleep(0.2)
    ran = tiny.mx("install", prefix)
    tally.need(ran.status == 0 and running.poll() is None and "generation 1" in read(program), "install replaces a program that runs", ran)
    end(running)
    said = subprocess.run([f"{prefix}/bin/zanderanvil", "--version"], capture_output=True, text=True).stdout
    tally.need(said.endswith("), proved\n"), "the installed program is called proved", said)
    write(program, "#!/bin/sh\n", 0o755)
    said = subprocess.run([f"{prefix}/bin/zanderanvil", "--version"], capture_output=True, text=True).stdout
    tally.need("not the program that was proved" in said, "another program in its place is not", said)
    for what, place in (("a file in the place of a folder", "share/man"), ("a folder in the place of a file", "bin/zanderanvil")):
        half = f"{tiny.folder}/half of {what}"
        write(f"{half}/{place}", "") if what.startswith("a file") else os.makedirs(f"{half}/{place}/inner")
        before = sorted(os.walk(half))
        ran = tiny.mx("install", half)
        tally.need(ran.status != 0 and len(ran.errors.splitlines()) <= 2 and sorted(os.walk(half)) == before, f"install: {what} leaves nothing", ran)


def libraries(tally, tiny):
    """The library for other languages, in place of an earlier one."""
    folder = f"{tiny.folder}/lib"
    names = ("libzanderanvil.so.1", "libzanderanvil.a", "zanderanvil.h")
    ran = tiny.mx("library", folder)
    tally.need(ran.status == 0 and all(os.path.getsize(f"{folder}/{it}") for it in names), "./mx library leaves its files", ran)
    tally.need(os.readlink(f"{folder}/libzanderanvil.so") == names[0], "libzanderanvil.so leads to libzanderanvil.so.1")
    shown = subprocess.run(["readelf", "-d", f"{folder}/{names[0]}"], capture_output=True, text=True, env={**os.environ, "LC_ALL": "C"}).stdout
    tally.need("[libzanderanvil.so.1]" in shown, "its soname is libzanderanvil.so.1", shown)
    before = {it: os.stat(f"{folder}/{it}").st_ino for it in names}
    kept = os.open(f"{folder}/{names[0]}", os.O_RDONLY)
    size = os.fstat(kept).st_size
    ran = tiny.mx("library", folder)
    tally.need(all(os.stat(f"{folder}/{it}").st_ino != before[it] for it in names) and os.fstat(kept).st_size == size,
               "its files are replaced, and who has one open keeps it", ran)
    os.close(kept)
    write(f"{tiny.kit}/c/liblibc_c.a", "no archive")
    before = {it: os.stat(f"{folder}/{it}").st_ino for it in names}
    ran = tiny.mx("library", folder)
    same = all(os.stat(f"{folder}/{it}").st_ino == before[it] for it in names)
    tally.need(ran.status != 0 and same and sorted(os.listdir(folder)) == sorted([*names, "libzanderanvil.so"]), "one that fails changes nothing", ran)


def real_programs(tally, tiny):
    """The real programs on a disk that is full."""
    programs = {name: os.environ.get(name) for name in ("MX_RUN", "MX_LAB")}
    if not shutil.which("unshare"):
        print("skipped: unshare is missing")
        return
    disk = f"{tiny.folder}/disk"
    os.mkdir(disk)
    launch = f"{sys.executable} {TOP}/tools/launch.py"
    cases = (("MX_RUN", "build h old"), ("MX_RUN", "migrate i i"), ("MX_LAB", "draw h --cycles 100000 --as html -o old"))
    for name, words in cases:
        if not programs[name]:
            print(f"skipped: {words}: {name} is not set")
            continue
        script = f"""mount -t tmpfs -o size={SIZE_OF_DISK} none {disk} || exit 77
cd {disk} && cp {TOP}/examples/hello.s h && cp {TOP}/examples/hello.mxi i && echo good >old && cat i old >{tiny.folder}/before
dd if=/dev/zero of=fill bs=1k >/dev/null 2>&1
{launch} {programs[name]} {words} >{tiny.folder}/said 2>&1
echo $? >>{tiny.folder}/said
cat i old | cmp - {tiny.folder}/before && ls -A"""
        ran = subprocess.run(["unshare", "-rm", "sh", "-c", script], capture_output=True, text=True)
        if ran.returncode == 77 or "unshare" in ran.stderr:
            print(f"skipped: {words}: no disk can be mounted here")
            continue
        said = read(f"{tiny.folder}/said")
        holds = ran.stdout.split() == ["fill", "h", "i", "old"] and said.endswith("5\n") and ".mx-" not in said
        tally.need(holds, f"{words} by the real program on a full disk changes nothing", f"{ran}\n{said}")


def main():
    if len(sys.argv) != 1:
        print(__doc__.strip(), file=sys.stderr)
        return 2
    tally, tiny = Tally("files"), Tiny()
    try:
        tiny.mx("prove", "mx_run", "mx_lab")
        tiny.mx("install", f"{tiny.folder}/prefix")
        for name, words in (("mx", [f"{tiny.top}/mx"]), ("zanderanvil", [f"{tiny.folder}/prefix/bin/zanderanvil"])):
            call = Caller(tiny, name, words)
            for case in (inputs_stay, full_disk, replaced, printed, on_terminal):
                tally.run(case, call)
        for case in (installs, libraries, real_programs):
            tally.run(case, tiny)
    finally:
        tiny.remove()
    return tally.status()


if __name__ == "__main__":
    sys.exit(main())
