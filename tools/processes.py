"""The processes that a tool starts: they end with it, whatever ends it."""
import contextlib
import ctypes
import fcntl
import os
import signal
import subprocess
import sys
import threading
import time

# Of prctl: which signal this process gets as its parent ends.
PR_SET_PDEATHSIG = 1
# The lines of a log that say how a build ended.
LAST_LINES = 20


ENDING = (signal.SIGINT, signal.SIGTERM, signal.SIGHUP)
# How long the main thread has for a signal until it gets it again.
SECONDS_TO_HANDLE = 0.05


class Held:
    """Whether an interrupt has to wait, as while a process starts of which nothing is known yet, the one that waits, and whether one
    has come to the main thread."""
    is_held, number, is_handled = False, None, False


def interrupt(number, _frame):
    Held.is_handled = True
    # (a second one must not disturb what the first one has begun: to end all and to clear up)
    for it in ENDING:
        signal.signal(it, lambda *_: None)
    if Held.is_held:
        Held.number = number
    else:
        raise KeyboardInterrupt(number)


@contextlib.contextmanager
def held():
    """Lets an interrupt wait until the block is done. Only the main thread gets any."""
    if threading.current_thread() is not threading.main_thread():
        yield
        return
    Held.is_held = True
    try:
        yield
    finally:
        Held.is_held = False
    if Held.number is not None:
        raise KeyboardInterrupt(Held.number)


def repeat(signals):
    """Sends a signal to the main thread until that has handled one. Python alone handles none where another thread got the signal, or
    where it came just before the main thread began to wait for something: that wait would go on."""
    while not Held.is_handled:
        number = os.read(signals, 1)[0]
        while number in ENDING and not Held.is_handled:
            signal.pthread_kill(threading.main_thread().ident, number)
            time.sleep(SECONDS_TO_HANDLE)


def end_by_signals():
    """Lets an interrupt, a request to end, a closed terminal and the end of ./mx raise KeyboardInterrupt, so that what was started
    is ended too. A signal that is ignored at the start, as by nohup, stays ignored."""
    signals, came = os.pipe()
    os.set_blocking(came, False)
    signal.set_wakeup_fd(came, warn_on_full_buffer=False)
    threading.Thread(target=repeat, args=(signals,), daemon=True).start()
    for number in ENDING:
        if signal.getsignal(number) != signal.SIG_IGN:
            signal.signal(number, interrupt)
    with contextlib.suppress(OSError, AttributeError):
        ctypes.CDLL(None).prctl(PR_SET_PDEATHSIG, signal.SIGTERM, 0, 0, 0)


class Commands:
    """The toolchain's commands that are running: where the block that is given them is left, they end."""

    def __init__(self):
        self.running, self.is_stopped = set(), False

    def __enter__(self):
        return self

    def __exit__(self, *_):
        self.stop()

    def run(self, folder, *words, given=None, seconds=None, **how):
        """Runs a command in a folder, with what it is given on standard input, and returns its status and what it printed. It is ended
        after so many seconds, where they are said."""
        if self.is_stopped:
            return 1, ""
        how = {"stdin": subprocess.DEVNULL, "stdout": subprocess.PIPE, "stderr": subprocess.STDOUT, "text": True, "errors": "replace", **how}
        with held():
            command = subprocess.Popen(words, cwd=folder, start_new_session=True, **how)
            self.running.add(command)
            # (it may have started while all were ended)
            if self.is_stopped:
                end(command)
        with command:
            try:
                said, _ = command.communicate(given, seconds)
            except BaseException:
                end(command)
                raise
            finally:
                self.running.discard(command)
        return command.returncode, said

    def stop(self):
        """Ends them with all that they started, and starts no other."""
        self.is_stopped = True
        for command in list(self.running):
            end(command)


def end(command):
    """Ends a command that leads a session of its own, and all that it started."""
    with contextlib.suppress(ProcessLookupError):
        os.killpg(command.pid, signal.SIGKILL)


@contextlib.contextmanager
def locked(path, what):
    """Holds the lock of a build while the block runs; a second caller waits, and says so."""
    os.makedirs(os.path.dirname(path), exist_ok=True)
    with open(path, "a", encoding="utf-8") as lock:
        try:
            fcntl.flock(lock, fcntl.LOCK_EX | fcntl.LOCK_NB)
        except BlockingIOError:
            print(f"mx: another call {what}; waiting until it is done", file=sys.stderr, flush=True)
            fcntl.flock(lock, fcntl.LOCK_EX)
        yield


def print_failure(said):
    """Prints how a build ended that failed."""
    print("mx: that failed, and this is how it ended:", file=sys.stderr)
    for line in said.splitlines()[-LAST_LINES:]:
        print(line, file=sys.stderr)
