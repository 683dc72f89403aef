"""How many connections and runs there are at once: those that have shown no token yet, those that have, and what memory runs may take."""
import contextlib
import re
import resource
import select
import socket
import threading
import time

from fields import Refused

# Connections that have not shown the token yet, and the time that each of them has before another one takes its place.
MOST_WAITING, LEAST_SECONDS = 32, 0.05
# Requests with the token.
MOST_SERVED = 16
# The part of the machine's memory that all runs together may take, and how long a run waits until it gets its share.
PART_OF_MEMORY = 3, 4
SHARE_SECONDS, LOOK_SECONDS = 20, 0.05
MEBIBYTE = 1_048_576
CGROUP_FILES = "/sys/fs/cgroup/memory.max", "/sys/fs/cgroup/memory/memory.limit_in_bytes"


def has_gone(connection):
    """Returns whether the client has closed a connection."""
    poll = select.poll()
    poll.register(connection, select.POLLRDHUP)
    return bool(poll.poll(0))


class Slots:
    """The open connections. A connection without the token loses its place to a newer one; a request with the token keeps it."""

    def __init__(self):
        self.changed = threading.Condition()
        self.waiting, self.served = {}, set()

    def admit(self, connection):
        """Takes a new connection; where there are too many without the token, the oldest of them is dropped."""
        with self.changed:
            while len(self.waiting) >= MOST_WAITING:
                oldest, since = next(iter(self.waiting.items()))
                left = since + LEAST_SECONDS - time.monotonic()
                if left > 0:
                    self.changed.wait(left)
                    continue
                del self.waiting[oldest]
                with contextlib.suppress(OSError):
                    oldest.shutdown(socket.SHUT_RDWR)
            self.waiting[connection] = time.monotonic()

    def serve(self, connection):
        """Gives a connection that has shown the token a slot, or raises Refused."""
        with self.changed:
            if connection in self.served:
                return
            if len(self.served) >= MOST_SERVED:
                raise Refused(503, f"more than {MOST_SERVED} requests at once")
            self.waiting.pop(connection, None)
            self.served.add(connection)
            self.changed.notify_all()

    def leave(self, connection):
        """Forgets a connection that has ended."""
        with self.changed:
            self.waiting.pop(connection, None)
            self.served.discard(connection)
            self.changed.notify_all()


def machine_memory():
    """Returns the bytes of memory that this machine has for the server, by the kernel, a control group, and `ulimit -v`."""
    found = [it for it in (resource.getrlimit(resource.RLIMIT_AS)[0],) if it != resource.RLIM_INFINITY]
    with contextlib.suppress(OSError, TypeError):
        with open("/proc/meminfo", encoding="ascii") as it:
            found.append(int(re.search(r"MemTotal:\s+(\d+) kB", it.read())[1]) * 1024)
    for name in CGROUP_FILES:
        with contextlib.suppress(OSError, ValueError):  # `max` is no number
            with open(name, encoding="ascii") as it:
                found.append(int(it.read()))
    return min(found, default=4096 * MEBIBYTE)


class Memory:
    """The memory that all runs together may take. A run takes its share before it starts, and waits until there is one."""

    def __init__(self, most):
        self.most, self.taken = most, 0
        self.changed = threading.Condition()

    def said(self):
        """Returns the limit, as it is printed."""
        return f"{self.most // MEBIBYTE:,} MiB"

    @contextlib.contextmanager
    def share(self, size, connection):
        """Has a share of the memory for a while; ends where the client has gone."""
        size = min(size, self.most)
        ends = time.monotonic() + SHARE_SECONDS
        with self.changed:
            while self.taken + size > self.most:
                if has_gone(connection):
                    raise ConnectionError("the client has gone")
                if time.monotonic() > ends:
                    raise Refused(503, f"other runs take all the memory that runs may take together, {self.said()}")
                self.changed.wait(LOOK_SECONDS)
            self.taken += size
        try:
            yield
        finally:
            with self.changed:
                self.taken -= size
                self.changed.notify_all()


def memory_of_runs():
    """Returns the memory that all runs together may take on this machine."""
    over, under = PART_OF_MEMORY
    return Memory(machine_memory() * over // under)
