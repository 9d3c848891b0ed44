"""A command that proves crates, as `rt ci`, and what wrong bodies take of the machine beside it."""
import contextlib
import heapq
import os
import pathlib
import re
import shutil
import subprocess
import sys
import tempfile
import threading

# What the command says of a crate whose library stands.
PROVED = re.compile(rb'rt: (\w+) (?:proved|is kept)\b')
NOT_PROVED = re.compile(rb'rt: \w+.* NOT PROVED')
# Beside the command a check begins only where so much memory is free, in KiB: its own next check must find room.
FREE = 6 * 1024 * 1024


class Dropped(Exception):
    """What proves the crates has failed: no more is tried."""


class Proving:
    """A run of the command, whose lines are passed on. Each library that it has made gets a second name, since the
    command may put another in its place at its end."""

    def __init__(self, words, libraries):
        self.libraries = libraries
        self.folder = tempfile.TemporaryDirectory(prefix='libraries-')
        self.process = subprocess.Popen(words, cwd=libraries.top, stdout=subprocess.PIPE)
        self.last = b''

    def __enter__(self):
        return self

    def __exit__(self, *_):
        if self.is_running():
            self.process.terminate()
            self.process.wait()
        self.folder.cleanup()

    def is_running(self):
        return self.process.poll() is None

    def proved(self):
        """The crates that the command proves, each as soon as it says so; none stands for one that isn't proved. At its
        end none stands for a failure of another kind."""
        for self.last in self.process.stdout:
            sys.stdout.buffer.write(self.last)
            sys.stdout.buffer.flush()
            said = PROVED.match(self.last)
            name = said and said[1].decode()
            if name and self.libraries.built(name).is_dir():
                self._keep(name)
                yield name
            elif NOT_PROVED.match(self.last):
                yield None
        if self.process.wait():
            yield None

    def _keep(self, name):
        """Gives the files of a library a second name."""
        to = pathlib.Path(self.folder.name, f'{name}.rlib')
        shutil.copytree(self.libraries.built(name), to, copy_function=link_or_copy)
        self.libraries.elsewhere[name] = to


def link_or_copy(one, other):
    """Gives a file a second name, or makes a copy of it where that is on another disk."""
    try:
        os.link(one, other)
    except OSError:
        shutil.copyfile(one, other)


class Lanes:
    """So many checks run at once: all that fit, but beside the command half as many, and none where memory is short."""

    def __init__(self, jobs, proving=None):
        self.jobs, self.proving, self.taken, self.changed = jobs, proving, 0, threading.Condition()

    @contextlib.contextmanager
    def lane(self, is_alone=False):
        """Waits for a lane, or for all of them, and gives it back."""
        width = self.jobs if is_alone else 1
        with self.changed:
            while not self._fits(width):
                self.changed.wait(2)
            self.taken += width
        try:
            yield
        finally:
            with self.changed:
                self.taken -= width
                self.changed.notify_all()

    def is_beside(self):
        """Whether the command still runs."""
        return bool(self.proving and self.proving.is_running())

    def _fits(self, width):
        if self.is_beside():
            return self.taken + width <= max(1, self.jobs // 2) and free_memory() > FREE
        return self.taken + width <= self.jobs


class Waiting:
    """What is to be done, the longest first, until no more can come."""

    def __init__(self):
        self.tasks, self.count, self.changed = [], 0, threading.Condition()
        self.is_open, self.is_dropped = True, False

    def put(self, length, task):
        with self.changed:
            heapq.heappush(self.tasks, (-length, self.count, task))
            self.count += 1
            self.changed.notify()

    def close(self):
        """No more comes."""
        with self.changed:
            self.is_open = False
            self.changed.notify_all()

    def drop(self):
        """No more comes, and what is there is dropped."""
        with self.changed:
            self.is_open, self.is_dropped, self.tasks = False, True, []
            self.changed.notify_all()

    def work(self):
        """Does one after another, until nothing is left."""
        with contextlib.suppress(Dropped):
            while task := self._next():
                task()

    def _next(self):
        with self.changed:
            while self.is_open and not self.tasks:
                self.changed.wait()
            return heapq.heappop(self.tasks)[2] if self.tasks else None


def free_memory():
    """The memory that is free, in KiB."""
    said = pathlib.Path('/proc/meminfo').read_text(encoding='ascii')
    return int(said.partition('MemAvailable:')[2].split()[0])


def fitting_jobs():
    """As many checks as there are processors, and 3 GB of memory for each."""
    return max(1, min(len(os.sched_getaffinity(0)), free_memory() // 3_000_000))
