#!/usr/bin/env python3
"""Runs a command, and another beside it as soon as it has said a line.

    as_soon.py NAME LINE OTHER -- COMMAND ..

LINE is a regular expression for the beginning of the line, OTHER is for the shell, and NAME is what it is called. What
the command says is passed on; what the other said stands behind it, with how long it took. The other may end with
status 3: something that it needs isn't on this machine. The status is the command's, or else 1 where the other failed;
where the command fails the other is ended, and where the line never came it runs behind the command."""
import os
import re
import signal
import subprocess
import sys
import tempfile
import time

ABSENT = 3


class Other:
    """The other command: it has a folder of processes of its own, so that it can be ended with all that it began."""

    def __init__(self, name, words):
        self.name, self.words, self.process, self.said, self.began = name, words, None, tempfile.TemporaryFile(), 0.0

    def begin(self):
        if not self.process:
            self.began = time.monotonic()
            self.process = subprocess.Popen(['sh', '-c', self.words], stdin=subprocess.DEVNULL, stdout=self.said,
                                            stderr=subprocess.STDOUT, start_new_session=True)

    def end(self):
        """Ends it, and all that it began."""
        if self.process and self.process.poll() is None:
            os.killpg(self.process.pid, signal.SIGTERM)
            self.process.wait()

    def wait(self):
        """Waits for its end, prints what it said, and gives whether it failed."""
        status = self.process.wait()
        self.said.seek(0)
        sys.stdout.buffer.write(self.said.read())
        may_lack = status == ABSENT
        how = 'passed' if not status else 'was not whole' if may_lack else f'FAILED with status {status}'
        sys.stdout.buffer.write(f'{self.name} {how}, in {time.monotonic() - self.began:.0f} s\n'.encode())
        sys.stdout.buffer.flush()
        return bool(status) and not may_lack


def main():
    if len(sys.argv) < 6 or sys.argv[4] != '--':
        print(__doc__)
        return 2
    other, line = Other(sys.argv[1], sys.argv[3]), re.compile(sys.argv[2].encode())
    command = subprocess.Popen(sys.argv[5:], stdout=subprocess.PIPE)
    try:
        for said in command.stdout:
            sys.stdout.buffer.write(said)
            sys.stdout.buffer.flush()
            if line.match(said):
                other.begin()
        status = command.wait()
        if status:
            return status
        other.begin()
        return 1 if other.wait() else 0
    finally:
        other.end()


if __name__ == '__main__':
    sys.exit(main())
