#!/usr/bin/env python3
"""Runs parts of the gate side by side, and tells of each how long it took.

    parts.py [--jobs N] < LIST       each line is `name: command`, or `name?: command`; the first lines begin first

What a part says is printed when it has ended. One with `?` may end with status 3: it says that something it needs isn't
on this machine. The status is 1 where a part ends otherwise with any but 0."""
import argparse
import concurrent.futures
import os
import subprocess
import sys
import threading
import time

ABSENT = 3


def run(name, command, printing):
    """Runs a part, prints what it said and how long it took, and gives whether it failed."""
    began = time.monotonic()
    ran = subprocess.run(['sh', '-c', command], stdin=subprocess.DEVNULL, stdout=subprocess.PIPE,
                         stderr=subprocess.STDOUT)
    may_lack = name.endswith('?') and ran.returncode == ABSENT
    how = 'passed' if not ran.returncode else 'was not whole' if may_lack else f'FAILED with status {ran.returncode}'
    with printing:
        sys.stdout.buffer.write(ran.stdout)
        sys.stdout.buffer.write(f'{name.rstrip("?")} {how}, in {time.monotonic() - began:.0f} s\n'.encode())
        sys.stdout.buffer.flush()
    return ran.returncode and not may_lack


def main():
    parser = argparse.ArgumentParser(usage=__doc__)
    parser.add_argument('--jobs', type=int, default=len(os.sched_getaffinity(0)))
    options = parser.parse_args()
    parts = [line.strip().split(': ', 1) for line in sys.stdin if line.strip()]
    printing = threading.Lock()
    with concurrent.futures.ThreadPoolExecutor(options.jobs) as pool:
        failed = list(pool.map(lambda part: run(*part, printing), parts))
    return 1 if any(failed) else 0


if __name__ == '__main__':
    sys.exit(main())
