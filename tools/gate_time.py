#!/usr/bin/env python3
"""Runs the gate and tells where its processor time goes.

    gate_time.py [--write] [-- COMMAND ..]      the command is `bash .ci/run` unless one is named

First it proves what is always the same, a small example of the kit, and so tells what a processor minute of this run
was worth. Then, every two seconds, it looks at the processes below the command, and adds up the time of each by crate
and by what it does: proofs, tests (a crate once more with its tests), wrong bodies. At the end it prints a row a crate
in processor minutes, with what was kept from an earlier run and how much there was to do. With --write it puts all of
that into CONTRIBUTING.md, if nothing was kept. What begins and ends between two looks is missed: a percent or two. The
lines that say how many passed are kept in out/gate.txt, for what says of a package what was proved of it
(tools/release.sh). It ends as the command does."""
import collections
import os
import pathlib
import re
import resource
import subprocess
import sys
import tempfile
import threading
import time

TOP = pathlib.Path(__file__).resolve().parents[1]
PAGE = TOP / 'CONTRIBUTING.md'
TABLE = re.compile(r'(<!-- gate -->\n).*?(<!-- end of gate -->)', re.S)
TICKS = os.sysconf('SC_CLK_TCK')
KINDS = ['proof', 'tests', 'edits', 'other']
KEPT = TOP / 'out' / 'gate.txt'
PASSED = re.compile(rb'.*\d+ passed, \d+ failed')
# The kit's example by which runs are compared: a small library.
SMALL = 'start_lib'
TAKEN = re.compile(rb'rt: (\w+) is kept\b')


def processes_below(root):
    """Each process below one: its number and its own time in ticks."""
    children = collections.defaultdict(list)
    for folder in pathlib.Path('/proc').iterdir():
        if folder.name.isdigit():
            try:
                fields = (folder / 'stat').read_text(errors='replace').rsplit(')', 1)[1].split()
            except OSError:
                continue
            children[int(fields[1])].append((int(folder.name), int(fields[11]) + int(fields[12])))
    found, todo = [], [root]
    while todo:
        below = children.get(todo.pop(), [])
        found += below
        todo += [number for number, _ in below]
    return found


def work_of(number):
    """The crate that a process works on and what it does there; '-' and 'other' where it is no check of a crate."""
    try:
        words = pathlib.Path(f'/proc/{number}/cmdline').read_text(errors='replace').split('\0')
        folder = os.readlink(f'/proc/{number}/cwd')
    except OSError:
        return '-', 'other'
    if '--crate-name' not in words[:-1]:
        return '-', 'other'
    crate = words[words.index('--crate-name') + 1]
    if '/wrong-' in folder:
        return crate, 'edits'
    return crate, 'tests' if '--test' in words else 'proof'


def counted():
    """How many crates there are, functions in them, and wrong bodies."""
    crates = TOP / 'crates'
    functions = sum(len(re.findall(r'(?m)^ *(?:pub(?:\([^)]*\))? )?fn ', path.read_text(encoding='utf-8')))
                    for path in crates.glob('*/src/**/*.rt'))
    bodies = len(list(crates.glob('*/wrong/*.edit')))
    return f'{len(list(crates.glob("*/src")))} crates, {functions:,} functions, {bodies} wrong bodies'


def used():
    """The processor seconds of all commands that have ended."""
    spent = resource.getrusage(resource.RUSAGE_CHILDREN)
    return spent.ru_utime + spent.ru_stime


def worth():
    """The processor seconds of a proof that is always the same, the middle one of three; none if it fails."""
    took = []
    for _ in range(3):
        with tempfile.TemporaryDirectory(prefix='worth-') as room:
            subprocess.run(['git', 'init', '-q', room], check=True)
            subprocess.run(['rt', 'new', f'{room}/{SMALL}', SMALL], capture_output=True, check=False)
            before = used()
            words = ['rt', 'check', '--jobs', '1']
            if subprocess.run(words, cwd=f'{room}/{SMALL}', capture_output=True, check=False).returncode:
                return None
            took.append(used() - before)
    return sorted(took)[1]


def compared(seconds):
    """What is said of a small proof, by which two runs can be compared."""
    if seconds is None:
        return f'What a processor minute was worth is not known: {SMALL} of the kit is not proved.'
    return f"What a processor minute was worth: the kit's {SMALL} took {seconds:.1f} processor seconds right before."


def table(spent, seconds, small, taken):
    """The rows of what was spent, most first, and what they were of."""
    total = collections.Counter()
    for (crate, _), ticks in spent.items():
        total[crate] += ticks
    lines = [f'    {"crate":20}' + ''.join(f'{kind:>9}' for kind in KINDS) + f'{"sum":>9}']
    for crate in [*sorted(total, key=lambda crate: -total[crate]), 'sum']:
        own = {work: ticks for work, ticks in spent.items() if crate in (work[0], 'sum')}
        row = [sum(ticks for (_, does), ticks in own.items() if does == kind) for kind in KINDS]
        lines.append(f'    {crate:20}' + ''.join(f'{ticks / TICKS / 60:9.1f}' for ticks in [*row, sum(row)]))
    processors = len(os.sched_getaffinity(0))
    clock = f'{seconds / 60:.0f} minutes by the clock on {processors} processors'
    kept = f'{len(taken)} crates kept from an earlier run' if taken else 'nothing kept from an earlier run'
    lines += ['', f'In processor minutes; {clock};', f'{counted()}; {kept}.', compared(small)]
    return '\n'.join(lines) + '\n'


def passed_on(source, kept, taken):
    """Passes on what is said, and keeps the lines that say how many passed, and which crates were kept."""
    for line in source:
        sys.stdout.buffer.write(line)
        sys.stdout.buffer.flush()
        if PASSED.match(line):
            kept.append(line)
        if said := TAKEN.match(line):
            taken.add(said[1])


def main():
    words = sys.argv[1:]
    writes = words[:1] == ['--write']
    command = words[words.index('--') + 1:] if '--' in words else ['bash', '.ci/run']
    small = worth()
    began, spent, last = time.time(), collections.Counter(), {}
    process, kept, taken = subprocess.Popen(command, cwd=TOP, stdout=subprocess.PIPE), [], set()
    passing = threading.Thread(target=passed_on, args=(process.stdout, kept, taken))
    passing.start()
    while process.poll() is None:
        for number, ticks in processes_below(process.pid):
            spent[work_of(number)] += max(0, ticks - last.get(number, 0))
            last[number] = ticks
        time.sleep(2)
    passing.join()
    KEPT.parent.mkdir(exist_ok=True)
    KEPT.write_bytes(b''.join(kept))
    text = table(spent, time.time() - began, small, taken)
    print(text)
    if writes and process.returncode == 0 and not taken:
        page = PAGE.read_text(encoding='utf-8')
        PAGE.write_text(TABLE.sub(lambda found: f'{found[1]}{text}{found[2]}', page), encoding='utf-8')
    elif writes:
        print('gate_time.py: the table was not written, since the run failed or took what an earlier one kept')
    return process.returncode


if __name__ == '__main__':
    sys.exit(main())
