#!/usr/bin/env python3
"""Times the program on workloads of its own, and prints seconds of CPU, peak memory and ratios in one run.

    bench/run.py [WORKLOAD ..]        default: all of them

    PROGRAM=crates/review/out/review  the program (the default, as `rt run` leaves it)
    PEER=/path/of/another/program     run as `PEER fresh` on the same lines, beside it, with ratios
    PEER_MODE=fresh                   the word that the other program takes in place of `fresh`
    RUNS=3                            runs of each, of which the median counts

A workload is a list of lines. It is written into a file of the temporary folder, given to the program as standard input, and
its replies go to a file, so that those of two programs can be compared: a line says where they differ first.
"""
import os, resource, statistics, subprocess, sys, tempfile
import workloads

HERE = os.path.dirname(os.path.abspath(__file__))
PROGRAM = os.environ.get('PROGRAM', os.path.join(HERE, '..', 'crates', 'review', 'out', 'review'))
PEER = os.environ.get('PEER')
PEER_MODE = os.environ.get('PEER_MODE', 'fresh')
RUNS = int(os.environ.get('RUNS', '3'))


def once(command, lines, replies):
    """Seconds of CPU and MiB of one run, whose replies go to a file."""
    with open(lines, 'rb') as read, open(replies, 'wb') as write:
        child = subprocess.Popen(command, stdin=read, stdout=write)
        _, status, usage = os.wait4(child.pid, 0)
    if status:
        sys.exit(f'{" ".join(command)}: status {status}')
    return usage.ru_utime + usage.ru_stime, usage.ru_maxrss / 1024


def measured(command, lines, replies):
    runs = [once(command, lines, replies) for _ in range(RUNS)]
    return statistics.median(cpu for cpu, _ in runs), max(memory for _, memory in runs)


def first_difference(ours, theirs):
    """The number of the first reply that differs, and both replies."""
    with open(ours, 'rb') as a, open(theirs, 'rb') as b:
        for number, (x, y) in enumerate(zip(a, b), 1):
            if x != y:
                return number, x[:200], y[:200]
    return None


def main():
    names = sys.argv[1:] or list(workloads.ALL)
    print(f'{"workload":18} {"what":10} {"lines":>8} {"CPU s":>8} {"MiB":>8} {"CPU ratio":>10} {"MiB ratio":>10}')
    with tempfile.TemporaryDirectory() as folder:
        for name in names:
            lines = os.path.join(folder, 'lines')
            count = 0
            with open(lines, 'w', encoding='utf-8') as file:
                for line in workloads.ALL[name]():
                    file.write(line + '\n')
                    count += 1
            ours = os.path.join(folder, 'ours')
            cpu, memory = measured([PROGRAM, 'serve'], lines, ours)
            print(f'{name:18} {"review":10} {count:8} {cpu:8.2f} {memory:8.1f}', flush=True)
            if PEER:
                theirs = os.path.join(folder, 'theirs')
                other_cpu, other_memory = measured([PEER, PEER_MODE], lines, theirs)
                print(f'{name:18} {"peer " + PEER_MODE:10} {count:8} {other_cpu:8.2f} {other_memory:8.1f}'
                      f' {cpu / other_cpu:10.2f} {memory / other_memory:10.2f}', flush=True)
                found = first_difference(ours, theirs)
                if found:
                    print(f'  reply {found[0]} differs: {found[1]!r} against {found[2]!r}')


if __name__ == '__main__':
    # The program's own stack, as a shell would give it.
    resource.setrlimit(resource.RLIMIT_CORE, (0, 0))
    main()
