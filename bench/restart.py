#!/usr/bin/env python3
"""Times a dump, the lines that are read of it and their replay, each alone, and prints milliseconds of CPU and the most memory that each took.

    bench/restart.py [STATE ..]       default: all of them

    PROGRAM=crates/review/out/review  the program (the default, as `rt run` leaves it)
    PEER=/path/of/another/program     run as `PEER serve` and `PEER lines` on the same lines, beside it, with ratios: at most 2.0 are wanted
    RUNS=3                            runs of each, of which the median counts
    DUMPS=5                           dumps of each run

Of each state four phases: `edits`, the lines that lead to it; `dump`, one of the dumps behind them, in the process that answered them; `lines`, the program
as `review lines` over the reply; and `replay`, a new process that is told what came of it. Every line of it has to be accepted, and the dump of the replay to
be the first dump, byte for byte. A state whose dump has a line that is too long isn't replayed.
"""
import json, os, statistics, subprocess, sys, tempfile
from edits import PEER, PROGRAM, RUNS, Running
from marks import memory
from workloads import ACTIONS, PEOPLE, RESOURCES, apply, department_rules, line, policy, resource_is, row

DUMPS = int(os.environ.get('DUMPS', '5'))
LINE = 1_048_576
CATEGORIES = ['AccessSubject', 'Resource', 'Action']


def names():
    """Sixteen cells: four people, two actions and two resources."""
    yield from (line('person.add', name=name) for name in PEOPLE[:4])
    yield from (line('action.add', name=name) for name in ACTIONS[:2])
    yield from (line('resource.add', name=name) for name in RESOURCES[:2])


def root():
    return line('root.set', reference={'PolicyIdReference': {'Id': 'p0', 'Version': '1.*'}})


def many():
    """1,024 documents of five rules each and 4,000 rows of up to five values, in two modules, half of the rows with an issuer."""
    for number in range(1024):
        document = policy(f'p{number}', department_rules(5), 'permit-overrides', Target=resource_is(RESOURCES[number % 64]))
        document['Policy']['Version'] = f'1.{number % 10}'
        yield line('policy.add', module=number % 2, document=document)
    for i in range(4000):
        issuer = {'issuer': f'x"{i}'} if i % 2 else {}
        yield row(f'e{i // 4}', f'a{i % 40}', [f'v{j}' for j in range(1 + i % 5)], CATEGORIES[i % 3], module=i % 2, **issuer)
    yield line('moment.set', moment='2026-01-01T09:00:00')
    yield root()
    yield from names()


def of_literals(count, literal):
    """A document of 240 rules with so many literals each."""
    rules = [{'RuleId': f'r{i}', 'Effect': 'Permit', 'Condition': apply('or', *[literal] * count)} for i in range(240)]
    document = policy('p0', rules)
    document['Policy']['Version'] = '1.0'
    yield line('policy.add', document=document)
    yield root()
    yield from names()


def megabyte():
    """A document whose line has nearly a megabyte, and is written as long."""
    yield from of_literals(47, {'AttributeValue': {'DataType': 'http://www.w3.org/2001/XMLSchema#boolean', 'Value': False}})


def megabyte_grown():
    """A document whose line has nearly a megabyte, and is written two and a half times as long, so that it isn't read again."""
    yield from of_literals(120, {'AttributeValue': {'Value': False}})


STATES = {'many': many, 'megabyte': megabyte, 'megabyte-grown': megabyte_grown}


def told(running, lines):
    """The replies to some lines, none of which may be refused, and milliseconds of CPU for all of them."""
    replies, cpu = running.tell(lines)
    wrong = [reply for reply in replies if reply.startswith(b'{"refused":')]
    if wrong:
        sys.exit(f'{len(wrong)} of {len(lines)} lines were refused: {wrong[0]!r}')
    return replies, cpu / 1e3


def written(program, reply):
    """What a program writes as `lines` of a reply, with milliseconds of CPU, and MiB as long as a pipe's room is left to be written."""
    with tempfile.TemporaryFile() as file:
        file.write(reply + b'\n')
        file.seek(0)
        child = subprocess.Popen([program, 'lines'], stdin=file, stdout=subprocess.PIPE)
    data, most = b'', 0
    while part := os.read(child.stdout.fileno(), 1 << 16):
        data += part
        with open(f'/proc/{child.pid}/status') as file:
            most = next((int(text.split()[1]) / 1024 for text in file if text.startswith('VmHWM')), most)
    child.stdout.close()
    _, status, usage = os.wait4(child.pid, 0)
    child.returncode = status
    if status or not data.endswith(b'\n'):
        sys.exit(f'{program} lines: status {status}')
    return data.decode().split('\n')[:-1], ((usage.ru_utime + usage.ru_stime) * 1e3, most)


def phases(program, state):
    """Of each phase milliseconds of CPU and MiB, and the reply of the dump."""
    found = {}

    def timed(running, phase, lines):
        replies, cpu = told(running, lines)
        found[phase] = cpu / len(lines) if phase == 'dump' else cpu, memory(running, 'VmHWM') / 1024
        return replies[-1]

    running = Running([program, 'serve'])
    timed(running, 'edits', list(STATES[state]()))
    dump = timed(running, 'dump', [line('dump')] * DUMPS)
    running.end()
    lines, found['lines'] = written(program, dump)
    if lines != json.loads(dump)['dump']:
        sys.exit(f'{state}: what was written is not the texts of the dump')
    if all(len(text.encode()) <= LINE for text in lines):
        running = Running([program, 'serve'])
        timed(running, 'replay', lines)
        if told(running, [line('dump')])[0] != [dump]:
            sys.exit(f'{state}: the dump of the replay is another')
        running.end()
    return found, dump


def measured(program, state):
    """Of each phase the median of the milliseconds and the most memory of some runs, and the reply of the dump."""
    runs = [phases(program, state) for _ in range(RUNS)]
    medians = {phase: (statistics.median(found[phase][0] for found, _ in runs), max(found[phase][1] for found, _ in runs)) for phase in runs[0][0]}
    return medians, runs[0][1]


def main():
    print(f'{"state":16} {"phase":8} {"ms":>10} {"MiB":>8}' + (f' {"peer ms":>10} {"ratio":>7} {"peer MiB":>9} {"ratio":>7}' if PEER else ''))
    for state in sys.argv[1:] or list(STATES):
        ours, dump = measured(PROGRAM, state)
        theirs, other = measured(PEER, state) if PEER else ({}, dump)
        for phase, (cpu, most) in ours.items():
            text = f'{state:16} {phase:8} {cpu:10.1f} {most:8.1f}'
            if PEER:
                peer_cpu, peer_most = theirs[phase]
                text += f' {peer_cpu:10.1f} {cpu / peer_cpu:7.2f} {peer_most:9.1f} {most / peer_most:7.2f}'
            print(text, flush=True)
        if dump != other:
            print(f'  the dumps of {state} differ')


if __name__ == '__main__':
    main()
