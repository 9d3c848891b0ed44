#!/usr/bin/env python3
"""Times moments over a table of 1,024 and of 65,536 cells, of which few, some or all read the time, and prints microseconds of CPU for one moment.

    bench/moments.py [READERS ..]     default: all of them

    PROGRAM=crates/review/out/review  the program (the default, as `rt run` leaves it)
    PEER=/path/of/another/program     run as `PEER serve` on the same lines, beside it, with ratios
    RUNS=3                            runs of each, of which the median counts
    MOMENTS=200                       moments of each run

A moment evaluates the cells that read what it changes, so its cost rests on their number (the column `touched`, by `work` before and after) and not on the size of the table: the column `size x`
has the cost at 65,536 cells by that at 1,024, which says this of the readers whose number is the same in both. All moments are of one date; the last row has the table whose cells read the date alone.
"""
import os, statistics, sys
from edits import ENVIRONMENT, PEER, PROGRAM, RUNS, SIZES, TODAY, Running, designator, match
from workloads import ACTIONS, PEOPLE, POLICY_ALGORITHM, RESOURCE, RESOURCE_ID, RESOURCES, SUBJECT, SUBJECT_ID
from workloads import apply, line, policy

MOMENTS = int(os.environ.get('MOMENTS', '200'))
NOW = 'urn:oasis:names:tc:xacml:1.0:environment:current-time'


def among(category, id, names):
    """That an id of the request is one of some names."""
    return {'AllOf': [{'Match': [match(category, id, name)]} for name in names]}


def gate(people, resources, child):
    """A set for the cells of some people and some resources."""
    target = [among(SUBJECT, SUBJECT_ID, people), among(RESOURCE, RESOURCE_ID, resources)]
    return {'PolicySet': {'PolicySetId': 'gate', 'Version': '1', 'PolicyCombiningAlgId': POLICY_ALGORITHM + 'deny-overrides',
                          'Target': {'AnyOf': target}, 'Children': [child]}}


def literal(value, datatype):
    return {'AttributeValue': {'Value': value, 'DataType': datatype}}


def until_six():
    """A policy that permits before six in the evening, and reads the time."""
    now = apply('time-one-and-only', designator(ENVIRONMENT, NOW, 'time'))
    return policy('clock', [{'RuleId': 'r', 'Effect': 'Permit', 'Condition': apply('time-less-than', now, literal('18:00:00', 'time'))}])


def that_day():
    """A policy that permits on one day, and reads the date."""
    day = apply('date-is-in', literal('2026-01-01', 'date'), designator(ENVIRONMENT, TODAY, 'date'))
    return policy('clock', [{'RuleId': 'r', 'Effect': 'Permit', 'Condition': day}])


# Of each number of readers the child of the root by which they read: one person at one resource, each with the four actions; four at 25; everybody; nobody reads the time.
READERS = {
    'four': lambda: gate(PEOPLE[:1], RESOURCES[:1], until_six()),
    'four-hundred': lambda: gate(PEOPLE[:4], RESOURCES[:25], until_six()),
    'all': until_six,
    'dates-alone': that_day,
}


def setup(size, readers):
    """A root over what the readers read, and what every cell reads of its person."""
    people, actions, resources = SIZES[size]
    works = apply('string-is-in', {'AttributeValue': {'Value': 'd1'}}, designator(SUBJECT, 'department', 'string'))
    rest = policy('rest', [{'RuleId': 'r', 'Effect': 'Permit', 'Condition': works}])
    yield line('policy.add', document={'PolicySet': {'PolicySetId': 'root', 'Version': '1', 'PolicyCombiningAlgId': POLICY_ALGORITHM + 'deny-overrides',
                                                     'Children': [READERS[readers](), rest]}})
    yield line('root.set', reference={'PolicySetIdReference': {'Id': 'root'}})
    yield line('moment.set', moment='2026-01-01T00:00:00')
    yield from (line('action.add', name=name) for name in ACTIONS[:actions])
    yield from (line('resource.add', name=name) for name in RESOURCES[:resources])
    yield from (line('person.add', name=name) for name in PEOPLE[:people])


def moment(i):
    """The line of the moment of that number: before six and after it by turns."""
    return line('moment.set', moment=f'2026-01-01T{17 + i % 2}:{i // 60 % 60:02}:{i % 60:02}')


def once(command, size, readers):
    """Microseconds for one moment, and cells touched by one."""
    running = Running(command)
    running.tell(list(setup(size, readers)))
    before = running.evaluations()
    replies, cpu = running.tell([moment(i) for i in range(MOMENTS)])
    wrong = [reply for reply in replies if not reply.startswith(b'{"changes":')]
    if wrong:
        sys.exit(f'{readers}: {wrong[0]!r}')
    touched = running.evaluations() - before
    running.end()
    return cpu / MOMENTS, touched / MOMENTS


def measured(command, readers):
    """Of each size: the median of the microseconds for one moment, and cells touched by one."""
    found = {}
    for size in SIZES:
        runs = [once(command, size, readers) for _ in range(RUNS)]
        found[size] = (statistics.median(cpu for cpu, _ in runs), runs[0][1])
    return found


def main():
    print(f'{"readers":14} {"cells":>7} {"touched":>9} {"us":>10} {"us each":>8} {"size x":>7}' + (f' {"peer us":>10} {"ratio":>7}' if PEER else ''))
    for readers in sys.argv[1:] or list(READERS):
        ours = measured([PROGRAM, 'serve'], readers)
        theirs = measured([PEER, 'serve'], readers) if PEER else {}
        for size, (cpu, touched) in ours.items():
            each = f'{cpu / touched:8.2f}' if touched else ' ' * 8
            row = f'{readers:14} {size:7} {touched:9.1f} {cpu:10.1f} {each} {cpu / ours[1024][0]:7.2f}'
            if PEER:
                peer = theirs[size][0]
                row += f' {peer:10.1f} {cpu / peer:7.2f}'
            print(row, flush=True)


if __name__ == '__main__':
    main()
