#!/usr/bin/env python3
"""Times the tables of companies from their first name on: milliseconds of CPU for each step and nanoseconds for each
cell of the table, the most memory so far, as MiB and as bytes for each cell, and how long the replies were.

    bench/company.py

    PROGRAM=crates/review/out/review  the program (the default, as `rt run` leaves it)
    TABLES=256x4x64,400x12x120,..     people, actions and resources of each table

The policies are those of `edits.py`: each cell reads a value of its person, four read a document of their own, four the
day. At the end it asks for what is long. Where a step has many lines, the time is that of all of them.
"""
import os

from edits import PROGRAM, Running, attribute, dated, few, root
from workloads import line

TABLES = os.environ.get('TABLES', '256x4x64,400x12x120,1000x10x100,4096x4x64')


def names(people, actions, resources):
    """The lines that list them, so that the table is built person by person."""
    words = ['read', 'write', 'approve', *(f'action-{i}' for i in range(3, actions))]
    yield from (line('action.add', name=name) for name in words)
    yield from (line('resource.add', name=f'resource-{i:02}') for i in range(resources))
    yield from (line('person.add', name=f'person-{i:03}') for i in range(people))


def steps(people, actions, resources):
    """What is done to a table, each with its lines."""
    yield 'documents', [line('policy.add', document=few(1)), line('policy.add', document=dated('all'))]
    yield 'values', [attribute(f'person-{i:03}', 'department', 'string', [f'd{i % 20}']) for i in range(people)]
    yield 'names', list(names(people, actions, resources))
    yield 'root', [root('all')]
    yield 'values of one', [attribute('person-007', 'department', 'string', ['of-another'])]
    yield 'policy of four', [line('policy.replace', document=few(2))]
    yield 'day', [line('day.set', day='2026-01-01')]
    for kind, name in [('person', 'person-008'), ('resource', 'resource-08'), ('action', 'approve')]:
        yield f'{kind}.drop', [line(f'{kind}.drop', name=name)]
        yield f'{kind}.add', [line(f'{kind}.add', name=name)]
    yield 'a set anew', [line('policy.replace', document=dated('all', 'd2'))]
    yield 'cells of one', [line('cells', person='person-007')]
    for question in ['counts', 'faults', 'notices', 'dump', 'table']:
        yield question, [line(question)]


def peak(running):
    """The most bytes that a program took."""
    with open(f'/proc/{running.child.pid}/status', encoding='ascii') as status:
        return next(int(entry.split()[1]) for entry in status if entry.startswith('VmHWM')) * 1024


def measure(people, actions, resources):
    """Prints a row for each step of a table."""
    cells = people * actions * resources
    limits = {'people': people, 'actions': actions, 'resources': resources, 'cells': cells}
    words = [word for key, limit in limits.items() for word in (f'--{key}', str(limit))]
    running = Running([PROGRAM, 'serve', *words])
    before = peak(running)
    for what, lines in steps(people, actions, resources):
        replies, cpu = running.tell(lines)
        spent, taken = f'{cpu / 1e3:10.1f} {cpu * 1e3 / cells:10.1f}', peak(running)
        room = f'{taken / (1 << 20):7.1f} {(taken - before) / cells:9.0f}'
        print(f'{cells:8} {what:16} {spent} {room} {sum(map(len, replies)) / (1 << 20):10.1f}', flush=True)
    running.end()


def main():
    print(f'{"cells":>8} {"what":16} {"CPU ms":>10} {"ns a cell":>10} {"MiB":>7} {"B a cell":>9} {"reply MiB":>10}')
    for table in TABLES.split(','):
        measure(*map(int, table.split('x')))


if __name__ == '__main__':
    main()
