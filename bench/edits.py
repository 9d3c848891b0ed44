#!/usr/bin/env python3
"""Times each kind of edit over a table of 1,024 and of 65,536 cells, and prints microseconds of CPU for one edit.

    bench/edits.py [KIND ..]          default: all of them

    PROGRAM=crates/review/out/review  the program (the default, as `rt run` leaves it)
    PEER=/path/of/another/program     run as `PEER serve` on the same lines, beside it, with ratios
    RUNS=3                            runs of each, of which the median counts
    LARGE=1                           over a table of 1,048,576 cells too, which takes minutes

An edit evaluates the cells that it touches, so its cost rests on their number (the column `touched`, by `work` before and after) and not on the size of the
table: the column `size x` has the cost at 65,536 cells by that at 1,024. A kind that touches every cell, or those of a name, touches more in the larger table.
"""
import os, select, statistics, subprocess, sys
from workloads import ACTION, ACTION_ID, FUNCTION, POLICY_ALGORITHM, RESOURCE, RESOURCE_ID, SUBJECT, SUBJECT_ID
from workloads import apply, line, policy

HERE = os.path.dirname(os.path.abspath(__file__))
PROGRAM = os.environ.get('PROGRAM', os.path.join(HERE, '..', 'crates', 'review', 'out', 'review'))
PEER = os.environ.get('PEER')
RUNS = int(os.environ.get('RUNS', '3'))
# People, actions and resources of the tables, and the options that the large one needs.
SIZES = {1024: (8, 4, 32), 65536: (256, 4, 64)}
LIMITS = []
if os.environ.get('LARGE'):
    SIZES[1048576] = (4096, 4, 64)
    LIMITS = ['--people', '4096', '--cells', '1048576']
ENVIRONMENT = 'urn:oasis:names:tc:xacml:3.0:attribute-category:environment'
TODAY = 'urn:oasis:names:tc:xacml:1.0:environment:current-date'


def match(category, id, value):
    designator = {'Category': category, 'AttributeId': id, 'DataType': 'string'}
    return {'MatchId': FUNCTION + 'string-equal', 'AttributeValue': {'Value': value}, 'AttributeDesignator': designator}


def gate(id, action, child):
    """A set for four cells: those of the first person, one action and the first four resources."""
    resources = [{'AllOf': [{'Match': [match(RESOURCE, RESOURCE_ID, f'resource-{i:02}')]} for i in range(4)]}]
    target = [{'AllOf': [{'Match': [match(SUBJECT, SUBJECT_ID, 'person-000'), match(ACTION, ACTION_ID, action)]}]}] + resources
    return {'PolicySet': {'PolicySetId': id, 'Version': '1', 'PolicyCombiningAlgId': POLICY_ALGORITHM + 'deny-overrides',
                          'Target': {'AnyOf': target}, 'Children': [child]}}


def designator(category, id, datatype):
    return {'AttributeDesignator': {'Category': category, 'AttributeId': id, 'DataType': datatype}}


def few(value):
    """The document that four cells rest on."""
    level = apply('integer-is-in', {'AttributeValue': {'Value': value, 'DataType': 'integer'}}, designator(SUBJECT, 'level', 'integer'))
    return policy('few', [{'RuleId': 'r', 'Effect': 'Permit', 'Condition': level}])


def dated(id, department='d1'):
    """The root: what four cells read of a document, what four read of the day, and what every cell reads of its person."""
    day = apply('date-is-in', {'AttributeValue': {'Value': '2026-01-01', 'DataType': 'date'}}, designator(ENVIRONMENT, TODAY, 'date'))
    clock = policy('clock', [{'RuleId': 'r', 'Effect': 'Permit', 'Condition': day}])
    departments = designator(SUBJECT, 'department', 'string')
    works = apply('string-is-in', {'AttributeValue': {'Value': department}}, departments)
    rest = policy('rest', [{'RuleId': 'r', 'Effect': 'Permit', 'Condition': works}])
    children = [gate('first', 'read', {'PolicyIdReference': {'Id': 'few'}}), gate('second', 'write', clock), rest]
    return {'PolicySet': {'PolicySetId': id, 'Version': '1', 'PolicyCombiningAlgId': POLICY_ALGORITHM + 'deny-overrides', 'Children': children}}


def setup(size):
    people, actions, resources = SIZES[size]
    yield line('policy.add', document=few(1))
    yield line('policy.add', document=dated('all'))
    yield line('policy.add', document=dated('other'))
    yield line('root.set', reference={'PolicySetIdReference': {'Id': 'all'}})
    yield from (line('action.add', name=name) for name in ['read', 'write', 'approve', 'delete'][:actions])
    yield from (line('resource.add', name=f'resource-{i:02}') for i in range(resources))
    yield from (line('person.add', name=f'person-{i:03}') for i in range(people))


def attribute(entity, id, type, values):
    return line('attr.set', category='AccessSubject', entity=entity, attribute=id, type=type, values=values)


def root(id):
    return line('root.set', reference={'PolicySetIdReference': {'Id': id}})


# Of each kind the line of the edit of that number, and how many edits are timed.
KINDS = {
    'values-of-four': (lambda i, n: attribute('person-000', 'level', 'integer', [i % 2]), 2000),
    'values-of-a-person': (lambda i, n: attribute(f'person-{i % n[0]:03}', 'department', 'string', [f'd{i // n[0] % 2}']), 256),
    'values-unread': (lambda i, n: attribute('person-000', 'unread', 'integer', [i % 2]), 2000),
    'replace-four': (lambda i, n: line('policy.replace', document=few(i % 2)), 2000),
    'replace-equal': (lambda i, n: line('policy.replace', document=few(0)), 2000),
    'day-of-four': (lambda i, n: line('day.set', day=f'2026-01-0{i % 2 + 1}'), 2000),
    'root': (lambda i, n: root(['other', 'all'][i % 2]), 8),
    'person': (lambda i, n: line(['person.drop', 'person.add'][i % 2], name=f'person-{n[0] // 2:03}'), 16),
    'resource': (lambda i, n: line(['resource.drop', 'resource.add'][i % 2], name='resource-09'), 16),
    'action': (lambda i, n: line(['action.drop', 'action.add'][i % 2], name='approve'), 8),
}


class Running:
    """A program that answers lines."""

    def __init__(self, command):
        self.child = subprocess.Popen(command, stdin=subprocess.PIPE, stdout=subprocess.PIPE)

    def cpu(self):
        with open(f'/proc/{self.child.pid}/schedstat') as file:
            return int(file.read().split()[0]) / 1e3

    def tell(self, lines):
        """The replies to some lines, and the microseconds of CPU that they took."""
        before, parts, left = self.cpu(), [], len(lines)
        data, sent = ''.join(text + '\n' for text in lines).encode(), 0
        while left > 0:
            writable = [self.child.stdin] if sent < len(data) else []
            readable, writable, _ = select.select([self.child.stdout], writable, [])
            if writable:
                sent += os.write(self.child.stdin.fileno(), data[sent:sent + 4096])
            if readable:
                read = os.read(self.child.stdout.fileno(), 1 << 20)
                if not read:
                    sys.exit('the program ended')
                parts.append(read)
                left -= read.count(b'\n')
        return b''.join(parts).split(b'\n')[:-1], self.cpu() - before

    def evaluations(self):
        return int(self.tell([line('work')])[0][0].split(b':')[1][:-1])

    def end(self):
        self.child.stdin.close()
        self.child.wait()


def measured(command, kinds):
    """Of each kind and size: microseconds for one edit, and cells touched by one."""
    found = {}
    for size, names in SIZES.items():
        for _ in range(RUNS):
            running = Running(command)
            running.tell(list(setup(size)))
            for kind in kinds:
                make, count = KINDS[kind]
                lines = [make(i, names) for i in range(count)]
                before = running.evaluations()
                replies, cpu = running.tell(lines)
                wrong = [reply for reply in replies if not reply.startswith(b'{"changes":')]
                if wrong:
                    sys.exit(f'{kind}: {wrong[0]!r}')
                found.setdefault((kind, size), []).append((cpu / count, (running.evaluations() - before) / count))
            running.end()
    return {key: (statistics.median(cpu for cpu, _ in runs), runs[0][1]) for key, runs in found.items()}


def main():
    kinds = sys.argv[1:] or list(KINDS)
    ours = measured([PROGRAM, 'serve', *LIMITS], kinds)
    theirs = measured([PEER, 'serve', *LIMITS], kinds) if PEER else {}
    print(f'{"kind":20} {"cells":>7} {"touched":>9} {"us":>10} {"size x":>7}' + (f' {"peer us":>10} {"ratio":>7}' if PEER else ''))
    for kind in kinds:
        for size in SIZES:
            cpu, touched = ours[kind, size]
            row = f'{kind:20} {size:7} {touched:9.1f} {cpu:10.1f} {cpu / ours[kind, 1024][0]:7.2f}'
            if PEER:
                peer = theirs[kind, size][0]
                row += f' {peer:10.1f} {cpu / peer:7.2f}'
            print(row)


if __name__ == '__main__':
    main()
