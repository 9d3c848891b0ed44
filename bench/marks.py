#!/usr/bin/env python3
"""Times marks, edits under marks and notices over a table of 1,024 and of 65,536 cells, and measures how the log of old answers grows.

    bench/marks.py

    PROGRAM=crates/review/out/review  the program (the default, as `rt run` leaves it)
    PEER=/path/of/another/program     run as `PEER serve` on the same lines, beside it, with ratios
    RUNS=3                            runs of each, of which the median counts

Sixteen sessions mark; an edit changes four cells, or those of a person, and all ask for notices; 200 more edits follow, and all ask again. Each phase is timed alone,
in microseconds of CPU for one line, and memory is the most that a run took, in MiB. The column `size x` has the cost at 65,536 cells by that at 1,024, and `mark x` the
cost under marks by that of the same lines without.

Then one session marks, and many edits change all cells, or four: what a run takes more after them than one without the mark, in bytes for each answer that was changed.
"""
import statistics, sys
from edits import PEER, PROGRAM, RUNS, SIZES, Running, attribute, setup
from workloads import ACTION, ACTION_ID, RESOURCE, RESOURCE_ID, SUBJECT, SUBJECT_ID, bag, line, lists, policy, stored

EDITS = 200
# How often each session marks.
MARKS = 20
# Of each kind the line of the edit of that number, from 1 on, how often each session asks for notices, and the sizes of the tables: the small one has no 200 people.
KINDS = {
    'four cells': (lambda i: attribute('person-000', 'level', 'integer', [i % 2]), 20, [1024, 65536]),
    'a person': (lambda i: attribute(f'person-{i:03}', 'department', 'string', ['d1']), 1, [65536]),
}


def all_sessions(command, rounds):
    return [line(command, session=session) for _ in range(rounds) for session in range(16)]


def told(running, lines):
    """Microseconds of CPU for one of some lines, none of which may be refused."""
    replies, cpu = running.tell(lines)
    wrong = [reply for reply in replies if reply.startswith(b'{"refused":')]
    if wrong:
        sys.exit(f'{wrong[0]!r}')
    return cpu / len(lines)


def memory(running, what):
    """KiB that the program has now (VmRSS), or had at most (VmHWM)."""
    with open(f'/proc/{running.child.pid}/status') as file:
        return int(next(text for text in file if text.startswith(what)).split()[1])


def marked(command, size, kind):
    """What each phase takes with sixteen marks."""
    edit, rounds, _ = KINDS[kind]
    running, found = Running(command), {}
    told(running, list(setup(size)))
    found['mark'] = told(running, all_sessions('mark', MARKS))
    told(running, [edit(1)])
    found['notices, 1 edit'] = told(running, all_sessions('notices', rounds))
    found['edit'] = told(running, [edit(i) for i in range(2, EDITS + 2)])
    found[f'notices, {EDITS + 1} edits'] = told(running, all_sessions('notices', rounds))
    found['MiB'] = memory(running, 'VmHWM') / 1024
    running.end()
    return found


def unmarked(command, size, kind):
    """What the edits take without a mark."""
    edit, _, _ = KINDS[kind]
    running, found = Running(command), {}
    told(running, [*setup(size), edit(1)])
    found['edit'] = told(running, [edit(i) for i in range(2, EDITS + 2)])
    found['MiB'] = memory(running, 'VmHWM') / 1024
    running.end()
    return found


def medians(phases, command, size, kind):
    """The median of each phase over some runs."""
    runs = [phases(command, size, kind) for _ in range(RUNS)]
    return {what: statistics.median(run[what] for run in runs) for what in runs[0]}


def print_row(name, cells, cost, size='', mark='', peer=None):
    beside = '' if peer is None else f' {peer:10.1f} {cost / peer if peer > 0 else 0:7.2f}'
    print(f'{name:36} {cells:7} {cost:10.1f} {size:>7} {mark:>7}{beside}', flush=True)


def print_phases(kind):
    """The rows of one kind of edit."""
    small = {}
    for size in KINDS[kind][2]:
        ours, plain = medians(marked, [PROGRAM, 'serve'], size, kind), medians(unmarked, [PROGRAM, 'serve'], size, kind)
        theirs = medians(marked, [PEER, 'serve'], size, kind) if PEER else {}
        for what, cost in ours.items():
            by_size = f'{cost / small[what]:.2f}' if what in small else ''
            by_mark = f'{cost / plain[what]:.2f}' if what in plain else ''
            print_row(f'{kind}: {what}', size, cost, by_size, by_mark, theirs.get(what))
        small = ours


def flipped(i, parts):
    """A document that every cell reads: it permits or denies, and its obligation tells these parts of the request."""
    effect = ['Permit', 'Deny'][i % 2]
    assignments = [{'AttributeId': id, 'Expression': bag(category, id)} for category, id in parts]
    log = {'ObligationId': 'log', 'FulfillOn': effect, 'AttributeAssignmentExpression': assignments}
    return policy('p', [{'RuleId': 'r', 'Effect': effect}], ObligationExpressions=[log])


def flips(count, parts):
    """The lines before the mark, and those of so many edits that change every cell."""
    before = [*stored(flipped(0, parts), 'p'), *lists()]
    return before, [line('policy.replace', document=flipped(i, parts)) for i in range(1, count + 1)]


# Of each kind of growth the lines before the mark, and the edits behind it.
GROWTHS = {
    'four cells': (list(setup(65536)), [KINDS['four cells'][0](i) for i in range(1, 50_001)]),
    'all cells, one answer': flips(20, []),
    'all cells, each its own': flips(8, [(SUBJECT, SUBJECT_ID), (ACTION, ACTION_ID), (RESOURCE, RESOURCE_ID)]),
}


def grown(command, before, edits):
    """Bytes that a program has after some edits, and how many answers these changed."""
    running = Running(command)
    told(running, before)
    replies, _ = running.tell(edits)
    taken = memory(running, 'VmRSS') * 1024
    running.end()
    return taken, sum(int(reply.split(b'"changes":')[1].split(b',')[0]) for reply in replies)


def growth(command, before, edits):
    """Bytes for each changed answer under an old mark."""
    kept, changed = grown(command, [*before, line('mark')], edits)
    return (kept - grown(command, before, edits)[0]) / changed


def main():
    print(f'{"phase":36} {"cells":>7} {"us":>10} {"size x":>7} {"mark x":>7}' + (f' {"peer us":>10} {"ratio":>7}' if PEER else ''))
    for kind in KINDS:
        print_phases(kind)
    for kind, (before, edits) in GROWTHS.items():
        peer = growth([PEER, 'serve'], before, edits) if PEER else None
        print_row(f'bytes: {kind}', 65536, growth([PROGRAM, 'serve'], before, edits), peer=peer)


if __name__ == '__main__':
    main()
