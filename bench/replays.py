#!/usr/bin/env python3
"""Dumps the states of random sessions, tells each dump to a new process, and compares what the two answer then.

    bench/replays.py PROGRAM [SEED ..]    default: sessions of the seeds from 1 on, until so many lines were sent

    LINES=10000   lines in all, those of the replays among them

A session has random edits over one to four modules of each sort (bench/random_lines.py). Then its dump, of both versions where no moment is set, goes through
the program as `review lines`, and what comes of it to a new process. Then
- the lines are the texts of the dump,
- none of them is refused, and the last serial is their number without the first,
- the table, the counts and the dumps are those of the first process, byte for byte,
- no session has a mark, and each cell was evaluated once,
- both go on alike under a policy that tells each value and what the environment has, and over more random edits: but for serials
  all replies are equal.
At last the program is given what is no dump, a full disk and a folder, as `review lines`: it says so, ends with its status and writes nothing.

The last line printed is `N sessions, M lines, K wrong`.
"""
import json, os, random, re, subprocess, sys
from edits import ENVIRONMENT, Running
from random_lines import ATTRIBUTES, CATEGORIES, CLOCK, ISSUERS, VALUES, Lines
from workloads import line, policy, stored

MOST = int(os.environ.get('LINES', '10000'))
# What a state is compared by.
ASKED = ['{"do":"table"}', '{"do":"counts"}', '{"do":"dump"}', '{"do":"dump","version":1}']
# What begins anew.
BEGUN = ['{"do":"work"}', '{"do":"notices","session":3}', '{"do":"mark"}']
NO_DUMPS = [b'', b'{}', b'[]', b'null', b'{"dump":{}}', b'{"dump":["a",1]}', b'{"dump":["a"],"more":1}', b'{"dump":["a","b\\nc"]}',
            b'{"dump":["a","b"]', b'{"dump":["a","b"]}{}', b'{"dump":["a","\xff"]}', rb'{"dump":["\ud800"]}']


def telling():
    """A policy that permits everything, and tells all values of listed names, and the date, the time and the dateTime."""
    sources = [(category, id, name, issuer) for category, _, _ in CATEGORIES.values() for id in ATTRIBUTES for name in VALUES for issuer in [None, *ISSUERS]]
    sources += [(ENVIRONMENT, id, name, None) for name, id in CLOCK.items()]
    told = []
    for category, id, name, issuer in sources:
        keys = {'Category': category, 'AttributeId': id, 'DataType': name} | ({'Issuer': issuer} if issuer else {})
        told.append({'AttributeId': f'{id} {issuer}', 'Category': category, 'Expression': {'AttributeDesignator': keys}})
    every = {'ObligationId': 'every', 'FulfillOn': 'Permit', 'AttributeAssignmentExpression': told}
    return policy('telling', [{'RuleId': 'r', 'Effect': 'Permit'}], ObligationExpressions=[every])


TELLING = [*stored(telling(), 'telling'), line('table')]


def texts(reply):
    """The lines of the reply of a dump, or none."""
    try:
        return json.loads(reply).get('dump')
    except ValueError:
        return None


def lines_of(program, reply):
    """What the program makes of a reply as `review lines`: its lines, or how it ended."""
    run = subprocess.run([program, 'lines'], input=reply + b'\n', stdout=subprocess.PIPE)
    return f'status {run.returncode}' if run.returncode else run.stdout.decode().split('\n')[:-1]


def differences(lines, found, wanted):
    """Sentences on the replies that are others than wanted."""
    return [f'{text[:200]} is answered {new[:200]!r}, not {old[:200]!r}' for text, new, old in zip(lines, found, wanted) if new != old]


def without_serials(replies):
    return [re.sub(rb'"(serial|mark)":[0-9]+', rb'"\1":0', reply) for reply in replies]


class First:
    """What the process of a session answers, with the lines by which it goes on."""

    def __init__(self, program, words, made, lines):
        self.more = TELLING + [line('root.set', reference=made.reference())] + [made.line() for _ in range(20)] + ASKED
        running = Running([program, 'serve', *words])
        running.tell(lines)
        self.state = running.tell(ASKED)[0]
        self.after = without_serials(running.tell(self.more)[0])
        running.end()


def replayed(program, words, lines, first):
    """What is wrong with the replay of a dump."""
    running = Running([program, 'serve', *words])
    replies, state, begun, after = (running.tell(told)[0] for told in (lines, ASKED, BEGUN, first.more))
    running.end()
    wrong = [f'{text[:200]} is answered {reply!r}' for text, reply in zip(lines, replies) if reply.startswith(b'{"refused":')]
    cells = len(json.loads(state[0])['table'])
    wanted = [b'{"evaluations":%d}' % cells, b'{"refused":12}', b'{"mark":%d}' % (len(lines) - 1)]
    wrong += differences(ASKED, state, first.state) + differences(BEGUN, begun, wanted)
    return wrong + differences(first.more, without_serials(after), first.after)


def session(program, seed):
    """The number of lines that are sent for a seed, and what is wrong with the replays."""
    chance = random.Random(f'session {seed}')
    modules = chance.randrange(1, 5)
    words = [f'--attribute-modules={modules}', f'--policy-modules={modules}']
    made = Lines(seed, modules)
    lines = [made.line() for _ in range(chance.randrange(200))]
    first = First(program, words, made, lines)
    count, wrong = len(lines), []
    for dump in first.state[2:]:
        if dump == b'{"refused":11}' and b'"{\\"do\\":\\"moment.set\\"' in first.state[2]:
            continue
        told = lines_of(program, dump)
        if told == texts(dump):
            count, wrong = count + len(told), wrong + replayed(program, words, told, first)
        else:
            wrong.append(f'{dump[:200]!r}: review lines has {told[:20]}')
    return count, wrong


def ended(program, **streams):
    """How the program ends as `review lines`: its status, what it wrote and what it said."""
    run = subprocess.run([program, 'lines'], stderr=subprocess.PIPE, **streams)
    return run.returncode, run.stdout or b'', run.stderr


def faults(program):
    """What is wrong with the ends over no dump, a full disk and a folder."""
    found = [(repr(data), ended(program, input=data, stdout=subprocess.PIPE), (1, b'', b'review: not a dump\n')) for data in NO_DUMPS]
    with open('/dev/full', 'wb') as full:
        found.append(('a full disk', ended(program, input=b'{"dump":["a"]}', stdout=full), (2, b'', b'review: write fault\n')))
    folder = os.open('/', os.O_RDONLY)
    found.append(('a folder', ended(program, stdin=folder, stdout=subprocess.PIPE), (2, b'', b'review: read fault\nstandard input: Is a directory (os error 21)\n')))
    os.close(folder)
    return [f'{what}: review lines ends with {end}, not {wanted}' for what, end, wanted in found if end != wanted]


def main():
    if len(sys.argv) < 2:
        sys.exit(__doc__)
    program, seeds = os.path.abspath(sys.argv[1]), [int(it) for it in sys.argv[2:]]
    sent, done, wrong = 0, 0, []
    while done < len(seeds) if seeds else sent < MOST:
        seed = seeds[done] if seeds else done + 1
        count, found = session(program, seed)
        sent, done, wrong = sent + count, done + 1, wrong + [f'seed {seed}: {text}' for text in found]
    wrong += faults(program)
    for text in wrong[:20]:
        print(text)
    print(f'{done} sessions, {sent} lines, {len(wrong)} wrong')
    return 1 if wrong else 0


if __name__ == '__main__':
    sys.exit(main())
