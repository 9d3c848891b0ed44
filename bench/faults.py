#!/usr/bin/env python3
"""Lets the program want memory, or its input or output fail, at each place in turn, and looks whether it answers that and nothing else changes.

    bench/faults.py PROGRAM [SESSION ..]      default: the sessions of ROWS

    JOBS=4        processes side by side; default: one a processor
    WIDTHS=1,8    so many allocations in a row are refused: the Nth alone, and the Nth with the next seven
    BYTES=4096    at most so many bytes of the lines of a session, and of its replies, have a fault, evenly spread

SESSION is the name of a session of crates/conformance, or `FILE.jsonl` with one {"line": ..} a step. A small shim (bench/faults.c, compiled by cc) stands between
the program and the C library: it counts allocations and bytes, and fails where it is told to. Each try has a process of its own.

Growths: for each line, and for N from 1 on, the process is told the lines before, and then the line's Nth allocation is refused. Then
- the reply is {"refused":15}, and the count of evaluations rose by at most what it rises by undisturbed,
- the table, the counts and the notices of all sixteen sessions are what they were before the line,
- the same line again is answered as if nothing had happened, its serial included, and the count rises by exactly what it rises by undisturbed,
until the line makes fewer than N. Of the start each allocation is refused too: the program ends with status 3 and writes nothing.
Reads: behind each byte of the lines the input fails: the program ends with status 2, and has written the whole replies to the lines that it had whole.
Writes: behind each byte of the replies the output fails: the program ends with status 2, and has written the bytes before.

The last line printed is `N tries, M wrong`.
"""
import json, mmap, os, re, select, struct, subprocess, sys, tempfile
from concurrent.futures import ProcessPoolExecutor

HERE = os.path.dirname(os.path.abspath(__file__))

# Edits of each kind (names, values, documents, issuers, the root, the day, the moment); asks; reports; marks and notices; a dump.
ROWS = ['first_table', 'attribute_arrives', 'the_most_recent_version', 'drop_and_add_again', 'issuers', 'or_stops_early', 'certification_date',
        'closing_time', 'ask_beside_table', 'ask_included', 'reports', 'change_and_back', 'marks_per_session', 'person_dropped',
        'evaluations_of_a_withdrawal', 'dump_of_issuers']
# The fields of the page that the shim shares with this driver, in its order.
ASKED, FIRST, LAST, REFUSED, WAITING, READ_LIMIT, READ, WRITE_LIMIT, WRITTEN = range(9)
WANT = b'{"refused":15}'
PROBES = [b'{"do":"table"}', b'{"do":"counts"}'] + [b'{"do":"notices","session":%d}' % number for number in range(16)]
STATUS = {'read': 2, 'write': 2, 'memory': 3}
SAID = {'read': b'review: read fault\nstandard input: Input/output error (os error 5)\n', 'write': b'review: write fault\n', 'memory': b'review: out of memory\n'}


class Program:
    """How the program is started behind the shim, over as many modules of attributes and of policies."""

    def __init__(self, path, shim, modules):
        self.words = [path, 'serve', '--attribute-modules', modules, '--policy-modules', modules]
        self.shim = shim

    def start(self, page, errors=subprocess.DEVNULL):
        surroundings = {**os.environ, 'LD_PRELOAD': self.shim, 'FAULTS_PAGE': page.name}
        return subprocess.Popen(self.words, stdin=subprocess.PIPE, stdout=subprocess.PIPE, stderr=errors, bufsize=0, env=surroundings)


class Page:
    """The page that the shim and this driver share."""

    def __init__(self):
        self.file = tempfile.NamedTemporaryFile(prefix='faults-')
        self.file.write(bytes(4096))
        self.file.flush()
        self.name = self.file.name
        self.memory = mmap.mmap(self.file.fileno(), 4096)

    def __enter__(self):
        return self

    def __exit__(self, *_):
        self.memory.close()
        self.file.close()

    def get(self, field):
        return struct.unpack_from('Q', self.memory, 8 * field)[0]

    def put(self, field, value):
        struct.pack_into('Q', self.memory, 8 * field, value)


class Service:
    """A process of the program, which is asked line by line."""

    def __init__(self, program):
        self.page = Page()
        self.process = program.start(self.page)
        self.rest = b''

    def __enter__(self):
        return self

    def __exit__(self, *_):
        self.process.kill()
        self.process.wait()
        self.process.stdin.close()
        self.process.stdout.close()
        self.page.__exit__()

    def wait(self):
        """Waits until the program reads on, so that what it allocates belongs to the line before."""
        while not self.page.get(WAITING) and self.process.poll() is None:
            pass

    def refuse(self, number, width):
        """Refuses the allocation of that number from now on, and those behind it, as many as the width."""
        first = self.page.get(ASKED) + number
        self.page.put(LAST, first + width - 1)
        self.page.put(FIRST, first)

    def ask(self, lines):
        """The replies to some lines; fewer if the program ends or is silent for a minute."""
        data, replies = b''.join(line + b'\n' for line in lines), []
        while len(replies) < len(lines):
            readable, writable, _ = select.select([self.process.stdout], [self.process.stdin] if data else [], [], 60)
            if writable:
                try:
                    data = data[os.write(self.process.stdin.fileno(), data[:4096]):]
                except BrokenPipeError:
                    break
            if readable:
                got = os.read(self.process.stdout.fileno(), 1 << 20)
                if not got:
                    break
                *whole, self.rest = (self.rest + got).split(b'\n')
                replies += whole
            if not readable and not writable:
                break
        return replies

    def work(self):
        """The count of evaluations, or none where the program doesn't tell it."""
        replies = self.ask([b'{"do":"work"}'])
        return json.loads(replies[0]).get('evaluations') if replies else None


class Seen:
    """What a line is answered undisturbed, what the probes are answered before it, and the count of evaluations before it, with what it rises by."""

    def __init__(self, service, line):
        self.probed, self.before = service.ask(PROBES), service.work()
        self.reply = service.ask([line])
        self.rise = service.work() - self.before


def growth(program, lines, at, number, width, seen):
    """None where the line makes fewer allocations, else what is wrong with one try, as a list of sentences."""
    with Service(program) as service:
        service.ask(lines[:at])
        service.wait()
        service.refuse(number, width)
        reply = service.ask([lines[at]])
        service.wait()
        service.page.put(FIRST, 0)
        if not service.page.get(REFUSED):
            return None
        if reply != [WANT]:
            return [f'is answered {reply[0][:200] if reply else "nothing"}']
        wrong, work = [], service.work()
        if work is None or not seen.before <= work <= seen.before + seen.rise:
            wrong.append(f'counts {work} evaluations, not {seen.before} to {seen.before + seen.rise}')
        if service.ask(PROBES) != seen.probed:
            wrong.append('changes the table, the counts or the notices')
        if service.ask([lines[at]]) != seen.reply:
            wrong.append('changes what the same line is answered then')
        then = service.work()
        if work is not None and then != work + seen.rise:
            wrong.append(f'counts {then} evaluations when it is accepted, not {work + seen.rise}')
        return wrong


def growths(program, lines, at, widths):
    """The number of tries with one line, and what is wrong with them."""
    with Service(program) as service:
        service.ask(lines[:at])
        seen = Seen(service, lines[at])
    tries, wrong = 0, []
    for width in widths:
        number = 1
        while (found := growth(program, lines, at, number, width, seen)) is not None:
            wrong += [f'line {at + 1}, allocation {number} and {width - 1} more refused: it {it}: {lines[at][:80]}' for it in found]
            number += 1
        tries += number - 1
    return tries, wrong


def ended(program, data, fields):
    """What the program writes of an input, how it ends and what it says of it, with those fields of the page set."""
    with Page() as page:
        for field, value in fields.items():
            page.put(field, value)
        process = program.start(page, subprocess.PIPE)
        try:
            out, said = process.communicate(data, 60)
        except subprocess.TimeoutExpired:
            process.kill()
            out, said = process.communicate()
        return out, process.returncode, said


def fault(program, data, kind, fields, out):
    """What is wrong where the program is to end with a fault of that kind and these bytes written, as a list of sentences."""
    found = ended(program, data, fields)
    wanted = out, STATUS[kind], SAID[kind]
    return [] if found == wanted else [f'ends with {found[1]} and {found[2][:80]}, {len(found[0])} bytes written, not {STATUS[kind]} and {len(out)}']


def start(program, data):
    """The number of tries with the allocations before the first line, and what is wrong with them."""
    with Service(program) as service:
        service.wait()
        asked = service.page.get(ASKED)
    found = [(number, fault(program, data, 'memory', {FIRST: number, LAST: number}, b'')) for number in range(1, asked + 1)]
    return asked, [f'allocation {number} of the start refused: it {it}' for number, wrong in found for it in wrong]


def spread(length, most):
    """The places from 0 to the length, or so many of them."""
    return range(length + 1) if length < most else sorted({length * i // (most - 1) for i in range(most)})


def reads(program, lines, places):
    """The number of tries with an input that fails behind those bytes, and what is wrong with them."""
    data = b''.join(line + b'\n' for line in lines)
    replies = ended(program, data, {})[0].split(b'\n')
    wrong = []
    for at in places:
        whole = data[:at].count(b'\n')
        out = b''.join(reply + b'\n' for reply in replies[:whole])
        wrong += [f'input fails behind {at} bytes: it {it}' for it in fault(program, data, 'read', {READ_LIMIT: at + 1}, out)]
    return len(places), wrong


def writes(program, lines, places):
    """The number of tries with an output that fails behind those bytes, and what is wrong with them."""
    data = b''.join(line + b'\n' for line in lines)
    out = ended(program, data, {})[0]
    wrong = []
    for at in places:
        wrong += [f'output fails behind {at} bytes: it {it}' for it in fault(program, data, 'write', {WRITE_LIMIT: at + 1}, out[:at])]
    return len(places), wrong


def tasks(program, lines, widths, most):
    """What there is to try in a session: for each part its kind, its function and what it takes."""
    data = b''.join(line + b'\n' for line in lines)
    out, status, _ = ended(program, data, {})
    if status or out.count(b'\n') != len(lines):
        sys.exit(f'undisturbed it ends with {status} after {out.count(b"%c" % 10)} replies to {len(lines)} lines')
    yield 'growths', start, (program, data)
    for at in range(len(lines)):
        yield 'growths', growths, (program, lines, at, widths)
    for kind, call, places in ('reads', reads, spread(len(data), most)), ('writes', writes, spread(len(out) - 1, most)):
        for first in range(0, len(places), 256):
            yield kind, call, (program, lines, places[first:first + 256])


def named(name):
    """The modules and the lines of a session, given by its name or its file."""
    if name.endswith('.jsonl'):
        steps = [json.loads(text) for text in open(name, encoding='utf-8')]
        return '2', [step['line'].encode() for step in steps if 'line' in step]
    folder = os.path.join(HERE, '..', 'crates', 'conformance', 'sessions')
    for file in sorted(os.listdir(folder)):
        with open(os.path.join(folder, file), encoding='utf-8', newline='') as opened:
            found = re.search(f'^# {re.escape(name)}(?: ([1-4]))?\n(.*?)(?=^# |\\Z)', opened.read(), re.M | re.S)
        if found and ('«' in found[2] or re.search('^\\*', found[2], re.M)):
            sys.exit(f'{name} has copies, or lines that come many times, which are not written out here')
        if found:
            return found[1] or '2', [line.encode() for line in re.findall('^> (.*)', found[2], re.M)]
    sys.exit(f'there is no session {name}')


def main():
    if len(sys.argv) < 2:
        sys.exit(__doc__)
    path = os.path.abspath(sys.argv[1])
    widths = [int(it) for it in os.environ.get('WIDTHS', '1,8').split(',')]
    most = int(os.environ.get('BYTES', '4096'))
    tries, wrong = 0, 0
    with tempfile.TemporaryDirectory() as folder, ProcessPoolExecutor(int(os.environ.get('JOBS', os.cpu_count()))) as pool:
        shim = os.path.join(folder, 'faults.so')
        subprocess.run(['cc', '-O2', '-shared', '-fPIC', '-o', shim, os.path.join(HERE, 'faults.c')], check=True)
        asked = []
        for name in sys.argv[2:] or ROWS:
            modules, lines = named(name)
            asked.append((name, [(kind, pool.submit(call, *words)) for kind, call, words in tasks(Program(path, shim, modules), lines, widths, most)]))
        for name, parts in asked:
            count, found = {'growths': 0, 'reads': 0, 'writes': 0}, []
            for kind, it in parts:
                number, sentences = it.result()
                count[kind], found = count[kind] + number, found + sentences
            print(f'{name}: {", ".join(f"{number} {kind}" for kind, number in count.items())}, {len(found)} wrong', flush=True)
            for text in found[:20]:
                print(f'  {text}')
            tries, wrong = tries + sum(count.values()), wrong + len(found)
    print(f'{tries} tries, {wrong} wrong')
    return 1 if wrong else 0


if __name__ == '__main__':
    sys.exit(main())
