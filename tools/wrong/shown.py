"""What became of wrong bodies that were run: each beside the right program, over what its head names."""
import concurrent.futures
import dataclasses
import hashlib
import json
import os
import pathlib
import queue
import struct
import tempfile
import threading

from . import shown_calls, shown_program, shown_source
from .edits import Edit
from .kept import FOLDER

WITHOUT_MEMORY = ' without memory'
# Of a call so many allocations are refused, one in each run.
MOST_REFUSALS = 500
SHOWN, UNSEEN = 'shown', 'unseen'
NOT_SHOWN, NOT_CALLED, UNKNOWN, UNFIT = 'NOT SHOWN', 'NOT CALLED', 'NAMES NOTHING', 'THE RIGHT PROGRAM FAILS'


@dataclasses.dataclass
class Verdict:
    """What became of a wrong body, by what its head names, and the first line that it answers otherwise."""
    edit: Edit
    kind: str
    line: str = ''

    @property
    def is_right(self):
        return self.kind in (SHOWN, UNSEEN)


def first_difference(said, right):
    """The first line that is another, or the status."""
    for mine, other in zip(said[1:], right[1:]):
        here, there = mine.split(b'\n'), other.split(b'\n')
        most = max(len(here), len(there))
        for one, two in zip(here + [b''] * (most - len(here)), there + [b''] * (most - len(there))):
            if one != two:
                return one.decode(errors='replace')[:120]
    return f'status {said[0]}, and not {right[0]}'


def is_fit(call, right):
    """Whether the right program answers a call as it should, as far as its status tells: it passes what is stored as a
    test, and ends by itself."""
    status = right[0]
    return status == 0 if call.is_test else status != 'late' and status >= 0


class Rooms:
    """Folders in which calls are made, one for each thread, and the answers of the right program."""

    def __init__(self, program, shim, folder, jobs):
        self.free, self.right, self.lock = queue.Queue(), {}, threading.Lock()
        self.shim = shim
        for number in range(jobs):
            room = pathlib.Path(folder, str(number))
            room.mkdir()
            self.free.put(shown_calls.Room(program, room))

    def answer(self, call, number, refused=0):
        """What the program answers with a wrong body, and whose functions were called; with an allocation refused."""
        room = self.free.get()
        try:
            return room.answer(call, number, self.refusing(room, refused) if refused else None)
        finally:
            self.free.put(room)

    def right_answer(self, call, refused=0):
        """The same of the right program, which is asked once."""
        with self.lock:
            known = self.right.get((call.name, refused))
        if known is None:
            known = self.answer(call, 0, refused)
            with self.lock:
                self.right[call.name, refused] = known
        return known

    def refusing(self, room, number):
        """The surroundings in which the allocation of that number is refused."""
        page = room.folder / 'page'
        page.write_bytes(struct.pack('<QQQ', 0, number, number).ljust(4096, b'\0'))
        return {'LD_PRELOAD': self.shim, 'FAULTS_PAGE': str(page)}

    def allocations(self, call):
        """How many allocations the right program asks for in a call."""
        room = self.free.get()
        try:
            room.answer(call, 0, self.refusing(room, 1 << 60))
            return struct.unpack('<Q', (room.folder / 'page').read_bytes()[:8])[0]
        finally:
            self.free.put(room)


class Run:
    """The calls that there are, and the program, which is built when it is first needed."""

    def __init__(self, top, bodies, is_anew, program=None):
        self.top, self.is_anew, self.program = top, is_anew, program
        self.texts, trials = shown_source.all_files(top, bodies)
        plain, _ = shown_source.all_files(top, [])
        above = {path: text for path, text in plain.items() if path.startswith(f'crates/{shown_source.PROGRAM}/')}
        self.rests_on = shown_program.sum_of({path: text for path, text in plain.items() if path not in above})
        self.trials_rest_on = shown_program.sum_of(above)
        self.calls = shown_calls.calls(top, trials)

    def named(self, edit):
        """The call that a head names, and whether allocations are refused in it."""
        name = edit.shown.removesuffix(WITHOUT_MEMORY)
        return self.calls.get(name) or shown_calls.random_call(name), edit.shown.endswith(WITHOUT_MEMORY)

    def kept_at(self, edit):
        """Where it stands that a body was shown: by all that this rests on."""
        call, _ = self.named(edit)
        pairs = [[pair.path, pair.old, pair.new] for pair in edit.pairs]
        said = [self.rests_on, edit.crate.name, pairs, edit.shown, call.sums, *bounds()]
        if edit.shown.startswith('trial '):
            said.append(self.trials_rest_on)
        return FOLDER / hashlib.sha256(json.dumps(said).encode()).hexdigest()

    def rooms(self, folder, jobs):
        """The program, in folders of its own."""
        shim = os.path.join(folder, 'faults.so')
        shown_program.run(shown_program.COMPILER, '-O2', '-shared', '-fPIC', '-o', shim, self.top / 'bench/faults.c')
        return Rooms(self.program or shown_program.program(self.texts, self.is_anew), shim, folder, jobs)

    def verdict(self, rooms, number, edit):
        """What becomes of a body by what its head names."""
        call, is_refused = self.named(edit)
        if is_refused:
            return self.without_memory(rooms, number, edit, call)
        right, met = rooms.right_answer(call)
        if not is_fit(call, right):
            return Verdict(edit, UNFIT, f'status {right[0]}')
        if number not in met:
            return Verdict(edit, NOT_CALLED)
        said = self.differing(rooms, call, number, right)
        return Verdict(edit, SHOWN, first_difference(said, right)) if said else Verdict(edit, NOT_SHOWN)

    @staticmethod
    def differing(rooms, call, number, right, refused=0):
        """What a wrong body answers, if it differs from the right answer twice: on a busy machine a call may fail by
        itself."""
        for _ in range(2):
            said, _ = rooms.answer(call, number, refused)
            if said == right:
                return None
        return said

    def without_memory(self, rooms, number, edit, call):
        """What becomes of a body where one allocation is refused: the one behind the last of the right program, then
        the last, and so on."""
        last = rooms.allocations(call) + 1
        for refused in range(last, max(last - MOST_REFUSALS, 0), -1):
            right, met = rooms.right_answer(call, refused)
            if number not in met:
                continue
            said = self.differing(rooms, call, number, right, refused)
            if said:
                return Verdict(edit, SHOWN, f'allocation {refused} refused: {first_difference(said, right)}')
        return Verdict(edit, NOT_SHOWN)

    def all(self, asked, jobs, out=None):
        """Runs each body over what its head names, tells what became of it, and counts; the status."""
        told, todo = [], []
        for number, edit in asked:
            if edit.unseen and not edit.shown:
                told.append(Verdict(edit, UNSEEN, edit.unseen))
            elif not self.named(edit)[0]:
                told.append(Verdict(edit, UNKNOWN, edit.shown))
            elif not self.is_anew and self.kept_at(edit).is_file():
                told.append(Verdict(edit, SHOWN, self.kept_at(edit).read_text(encoding='utf-8')))
            else:
                todo.append((number, edit))
        kept = len(told)
        if todo:
            with tempfile.TemporaryDirectory(prefix='wrong-run-') as folder, \
                    concurrent.futures.ThreadPoolExecutor(jobs) as pool:
                rooms = self.rooms(folder, jobs)
                told += pool.map(lambda one: self.verdict(rooms, *one), todo)
        for verdict in told[kept:]:
            if verdict.kind == SHOWN:
                FOLDER.mkdir(parents=True, exist_ok=True)
                self.kept_at(verdict.edit).write_text(verdict.line, encoding='utf-8')
        return counted(told, len(todo), out)

    def found(self, asked, jobs):
        """Looks through all calls for the first that shows each body, and writes it into its head."""
        with tempfile.TemporaryDirectory(prefix='wrong-run-') as folder, \
                concurrent.futures.ThreadPoolExecutor(jobs) as pool:
            rooms = self.rooms(folder, jobs)
            found = pool.map(lambda one: (one[1], *self.first(rooms, *one)), asked)
            count = 0
            for edit, name, line in found:
                count += bool(line)
                if line:
                    write_head(edit, name)
                print(f'{edit.label}: {name or "never called"} {line}', flush=True)
        print(f'shown by running: {count} of {len(asked)}')
        return 0

    def first(self, rooms, number, edit):
        """The name of the first call that shows a body, with the line that is another; else whether any calls it."""
        was_called = ''
        for name, call in self.calls.items():
            right, met = rooms.right_answer(call)
            if number in met:
                was_called = 'called, and nothing is another'
                said = self.differing(rooms, call, number, right)
                if said:
                    return name, first_difference(said, right)
        return was_called, ''


def bounds():
    """What bounds a call, for a sum."""
    return [shown_calls.PROCESSOR_SECONDS, shown_calls.MOST_MEMORY, MOST_REFUSALS]


def write_head(edit, name):
    """Puts what shows a body behind the goal that refuses it."""
    path = edit.crate / 'wrong' / f'{edit.name}.edit'
    lines = path.read_text(encoding='utf-8').split('\n')
    lines.insert(lines[0].startswith('by'), f'shown: {name}')
    path.write_text('\n'.join(lines), encoding='utf-8')


def counted(told, ran, out):
    """Tells of each body that isn't shown, and counts; the status."""
    for verdict in told:
        if not verdict.is_right:
            print(f'{verdict.edit.label}: {verdict.kind} by {verdict.edit.shown or "its head"}')
    if out:
        rows = [{'crate': one.edit.crate.name, 'name': one.edit.name, 'shown': one.edit.shown, 'verdict': one.kind,
                 'line': one.line} for one in told]
        pathlib.Path(out).write_text(json.dumps(rows, indent=1), encoding='utf-8')
    shown = sum(verdict.kind == SHOWN for verdict in told)
    unseen = sum(verdict.kind == UNSEEN for verdict in told)
    wrong = [verdict for verdict in told if not verdict.is_right]
    print(f'shown by running: {shown} of {len(told)}, {unseen} can\'t be seen, {len(wrong)} failed; {ran} were run now')
    return 1 if wrong else 0
