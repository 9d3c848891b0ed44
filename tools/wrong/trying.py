"""Tries wrong bodies: many in one check, over a copy of their crate that takes each function by its contract.

Whether a body is refused rests on its own clauses and on what the functions that it calls promise. So in the copy the
proof of each function that isn't edited is a hole, which `rattle check --allow-holes` takes by its statement: nothing is
proved again but what is edited. A body stands beside its function, under another name, where it can."""
import os
import pathlib
import subprocess
import tempfile

from . import beside
from .functions import CYCLE, body_at

KIT = pathlib.Path(subprocess.run(['rt', 'doc'], capture_output=True, text=True, check=True).stdout.strip()).parent
# The proof of a function that is taken at its contract.
HOLE = 'use Rattle.{crate}.proofs.{place}.Statement as stated\n\n' \
    'pub {name}_spec : {{M : Type 1}} → stated.statement M\n{name}_spec = ?\n'


class Libraries:
    """What crates.txt says that each crate stands on."""

    def __init__(self, top):
        self.top = top
        self.named, self.elsewhere = {}, {}
        for line in (top / 'crates.txt').read_text(encoding='utf-8').split('\n'):
            name, colon, rest = line.partition(':')
            if colon and not line.startswith('#'):
                self.named[name.strip()] = rest.split()

    def below(self, name):
        """The repository's crates that a crate stands on, by whatever way."""
        found, todo = set(), [name]
        while todo:
            more = {one for one in self.named[todo.pop()] if one in self.named} - found
            found |= more
            todo += more
        return sorted(found)

    def built(self, name):
        """Where a library stands: in its crate, or where it was kept from there."""
        return self.elsewhere.get(name) or self.top / 'crates' / name / 'out' / 'rlib' / f'{name}.rlib'

    def words(self, name):
        """How `rattle check` is told of a library's root and of what it stands on."""
        words = ['--crate-name', name, 'src/lib.rt', '-L', f'dependency={KIT}/rlibs']
        for one in ['std', *self.named[name]]:
            words += ['--extern', f'{one}={self.built(one) if one in self.named else KIT / "rlibs" / f"{one}.rlib"}']
        for one in self.below(name):
            words += ['-L', f'dependency={self.built(one).parent}']
        words += ['--antt-project', f'{KIT}/rattle/logic/antt-project.json', '--logic-built', f'{KIT}/logic_built']
        return [*words, '--links', f'{name}=', '--jobs', '1']


def copied(functions, batch):
    """The texts of a copy of a crate in which bodies are tried, by path: all that their check reads of the crate."""
    edited = {functions.proof_of(body.function) for body in batch.bodies if not body.is_beside}
    others = [name for name in functions.written if functions.proof_of(name) not in edited]
    proofs = {beside.folder_of(functions.proof_of(name)) for name in others}
    texts = {path: text for path, text in (functions.texts() | batch.made).items()
             if not any(str(above) in proofs for above in pathlib.PurePosixPath(path).parents)}
    copies = {}
    for body in batch.beside():
        made = body.edit.applied(functions.texts().__getitem__, body.as_control)
        copies.setdefault(body.function, []).extend(beside.lines_of(functions, body, made))
        texts |= beside.proofs_of(functions, body, made)
    for path, names in in_files(functions, others).items():
        texts[path] = emptied(texts[path].split('\n'), [functions.heads[name] for name in names],
                              [copies.get(name, []) for name in names])
    for name in others:
        parts = name.split('::')
        hole = HOLE.format(crate=functions.crate.name, place='.'.join(parts), name=parts[-1])
        texts['/'.join(['proofs', *parts, 'Proof.antt'])] = hole
    return texts


def emptied(lines, heads, copies):
    """The text of a file in which functions have no body, with what is to stand behind each."""
    for (_, head, before), copy in zip(heads, copies):
        at = beside.place_of(lines, head, before)
        if at is not None:
            empty(lines, at)
        if copy:
            behind = body_at(lines, at)[1] + 1
            lines[behind:behind] = copy
    return '\n'.join(lines)


def in_files(functions, names):
    """Functions by the files in which they stand."""
    found = {}
    for name in names:
        found.setdefault(str(functions.heads[name][0]), []).append(name)
    return found


def check(functions, libraries, batch, is_beside=False):
    """What a check says of a batch of bodies: its status and its lines. Beside proofs it takes what they leave."""
    crate = functions.crate.name
    with tempfile.TemporaryDirectory(prefix=f'wrong-{crate}-') as room:
        for path, text in copied(functions, batch).items():
            place = pathlib.Path(room, path)
            place.parent.mkdir(parents=True, exist_ok=True)
            place.write_text(text, encoding='utf-8')
        # (No work is kept from check to check: where it is, what fails is tried twice.)
        words = [f'{KIT}/bin/rattle', 'check', *libraries.words(crate), '--allow-holes']
        for body in batch.bodies:
            words += ['--only', body.tried]
        ran = subprocess.run(words, cwd=room, stdin=subprocess.DEVNULL, stdout=subprocess.PIPE, text=True,
                             errors='replace', stderr=subprocess.STDOUT, preexec_fn=lambda: first_to_go(is_beside))
        return ran.returncode, ran.stdout.split('\n')


def empty(lines, head):
    """Takes the body of the function with a head away, and the name of its cycle: nobody looks at what it calls."""
    if place := body_at(lines, head):
        begins, ends = place
        lines[begins + 1:ends] = ['    loop {}']
        cycle = next((at for at in range(head, -1, -1) if not lines[at].strip() or CYCLE.match(lines[at])), 0)
        if CYCLE.match(lines[cycle]):
            lines[cycle] = ''


def first_to_go(is_beside):
    """Where memory runs out, a check goes before whoever waits for it; beside proofs it takes the processors last."""
    os.nice(5 if is_beside else 0)
    try:
        pathlib.Path('/proc/self/oom_score_adj').write_text('500', encoding='ascii')
    except OSError:
        pass
