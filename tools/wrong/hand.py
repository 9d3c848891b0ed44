"""Which goals of a function are answered by hand, in its proof files. There another body is refused that is right, too:
the answer speaks of the text that it was written for. So such a refusal shows something only beside a control that
isn't refused."""
import re

from .edits import changed_lines, texts_of
from .functions import CYCLE, HEAD, IMPL, implemented
from .verdicts import goal_of

ANSWER = re.compile(r'(?m)^pub ([^\s:]+) :')


def place_of(edit):
    """The function that an edit changes: its file, the line of its head, and the line of the impl around, if there is
    one."""
    texts = texts_of(edit.crate)
    for path, made in edit.applied(texts).items():
        if path.startswith('src/'):
            lines = texts(path).split('\n')
            above = range(min(changed_lines(texts(path), made)), -1, -1)
            head = next((at for at in above if HEAD.match(lines[at])), None)
            if head is not None:
                around = lines[head].startswith(' ') and next((lines[at] for at in range(head, -1, -1)
                                                               if IMPL.match(lines[at])), '')
                return path, lines, head, around or ''
    return None


def cycle_of(lines, head):
    """The name of the cycle of calls in which a function stands, by its attribute."""
    for at in range(head - 1, -1, -1):
        if named := CYCLE.match(lines[at]):
            return named[1]
        if not lines[at].lstrip().startswith(('#', '//')):
            return None
    return None


def folders_of(edit):
    """The folders in which proof files of an edit's function may stand."""
    path, lines, head, around = place_of(edit)
    name, proofs = HEAD.match(lines[head])[1], edit.crate / 'proofs'
    cycle = cycle_of(lines, head)
    found = [folder for folder in proofs.rglob(f'+{cycle}') if folder.is_dir()] if cycle else []
    if around:
        kind, _ = implemented(IMPL.match(around)[1])
        return found + [folder for folder in proofs.rglob(name) if folder.parent.name.startswith(kind)]
    module = path.removeprefix('src/').removesuffix('.rt')
    return found + [proofs / name if module == 'lib' else proofs / module / name]


def answered(edit):
    """The goals that are answered there, each as a head names it; and whether the whole proof is written by hand."""
    goals, whole = set(), False
    for folder in folders_of(edit):
        for path in folder.glob('*.antt') if folder.is_dir() else []:
            whole = whole or path.name == 'Proof.antt'
            goals |= {goal_of(name) for name in ANSWER.findall(path.read_text(encoding='utf-8'))}
    return goals, whole


def is_by_hand(edit):
    """Whether the goal that an edit's head names is answered by hand."""
    goals, whole = answered(edit)
    return whole or edit.by in goals
