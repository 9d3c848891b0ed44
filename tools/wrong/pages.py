"""What pages say of wrong bodies, made of their heads: WRONG_BODIES.md, and the names in the pages of crates."""
import pathlib
import re

from .edits import Fault, changed_lines, texts_of
from .functions import HEAD
from .hand import is_by_hand

TABLE = 'WRONG_BODIES.md'
INTRODUCTION = '''# Wrong bodies

Each of these edits turns the meaning of one function. What tells them apart from a right body stands beside their names
([Contributing](CONTRIBUTING.md#wrong-bodies)); `tools/wrong_bodies.py --pages` writes this page from their heads.

- *Refused by*: the goal by which the prover refuses the edit: a clause of the function's contract
  (`returns-clause-NAME`, or `returns` where the contract has one clause), the invariant of a type or a loop, or what a
  callee requires. Where *a right body passes* stands behind it, the same check proves a body of another text that is
  right, so the refusal is the doing of the contract. Without one it may be another reason. *By hand*: the goal is
  answered in `proofs/` for the text that stands there, so any other text is refused, and nothing is claimed of that.
- *Shown by*: the first stored session, document, call or trial whose answer is another one under the edit.
'''


def function_of(edit):
    """The plain name of the function that an edit changes, as far as its texts tell."""
    texts = texts_of(edit.crate)
    for path, made in edit.applied(texts).items():
        if path.startswith('src/'):
            lines = texts(path).split('\n')
            heads = [HEAD.match(lines[at]) for at in range(min(changed_lines(texts(path), made)), -1, -1)]
            return next((head[1] for head in heads if head), None)
    return None


def table(found):
    """The text of the page of all wrong bodies."""
    text, crate = [INTRODUCTION], None
    for edit in sorted(found, key=lambda edit: (edit.crate.name, edit.name)):
        if edit.crate != crate:
            crate = edit.crate
            text.append(f'\n## `{crate.name}`\n\n| Wrong body | Function | Refused by | Shown by |\n|---|---|---|---|\n')
        text.append(f'| `{edit.name}` | `{function_of(edit)}` | {refused_by(edit)} | {shown_by(edit)} |\n')
    return ''.join(text)


def refused_by(edit):
    """What is said of an edit's refusal."""
    if not edit.by:
        return 'not tried'
    why = f': {edit.why}' if edit.why else ''
    if edit.by_hand:
        return f'by hand: `{edit.by}`{why}'
    return f'`{edit.by}`{why}{"; a right body passes" if edit.has_control else ""}'


def shown_by(edit):
    """What is said of a run that shows an edit."""
    return edit.shown or (f'nothing: {edit.unseen}' if edit.unseen else '')


def named(text, found):
    """A crate's page with the goal behind the name of each of its wrong bodies that a right one stands beside."""
    for edit in found:
        by = f' by `{edit.by.removeprefix("returns-clause-")}`' if edit.has_control and not edit.by_hand else ''
        text = re.sub(rf'`{re.escape(edit.name)}`(?: by `[^`]*`)?', f'`{edit.name}`{by}', text)
    return text


def faults_of(there, top):
    """What is wrong with the edits themselves, and with where they are named."""
    told = []
    for path, edit in there.items():
        place = path.relative_to(top)
        if isinstance(edit, Fault):
            told.append(f'{place}: {edit}')
            continue
        try:
            if function_of(edit) is None:
                told.append(f'{place}: it changes no function')
        except Fault as fault:
            told.append(f'{place}: {fault}')
        if edit.by and not edit.by_hand and not edit.has_control and is_by_hand(edit):
            told.append(f'{place}: `{edit.by}` is answered by hand, so its head has to say `by hand`, or has a control')
        if edit.by and not edit.by.startswith('returns') and not edit.why:
            told.append(f'{place}: its head does not say why `{edit.by}` is the doing of a contract')
        if f'`{edit.name}`' not in (edit.crate / 'README.md').read_text(encoding='utf-8'):
            told.append(f'{place}: crates/{edit.crate.name}/README.md does not name it')
    return told


def pages_of(there, top):
    """What each page has to say, by its path."""
    found = [edit for edit in there.values() if not isinstance(edit, Fault)]
    made = {top / TABLE: table(found)}
    for crate in {edit.crate for edit in found}:
        text = (crate / 'README.md').read_text(encoding='utf-8')
        made[crate / 'README.md'] = named(text, [edit for edit in found if edit.crate == crate])
    return made


def check(top, there):
    """Prints what is wrong, and counts."""
    told = faults_of(there, top)
    if not told:
        made = pages_of(there, top)
        stale = [path for path in made if not path.is_file() or path.read_text(encoding='utf-8') != made[path]]
        told += [f'{path.relative_to(top)} is not up to date: tools/wrong_bodies.py --pages' for path in sorted(stale)]
    print('\n'.join([*told, f'{counts(there)}, {len(told)} faults']))
    return 1 if told else 0


def counts(there):
    """How many wrong bodies there are, and what tells them apart."""
    found = [edit for edit in there.values() if not isinstance(edit, Fault)]
    refused = {edit.label for edit in found if edit.by and edit.has_control and not edit.by_hand}
    shown = {edit.label for edit in found if edit.shown}
    return (f'{len(there)} wrong bodies, {len(shown)} shown by running, {len(refused)} refused with a control, '
            f'{len(found) - len(shown | refused)} neither, '
            f'{sum(not edit.by and not edit.shown for edit in found)} of them not tried yet')


def write(top, there):
    """Writes the pages, unless something is wrong with an edit."""
    told = faults_of(there, top)
    if told:
        print('\n'.join(told))
        return 1
    for path, text in pages_of(there, top).items():
        path.write_text(text, encoding='utf-8')
    return 0


def write_head(edit, verdict):
    """Puts the goal that refused an edit at its head."""
    path = pathlib.Path(edit.crate) / 'wrong' / f'{edit.name}.edit'
    clauses = [goal for goal in verdict.by if goal.startswith('returns')]
    path.write_text(f'by: {(clauses or verdict.by)[0]}\n{path.read_text(encoding="utf-8")}', encoding='utf-8')
