"""Wrong bodies as files: crates/NAME/wrong/PLAIN-NAME.edit, and what they make of their crate's texts."""
import dataclasses
import difflib
import pathlib

PARTS = ('src/', 'proofs/')


class Fault(Exception):
    """Why an edit is none: what it names isn't there, or what it has to say is missing."""


@dataclasses.dataclass
class Pair:
    """A line of a file, what it becomes, and what a right body of the same shape has there."""
    path: str
    old: str
    new: str
    right: str | None = None


@dataclasses.dataclass
class Edit:
    """A wrong body: the goal that has to refuse it, the pairs that make it, applied one after the other, and the first
    session, document, call or trial that shows it, or why none can. Where that goal is answered by hand, its refusal
    shows nothing. The gate tries some at each commit, and of one that is sought only the control is tried."""
    crate: pathlib.Path
    name: str
    by: str
    why: str
    pairs: list[Pair]
    shown: str = ''
    unseen: str = ''
    by_hand: bool = False
    is_always: bool = False
    is_sought: bool = False

    @property
    def label(self):
        return f'{self.crate.name}/{self.name}'

    @property
    def has_control(self):
        return any(pair.right is not None for pair in self.pairs)

    def applied(self, texts, as_control=False):
        """The texts that change, by path. texts: of a path, the text of that file."""
        made = {}
        for pair in self.pairs:
            text = made.get(pair.path) or texts(pair.path)
            if text.count(pair.old) != 1:
                raise Fault(f'{pair.path}: this stands {text.count(pair.old)} times, and not once: {pair.old.strip()}')
            new = pair.right if as_control and pair.right is not None else pair.new
            made[pair.path] = text.replace(pair.old, new)
        if all(made[path] == texts(path) for path in made):
            raise Fault('it changes nothing')
        return made


def read(path):
    """The edit that a file holds; its first lines say by what it has to be refused, and what shows it when it runs."""
    edit, place, old = Edit(path.parents[1], path.stem, '', '', []), None, None
    for line in path.read_text(encoding='utf-8').split('\n'):
        word, _, rest = line.partition(':')
        rest = rest.removeprefix(' ')
        if word in ('by', 'by hand'):
            edit.by, _, edit.why = (part.strip() for part in rest.partition(';'))
            edit.by_hand = word == 'by hand'
        elif word == 'always':
            edit.is_always = True
        elif word == 'shown':
            edit.shown = rest.strip()
        elif word == 'unseen':
            edit.unseen = rest.strip()
        elif word == 'file':
            place = rest.strip()
            if not place.startswith(PARTS):
                raise Fault(f'{place} is no file of src/ or proofs/')
        elif word == 'old':
            old = rest
        elif word == 'new':
            if not place or not old:
                raise Fault("a 'new:' stands before what it is to replace")
            edit.pairs.append(Pair(place, old, rest))
            old = None
        elif word == 'control' and edit.pairs:
            edit.pairs[-1].right = rest
        elif line:
            raise Fault(f'this line is none of an edit: {line}')
    if not edit.pairs:
        raise Fault("it has no 'old:' and 'new:'")
    if path.suffix != '.edit':
        raise Fault('its name does not end in .edit')
    return edit


def texts_of(crate):
    """Gives the text of a file of the crate, by its path there."""
    def text(path):
        if not (crate / path).is_file():
            raise Fault(f'there is no {path}')
        return (crate / path).read_text(encoding='utf-8')
    return text


def changed_lines(before, after):
    """The lines of the first text, from 0, that the second has otherwise or not at all."""
    lines = set()
    matcher = difflib.SequenceMatcher(None, before.split('\n'), after.split('\n'), False)
    for kind, start, end, _, _ in matcher.get_opcodes():
        if kind != 'equal':
            lines |= set(range(start, end)) or {max(start - 1, 0)}
    return lines
