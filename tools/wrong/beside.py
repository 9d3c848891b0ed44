"""Bodies beside their functions: a copy of a function under another name, with the same clauses and proof files, in
which a body is tried. All else of the crate stays as it is, so any number of them stands in one check."""
import re

from .functions import CYCLE, HEAD, IMPL, body_at

# Crates whose bodies stand within their functions, one at a time, until each of them was seen beside its function.
WITHIN = {
    *('ent_eval', 'ent_cells', 'ent_table', 'ent_command', 'ent_dump', 'ent_report', 'law_split', 'ent_line'),
    *('ent_telling', 'ent_profile', 'ent_polform', 'lint_places', 'lint_messages', 'lint_declared', 'lint_links'),
    'ent_program',
    *('cli_words', 'cli_check', 'cli_replies', 'cli_serve', 'cli_test', 'cli_compare'),
}


def can_stand(functions, name, edit):
    """Whether a copy of a function can take a body: not in a trait or its impl, where no method may be added, and not
    in a cycle of calls, where the copy would call the others and they wouldn't call it. What an edit changes of proofs
    has to be the function's own."""
    if functions.crate.name in WITHIN or functions.proof_of(name) != name or '+' in name:
        return False
    path, head, before = functions.heads[name]
    lines = functions.texts()[str(path)].split('\n')
    at = place_of(lines, head, before)
    if at is None or body_at(lines, at) is None or is_of_trait(lines, at):
        return False
    return all(pair.path.startswith((f'{folder_of(name)}/', 'src/')) for pair in edit.pairs)


def place_of(lines, head, before):
    """The line of a head, where so many lines like it stand above."""
    same = [at for at, line in enumerate(lines) if line == head]
    return same[before] if before < len(same) else None


def is_of_trait(lines, head):
    """Whether the function of a head stands in a trait or in an impl of one."""
    if not lines[head].startswith(' '):
        return False
    around = next((lines[at] for at in range(head, -1, -1) if IMPL.match(lines[at])), '')
    return ' for ' in around or 'trait ' in around.partition('{')[0]


def folder_of(name):
    """Where the proof files of a function stand."""
    return '/'.join(['proofs', *name.split('::')])


def lines_of(functions, body, made):
    """The text of a body's copy: its function in the edited file, under the name of the copy."""
    path, head, before = functions.heads[body.function]
    lines = made.get(str(path), functions.texts()[str(path)]).split('\n')
    at = place_of(lines, head, before)
    begins = at
    while lines[begins - 1].lstrip().startswith('#['):
        begins -= 1
    _, ends = body_at(lines, at)
    old, new = HEAD.match(head)[1], body.tried.split('::')[-1]
    attributes = [line for line in lines[begins:at] if not CYCLE.match(line)]
    return ['', *attributes, re.sub(rf'\bfn (r#)?{old}\b', f'fn {new}', lines[at], count=1), *lines[at + 1:ends + 1]]


def proofs_of(functions, body, made):
    """The proof files of a body's copy, by path: those of its function, which name the copy in its place."""
    crate, old, new = functions.crate.name, body.function.split('::'), body.tried.split('::')
    place = re.compile(rf'(Rattle\.{crate}\.(?:proofs|specs\.contracts))\.{re.escape(".".join(old))}(?=[.\s])')
    texts = {}
    for path, text in (functions.texts() | made).items():
        if path.startswith(folder_of(body.function) + '/'):
            text = place.sub(lambda found: f'{found[1]}.{".".join(new)}', text)
            text = re.sub(rf'\b{re.escape(old[-1])}_spec\b', f'{new[-1]}_spec', text)
            texts[path.replace(folder_of(body.function), folder_of(body.tried), 1)] = text
    return texts
