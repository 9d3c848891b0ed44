"""A copy of the sources in which each edited function has its right body and its wrong ones, and one program of it all.

A function with edits becomes `if crate::wrong_chosen(7) { wrong body } else { right body }`. In the sources
`wrong_chosen` says no; in the program it is a function in C (shown.c) that knows which body was asked for."""
import dataclasses
import pathlib
import re

from . import edits
from .functions import HEAD, body_at

PROGRAM = 'with_wrong_bodies'
# What the text of LLVM calls it, in the crates that have one.
CHOSEN = 'wrong_chosen'
ASKS = f'''
/// Whether the wrong body of that number was asked for.
pub(crate) fn {CHOSEN}(number: u32) -> bool {{
    number == u32::MAX
}}
'''
TOLD = 'lint_told'
MAIN = '''//! `review`, one of the programs that tell of documents, or a trial, by the first word.
#![tactic(auto)]

{modules}

use cli_words::given_words;
use ent_program::run;
use std::io::IsTerminal;
use std::process::ExitCode;
use std::test::Fail;

fn main(rt: HostRuntime) -> Result<ExitCode, Fail> {{
    if let Ok(words) = given_words(&rt) {{
        if let Some(word) = words.as_slice().get(1) {{
            match word.as_str() {{
{arms}
                _ => {{}}
            }}
        }}
    }}
    Ok(ExitCode::from(run(&rt, rt.stdin().is_terminal())))
}}
'''
TEST = re.compile(r'^#\[test\]\nfn (\w+)\(rt: HostRuntime\)( -> Result<\(\), Fail>)? \{$', re.M)


@dataclasses.dataclass
class Branch:
    """A wrong body as lines, for a function whose body begins and ends with these lines of its file."""
    number: int
    begins: int
    ends: int
    lines: list[str]


def branches(number, edit):
    """The bodies that an edit makes, by the file in which they stand."""
    texts = edits.texts_of(edit.crate)
    found = {}
    for path, made in edit.applied(texts).items():
        if not path.startswith('src/'):
            continue
        before, after = texts(path).split('\n'), made.split('\n')
        if len(before) != len(after):
            raise edits.Fault(f'{edit.label}: it has more lines or less')
        heads = {head_above(edit, before, at) for at in range(len(before)) if before[at] != after[at]}
        for head in sorted(heads):
            place = body_at(before, head)
            if place is None:
                raise edits.Fault(f'{edit.label}: its function has no body of its own lines')
            begins, ends = place
            added = [after[at][len(before[at]):] for at in range(head, begins + 1) if before[at] != after[at]]
            found.setdefault(path, []).append(Branch(number, begins, ends, added + after[begins + 1:ends]))
    return found


def head_above(edit, lines, number):
    """The line of the head of the function in which a line stands."""
    for at in range(number, -1, -1):
        if HEAD.match(lines[at]):
            return at
    raise edits.Fault(f'{edit.label}: a line that it changes stands in no function')


def with_branches(text, found):
    """The text of a file with the wrong bodies before the right ones."""
    lines = text.split('\n')
    for begins, ends in sorted({(one.begins, one.ends) for one in found}, reverse=True):
        made = []
        for one in found:
            if one.begins == begins:
                made += [f'if crate::{CHOSEN}({one.number}) {{', *one.lines, '} else']
        lines[begins + 1:ends] = [*made, '{', *lines[begins + 1:ends], '}']
    return '\n'.join(lines)


def crate_files(crate, numbered):
    """The texts of the sources of a crate with its wrong bodies, by path."""
    found = {}
    for number, edit in numbered:
        for path, some in branches(number, edit).items():
            found.setdefault(path, []).extend(some)
    texts = {path: with_branches((crate / path).read_text(encoding='utf-8'), some) for path, some in found.items()}
    root = texts.get('src/lib.rt') or (crate / 'src/lib.rt').read_text(encoding='utf-8')
    return texts | {'src/lib.rt': root + ASKS}


def as_module(text):
    """The main file of a program as a module that has `run`."""
    text = text.replace('#![tactic(auto)]\n', '')
    text = re.sub(r'(?m)^mod \w+;\n', '', text[:text.index('\nfn main(')])
    return text.replace('\nfn run<', '\npub(crate) fn run<').replace('use std::process::ExitCode;\n', '')


def as_function(trial):
    """The head of a trial that a program calls: the runtime has `Abort` in `main` and in trials alone."""
    return f'pub(crate) fn {trial[1]}<R: std::process::Abort + AllocGlobal + Eprint + Drop>(rt: R){trial[2] or ""} {{'


def trials_of(name, text):
    """The trials of a module, and its text with trials that can be called."""
    found = [(f'{name}::{one[1]}', bool(one[2])) for one in TEST.finditer(text)]
    if len(found) != text.count('#[test]'):
        raise edits.Fault(f'crates/trials/src/{name}.rt: a trial has a head that is not known here')
    return found, TEST.sub(as_function, text)


def program_files(top):
    """The texts of the program's sources by path, and the names of its trials."""
    texts, trials = {}, []
    for path in sorted((top / 'crates' / TOLD / 'src').glob('*.rt')):
        text = path.read_text(encoding='utf-8')
        if path.stem == 'main':
            texts[f'src/{TOLD}.rt'] = as_module(text)
        else:
            texts[f'src/{path.name}'] = text
    for path in sorted((top / 'crates/trials/src').glob('*.rt')):
        if path.stem != 'lib':
            found, texts[f'src/{path.name}'] = trials_of(path.stem, path.read_text(encoding='utf-8'))
            trials += found
    arms = [f'"{TOLD.replace("_", "-")}" => return Ok(ExitCode::from({TOLD}::run(&rt))),']
    for name, has_result in trials:
        arms += [f'"{name}" => {{', f'    {name}(rt){"?" * has_result};', '    return Ok(ExitCode::from(0));', '}']
    modules = '\n'.join(f'mod {pathlib.PurePath(path).stem};' for path in sorted(texts))
    texts['src/main.rt'] = MAIN.format(modules=modules, arms='\n'.join(' ' * 16 + arm for arm in arms))
    return texts, [name for name, _ in trials]


def libraries(top):
    """What crates.txt says of each crate, by its name."""
    found = {}
    for line in (top / 'crates.txt').read_text(encoding='utf-8').split('\n'):
        name, colon, rest = line.partition(':')
        if colon and not line.startswith('#'):
            found[name.strip()] = rest.split()
    return found


def all_files(top, numbered):
    """The texts of the whole copy by path, as `rt try` reads them, and the names of the trials."""
    texts, named = {}, libraries(top)
    by_crate = {}
    for number, edit in numbered:
        by_crate.setdefault(edit.crate.name, []).append((number, edit))
    uses = sorted({one for name in [TOLD, 'trials', 'review'] for one in named[name]})
    below, todo = set(), [one for one in uses if one in named]
    while todo:
        name = todo.pop()
        if name not in below:
            below.add(name)
            todo += [one for one in named[name] if one in named]
    for name in sorted(below):
        crate = top / 'crates' / name
        for path in sorted((crate / 'src').rglob('*')):
            if path.is_file():
                texts[str(path.relative_to(top))] = path.read_text(encoding='utf-8')
        if name in by_crate:
            texts |= {f'crates/{name}/{path}': text for path, text in crate_files(crate, by_crate[name]).items()}
    mine, trials = program_files(top)
    texts |= {f'crates/{PROGRAM}/{path}': text for path, text in mine.items()}
    lines = [f'{name}: {" ".join(named[name])}' for name in sorted(below)] + [f'{PROGRAM}: {" ".join(uses)}']
    return texts | {'crates.txt': '\n'.join(lines) + '\n'}, trials
