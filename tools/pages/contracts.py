#!/usr/bin/env python3
"""Writes on each crate's page how far the contracts of its public functions go, of those that aren't laws.

    contracts.py            writes the part between <!-- contracts --> of crates/NAME/README.md
    contracts.py --check    says whether it is up to date, and whether each open function says what it leaves open
    contracts.py --docs     the same of the doc comments of these functions; with --check too
    contracts.py --list     prints how many there are of each class, by crate; with names those of these crates, by name

A function gives its result and what stands behind each `&mut`. Each is looked for in the `ensures` clauses:

    equation                  it is said by `≡` outright: itself, what a view shows of it, or all of its fields
    equation but for memory   the same, where the result is `Ok` alone
    open                      all else: a relation, a field of several, a view that shows nothing, or no clause

A function has the weakest class of what it gives. What is left open stands in words in the last table of the page,
where somebody has to write it: the script puts a row there, and takes no page without words. It reads texts: of a view
it takes for granted that it shows all that another call tells, but where it shows nothing."""
import collections
import pathlib
import re
import sys
import textwrap

sys.path.insert(0, str(pathlib.Path(__file__).resolve().parents[1]))
from contract import docs, reading, sources

TOP = pathlib.Path(__file__).resolve().parents[2]
PART = re.compile(r'<!-- contracts -->\n.*?<!-- end of contracts -->\n', re.S)
ROW = re.compile(r'^\| `([^`]+)` \| (.*) \|$', re.M)
BEGIN = '''## How far contracts go

<!-- contracts -->
'''
END = '<!-- end of contracts -->\n'
SAID = {
    reading.EQUATION: '**Equations**, which say all of what a call gives and changes, for all that it may be given',
    reading.BUT: '**Equations but for memory**, which say all of it wherever the call answers `Ok`',
}


def called(function):
    """The name of a function as the page has it: of a method with its type."""
    kind = re.match(r'(?:<.*?> )?(\w+)', re.sub(r'^<[^>]*(?:<[^>]*>[^>]*)*> ', '', function.around))
    return f'{kind[1]}::{function.name}' if function.around and kind else function.name


def part(functions, words):
    """The text of a page's part: the classes, and what each open function leaves open."""
    by = collections.defaultdict(list)
    for function in functions:
        by[function.sort].append(called(function))
    lines = []
    for sort, said in SAID.items():
        if by[sort]:
            names = ', '.join(f'`{name}`' for name in by[sort])
            lines += [textwrap.fill(f'{said}: {names}.', 120, break_long_words=False, break_on_hyphens=False), '']
    if by[reading.OPEN]:
        lines += ['**Open** are the others:', '', '| Call | What its contract leaves open |', '|---|---|']
        lines += [f'| `{name}` | {words.get(name, "")} |' for name in by[reading.OPEN]]
        lines += ['']
    return '\n'.join(lines)


def page_of(text, functions):
    """A crate's page with its part, and the open functions that have no words there."""
    old = PART.search(text)
    words = dict(ROW.findall(old[0])) if old else {}
    new = part(functions, {name: said.strip() for name, said in words.items()})
    lacking = [called(one) for one in functions if one.sort == reading.OPEN and not words.get(called(one), '').strip()]
    if old:
        return text[:old.start()] + f'<!-- contracts -->\n{new}{END}' + text[old.end():], lacking
    return f'{text.rstrip()}\n\n{BEGIN}{new}{END}', lacking


def told_of(crates, writes):
    """What is wrong with the pages of crates; each is written, if that is asked for."""
    told = []
    for crate, functions in crates.items():
        page = TOP / 'crates' / crate / 'README.md'
        text = page.read_text(encoding='utf-8')
        made, lacking = page_of(text, functions)
        told += [f'crates/{crate}/README.md says of {name} not what its contract leaves open' for name in lacking]
        if writes:
            page.write_text(made, encoding='utf-8')
        elif made != text:
            told.append(f'crates/{crate}/README.md is not up to date: tools/pages/contracts.py')
    return told


def docs_told(crates, writes):
    """Which files don't say of their functions how far contracts go; each is written, if that is asked for."""
    told = []
    for crate, functions in crates.items():
        words = dict(ROW.findall((TOP / 'crates' / crate / 'README.md').read_text(encoding='utf-8')))
        by_file = collections.defaultdict(dict)
        for one in functions:
            by_file[one.file][one.line] = docs.sentence(one, words.get(called(one), ''))
        for file, said in by_file.items():
            path = TOP / 'crates' / crate / file
            text = path.read_text(encoding='utf-8')
            made = docs.with_docs(text, said)
            if writes:
                path.write_text(made, encoding='utf-8')
            elif made != text:
                told.append(f'crates/{crate}/{file} is not up to date: tools/pages/contracts.py --docs')
    return told


def listed(crates, names):
    """Rows of how many functions there are of each class, and of these crates each function."""
    sums = collections.Counter()
    for crate, functions in crates.items():
        count = collections.Counter(one.sort for one in functions)
        sums += count
        print(f'{crate:14}' + ''.join(f'{count[sort]:5} {sort}' for sort in reading.SORTS))
        for one in functions if crate in names else []:
            print(f'    {one.sort:24} {called(one)}  {one.file}:{one.line}  {one.given}')
    print(f'{"sum":14}' + ''.join(f'{sums[sort]:5} {sort}' for sort in reading.SORTS))


def main():
    crates = {}
    types = sources.types_of(TOP)
    for crate in sorted(path.parent.name for room in ('ent', 'cli') for path in TOP.glob(f'crates/{room}_*/src')):
        functions = [reading.read(one, types) for one in sources.functions_of(TOP / 'crates' / crate) if one.is_public]
        crates[crate] = [one for one in functions if one.given]
    crates = {crate: functions for crate, functions in crates.items() if functions}
    words = [word for word in sys.argv[1:] if not word.startswith('-')]
    if '--list' in sys.argv[1:]:
        return listed(crates, words)
    writes = '--check' not in sys.argv[1:]
    told = docs_told(crates, writes) if '--docs' in sys.argv[1:] else told_of(crates, writes)
    count = sum(len(functions) for functions in crates.values())
    print('\n'.join([*told, f'{count} public functions that are no laws; {len(told)} faults']))
    return 1 if told else 0


if __name__ == '__main__':
    sys.exit(main())
