#!/usr/bin/env python3
"""Sees that what the pages point at is there, and that they stay short; says what isn't so, and fails then.

    links.py             checks
    links.py --words     prints how many words each page has

Each link in a page leads to a file of the repository, and where it names a heading, to one of that page; so does each
path that stands in backticks (NAME stands for any, and a folder `out` is made by a build). README.md has at
most 100 lines of at most 120 columns, and the pages in docs/ have at most 63,000 words."""
import pathlib
import re
import sys

ROOT = pathlib.Path(__file__).resolve().parents[2]
LINES, COLUMNS, WORDS = 100, 120, 63_000
LINK = re.compile(r'\[[^\]\[]*\]\(([^)\s]+)\)')
PATH = re.compile(r'`((?:docs|crates|tools|bench|examples|front|\.ci)/[\w./-]*\w)`')


def pages():
    """The pages of the repository: at its top, and up to two folders below."""
    return sorted({path for depth in ('', '*/', '*/*/') for path in ROOT.glob(f'{depth}*.md')})


def prose(text):
    """A page without its blocks and examples: what stands in them isn't read as a link or a heading."""
    text = re.sub(r'(?ms)^```.*?^```$', '', text)
    return re.sub(r'(?m)^ {4}.*$', '', text)


def anchors(path):
    """The anchors of a page's headings: lower case, blanks as dashes, no other signs; a second one gets a number."""
    found, seen = set(), {}
    for heading in re.findall(r'(?m)^#+ (.*?)\s*$', prose(path.read_text(encoding='utf-8'))):
        plain = LINK.sub(lambda link: link[0][1:link[0].index(']')], heading)
        anchor = re.sub(r'[^\w\- ]', '', plain.lower()).replace(' ', '-')
        again = seen.get(anchor, 0)
        seen[anchor] = again + 1
        found.add(f'{anchor}-{again}' if again else anchor)
    return found


def faults_of(path, known):
    """What a page points at that isn't there."""
    text = prose(path.read_text(encoding='utf-8'))
    for target in LINK.findall(re.sub(r'`[^`\n]*`', '', text)):
        if re.match(r'[a-z]+:', target):
            continue
        name, _, anchor = target.partition('#')
        there = (path.parent / name).resolve() if name else path
        if not there.exists():
            yield f'no {target}'
        elif anchor and anchor not in known.get(there, set()):
            yield f'no heading {target}'
    for name in PATH.findall(text):
        if 'NAME' not in name and 'out' not in name.split('/') and not (ROOT / name).exists():
            yield f'no `{name}`'


def words(path):
    """How many words a page has: what stands between blanks, if it has a letter or a digit."""
    return sum(1 for word in path.read_text(encoding='utf-8').split() if any(sign.isalnum() for sign in word))


def sizes():
    """What is too long."""
    lines = (ROOT / 'README.md').read_text(encoding='utf-8').splitlines()
    if len(lines) > LINES:
        yield f'README.md: {len(lines)} lines'
    for number, line in enumerate(lines, 1):
        if len(line) > COLUMNS:
            yield f'README.md: line {number} has {len(line)} columns'
    total = sum(words(path) for path in (ROOT / 'docs').glob('*.md'))
    if total > WORDS:
        yield f'docs: {total:,} words, more than {WORDS:,}'


def main():
    found = pages()
    if sys.argv[1:] == ['--words']:
        for path in found:
            print(f'{words(path):6} {path.relative_to(ROOT)}')
        print(f'{sum(words(path) for path in (ROOT / "docs").glob("*.md")):6} in docs')
        return 0
    known = {path: anchors(path) for path in found}
    faults = [f'{path.relative_to(ROOT)}: {fault}' for path in found for fault in faults_of(path, known)]
    faults += sizes()
    print('\n'.join(faults) if faults else f'{len(found)} pages, each link leads somewhere')
    return 1 if faults else 0


if __name__ == '__main__':
    sys.exit(main())
