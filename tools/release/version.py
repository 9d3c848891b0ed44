#!/usr/bin/env python3
"""Which version this is, where that is written: the program, what the trials expect of it, the page on running it.

    version.py             prints it, as the program says it; fails where the places differ
    version.py 1.1.0       writes that version everywhere, and today's date over its changes

The program's words are proved, so a gate has to pass behind it."""
import datetime
import pathlib
import re
import sys

TOP = pathlib.Path(__file__).resolve().parents[2]
PLACES = ['crates/cli_words/src/words.rt', 'crates/trials/src/program.rt', 'docs/OPERATING.md']
STANDS = re.compile(r'\b(\d+\.\d+\.\d+)( \(logic [0-9a-f]{16}\))')
CHANGES, OPEN = TOP / 'CHANGELOG.md', re.compile(r'^## (?:After \S+|\S+, to come)$', re.M)


def places():
    """Each place with its text."""
    return {TOP / place: (TOP / place).read_text(encoding='utf-8') for place in PLACES}


def shown():
    """Prints what stands everywhere, or what differs."""
    said = {(path.relative_to(TOP), found[0]) for path, text in places().items() for found in STANDS.finditer(text)}
    if len({words for _, words in said}) != 1 or len({path for path, _ in said}) != len(PLACES):
        print('\n'.join(f'{path}: {words}' for path, words in sorted(said)), file=sys.stderr)
        return 1
    print(said.pop()[1])
    return 0


def write(version):
    """Writes a version everywhere."""
    changes = CHANGES.read_text(encoding='utf-8')
    if not OPEN.search(changes):
        print('no changes stand open in CHANGELOG.md', file=sys.stderr)
        return 1
    today = datetime.date.today()
    heading = f'## {version}, {today.day} {today:%B %Y}'
    CHANGES.write_text(OPEN.sub(heading, changes, count=1), encoding='utf-8')
    for path, text in places().items():
        path.write_text(STANDS.sub(lambda found: version + found[2], text), encoding='utf-8')
    return shown()


if __name__ == '__main__':
    sys.exit(write(sys.argv[1]) if sys.argv[1:] else shown())
