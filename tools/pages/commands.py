#!/usr/bin/env python3
"""Prints the table of commands that the definition `forms` is, as JSON: of each its word, its kind (change, question
or mark) and its keys besides `do` and `session`. The tests of the front compare their own tables with it.

    commands.py
    commands.py --check    says whether docs/COMMANDS.md lists the same words with the same keys; fails if not"""
import json
import pathlib
import re
import sys

ROOT = pathlib.Path(__file__).resolve().parents[2]
ASKED = ROOT / 'crates' / 'ent_command' / 'specs' / 'Asked.antt'
PAGE = ROOT / 'docs' / 'COMMANDS.md'
FORM = re.compile(r'form \(codes "([^"]+)"\)\s+(\[\]|\((?:codes "[^"]+"\s+∷ )+\[\]\))')
# A definition of the table, and what its forms are.
KINDS = {'changes': 'change', 'questions': 'question', 'forms': 'mark'}


def commands(text):
    """The commands of the table, each of which has to be understood."""
    table = []
    for name, kind in KINDS.items():
        body = re.search(rf'^{name} =((?:.*\n)(?:[ ]+.*\n)*)', text, re.M)
        forms = FORM.findall(body[1]) if body else []
        if not forms or len(forms) != len(re.findall(r'\bform\b', body[1])):
            sys.exit(f'{ASKED}: {name} has another shape than this script knows')
        table += [{'word': word, 'kind': kind, 'keys': re.findall(r'"([^"]+)"', keys)} for word, keys in forms]
    return table


def rows(text):
    """The words of the page's list, each with the keys that its row names: the words of small letters in backticks that
    no command has, or behind which `?` says that they may be left out."""
    table = text.split('| `do` | Keys |', 1)[1].split('\n\n', 1)[0]
    rows = re.findall(r'^\| ((?:`[\w.]+`(?:, )?)+) \| (.*?) ?\| ', table, re.M)
    listed = {word: keys for words, keys in rows for word in re.findall(r'`([\w.]+)`', words)}
    named = re.compile(r'`([a-z]+)`(\??)')
    return {word: sorted({key for key, optional in named.findall(keys) if optional or key not in listed})
            for word, keys in listed.items()}


def differences(table, listed):
    """What the page says otherwise than the table."""
    told = {one['word']: sorted(one['keys']) for one in table}
    for word in sorted(set(told) | set(listed)):
        if told.get(word) != listed.get(word):
            yield f'{PAGE.name}: `{word}` has the keys {listed.get(word)}, and in the table {told.get(word)}'


def main():
    table = commands(ASKED.read_text())
    if sys.argv[1:] == ['--check']:
        wrong = list(differences(table, rows(PAGE.read_text())))
        print('\n'.join(wrong) or f'{len(table)} commands')
        return 1 if wrong else 0
    json.dump(table, sys.stdout, indent=1)
    print()
    return 0


if __name__ == '__main__':
    sys.exit(main())
