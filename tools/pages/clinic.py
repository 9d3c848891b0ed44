#!/usr/bin/env python3
"""Puts the policies of examples/clinic, each a file that people write, into the lines that are sent: into clinic.jsonl
and into the sessions of docs/TUTORIAL.md; and those of clinic.alfa into the pages.

    clinic.py [--check]

Each line that adds a document of the kind, id and version of a file gets what stands in that file, and each block of
ALFA in the tutorial the policy of its name. With --check nothing is written; the status is then 1 where a line is another. It is 1 too where clinic.jsonl isn't what the tutorial sends
first, or README.md hasn't the tutorial's reply to its last line.
"""
import json
import pathlib
import re
import sys
import textwrap

ROOT = pathlib.Path(__file__).resolve().parents[2]
CLINIC = ROOT / 'examples' / 'clinic'
LINES = CLINIC / 'clinic.jsonl'
TUTORIAL = ROOT / 'docs' / 'TUTORIAL.md'
README = ROOT / 'README.md'


def key(document):
    """The kind, id and version of a document."""
    (kind, body), = document.items()
    return kind, body[f'{kind}Id'], body['Version']


def policies():
    """The documents of the files, by kind, id and version."""
    documents = [json.loads(path.read_text(encoding='utf-8')) for path in sorted((CLINIC / 'policies').glob('*.json'))]
    return {key(document): document for document in documents}


def renewed(line, mark, held):
    """A line with the document of its file in it; a line of another kind as it is."""
    if not line.startswith(mark + '{"do":"policy.add"'):
        return line
    command = json.loads(line[len(mark):])
    command['document'] = held.get(key(command['document']), command['document'])
    return mark + json.dumps(command, separators=(',', ':'), ensure_ascii=False)


def in_alfa():
    """The text of each policy and set of clinic.alfa, by its name, with the comment before it."""
    text = (CLINIC / 'clinic.alfa').read_text(encoding='utf-8')
    found = re.findall(r'(?ms)^((?:    /\*\*(?:(?!\*/).)*\*/\n)?    policy(?:set)? (\w+) .*?^    }\n)', text)
    return {name: textwrap.dedent(policy) for policy, name in found}


def with_alfa(text, found):
    """A page in which each block of ALFA has the policy of its name."""
    def renew(block):
        name = re.search(r'(?m)^policy(?:set)? (\w+)', block[1])
        return f'```alfa\n{found.get(name[1], block[1]) if name else block[1]}```\n'

    return re.sub(r'(?ms)^```alfa\n(.*?)^```\n', renew, text)


def main():
    held, stale = policies(), False
    for path, mark in ((LINES, ''), (TUTORIAL, '> ')):
        text = path.read_text(encoding='utf-8')
        made = with_alfa(''.join(renewed(line, mark, held) + '\n' for line in text.splitlines()), in_alfa())
        if made != text and sys.argv[1:] == ['--check']:
            print(f'{path.name} has another policy than {CLINIC.name}/policies')
            stale = True
        elif made != text:
            path.write_text(made, encoding='utf-8')
    told = [line for line in TUTORIAL.read_text(encoding='utf-8').splitlines() if line.startswith(('> ', '< '))]
    sent = [line[2:] for line in told if line.startswith('> ')]
    replies = [line[2:] for line in told if line.startswith('< ')]
    first = LINES.read_text(encoding='utf-8').splitlines()
    if sent[:len(first)] != first:
        print(f'{TUTORIAL.name} does not begin with the lines of {LINES.name}')
        stale = True
    if f'    {replies[len(first) - 1]}' not in README.read_text(encoding='utf-8').splitlines():
        print(f'{README.name} has another reply than {TUTORIAL.name} to the last line of {LINES.name}')
        stale = True
    return 1 if stale else 0


if __name__ == '__main__':
    sys.exit(main())
