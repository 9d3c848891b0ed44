"""Forty policies as they are written for Balana and for AuthzForce: what becomes of each is what the table of
docs/MIGRATING.md says, and those that refer to each other answer together."""
import json
import pathlib
import re
import subprocess
import sys
import tempfile

from . import driver, names

SUBJECT, RESOURCE, ACTION, ENVIRONMENT = (
    names.CATEGORIES[one] for one in ('AccessSubject', 'Resource', 'Action', 'Environment')
)
ROWS = {'with a warning': 'warned', 'isn\'t here': 'told', 'no XACML 3.0': 'violations'}
NUMBER = 40


def ran(tool, files, *words):
    """The tool on some files."""
    return subprocess.run(
        [sys.executable, str(tool), 'policy', *words, *(str(file) for file in files)], capture_output=True, text=True
    )


def became(tool, program, files):
    """What became of each file, by its stem."""
    with tempfile.TemporaryDirectory() as folder:
        told = ran(tool, files, '--program', program, '-o', folder).stderr.splitlines()
        written = {each.stem for each in pathlib.Path(folder).iterdir()}
    of = {file.stem: [line.removeprefix(str(file)) for line in told if line.startswith(f'{file}:')] for file in files}
    return {
        stem: (
            ('warned' if any(': warning: ' in line for line in lines) else 'over')
            if stem in written
            else 'violations' if any(': not XACML 3.0: ' in line for line in lines) else 'told'
        )
        for stem, lines in of.items()
    }


def said(page):
    """What the page says of each: the rows of its table, with the files that they name; the first has the others."""
    found = {}
    for line in page.read_text(encoding='utf-8').splitlines():
        row = re.match(r'\| (?:\d+) (.*?) \| (.*) \|$', line)
        if row and row[1] in ROWS:
            found |= {stem: ROWS[row[1]] for stem in re.findall(r'`([a-z-]+)`', row[2])}
    return found


def together(tool, program, files):
    """The sets of roles that refer to each other, asked."""
    stems = ('root', 'hours', 'rps-employee', 'rps-manager', 'pps-employee', 'pps-manager')
    lines = ran(tool, [file for file in files if file.stem in stems], '--lines', '--root', 'root').stdout.splitlines()
    service = driver.Service(program)
    replies = service.answers([json.loads(line) for line in lines])
    time = (ENVIRONMENT, 'urn:oasis:names:tc:xacml:1.0:environment:current-time', 'time')
    open_, closed = (*time, ['12:00:00']), (*time, ['19:00:01'])
    ask = lambda role, person, action, *more: [
        (SUBJECT, 'role', 'string', [role]),
        (SUBJECT, 'urn:oasis:names:tc:xacml:1.0:subject:subject-id', 'string', [person]),
        (ACTION, 'urn:oasis:names:tc:xacml:1.0:action:action-id', 'string', [action]),
        (RESOURCE, 'urn:oasis:names:tc:xacml:1.0:resource:resource-id', 'string', ['order']),
        (RESOURCE, 'creator', 'string', ['ann']),
        *more,
    ]
    asked = [
        (ask('employee', 'ann', 'create', open_), 'Permit'),
        (ask('employee', 'ann', 'create', closed), 'Deny'),
        (ask('employee', 'ann', 'create'), 'Indeterminate'),
        (ask('employee', 'bob', 'sign', open_), 'NotApplicable'),
        (ask('manager', 'bob', 'sign', open_), 'Permit'),
        (ask('manager', 'ann', 'sign', open_), 'NotApplicable'),
        (ask('manager', 'bob', 'create', open_), 'Permit'),
    ]
    found = service.decisions([attributes for attributes, _ in asked])
    service.close()
    if any('refused' in reply for reply in replies) or found != [decision for _, decision in asked]:
        yield f'the sets of roles answered {found}: {replies}'


def run(tool, program, folder, page):
    """The files that came over, and what was wrong."""
    files = sorted(folder.glob('*.xml'))
    found, expected = became(tool, program, files), said(page)
    wrong = [
        f'{stem}.xml: {found.get(stem)}, and not {expected.get(stem, "over")} as {page.name} says'
        for stem in sorted(found | expected)
        if found.get(stem) != expected.get(stem, 'over')
    ]
    if len(files) != NUMBER:
        wrong.append(f'{len(files)} policies')
    over = [file for file in files if found[file.stem] in ('over', 'warned')]
    return over, wrong + list(together(tool, program, files))
