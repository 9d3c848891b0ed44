#!/usr/bin/env python3
"""Tries `review check` over folders that are made here, words that can't be meant, and tools/declared.py over lines.

    try_check.py PROGRAM

PROGRAM is the review program. The status is 0 where all is as it should be, and 1 where something isn't.
"""
import argparse
import json
import os
import pathlib
import shutil
import subprocess
import sys
import tempfile

HERE = pathlib.Path(__file__).resolve().parent
OVERRIDES = 'urn:oasis:names:tc:xacml:3.0:rule-combining-algorithm:deny-overrides'
EQUAL = 'urn:oasis:names:tc:xacml:1.0:function:string-equal'
SUBJECT = 'urn:oasis:names:tc:xacml:1.0:subject-category:access-subject'
RESOURCE = 'urn:oasis:names:tc:xacml:3.0:attribute-category:resource'
RESOURCE_ID = 'urn:oasis:names:tc:xacml:1.0:resource:resource-id'
NOBODY = 65534

FOLDERS = {
    'names of 24 letters': [f'policy-of-ward-{number}.json' for number in range(1, 23)],
    'short names': [f'p{number}.json' for number in range(1, 56)],
    'two names of 246 bytes': [letter * 241 + '.json' for letter in 'ab'],
    'the longest names': [f'{number:03}' + 'n' * 247 + '.json' for number in range(40)],
    'names that end otherwise': ['policy.json', 'policy.xml', 'json', 'policy.json~', '.json'],
    'very many names': [f'{number:04}.json' for number in range(2000)],
}

# A line of so many bytes is the longest that a service reads.
LINE_LIMIT = 1048576
TWICE = [1, [], ['review: standard input is named more than once']]
JUNIT = [1, [], ['review: --junit wants a file of its own, and no --list']]
NO_STATE = 'review: the file of the state hasn\'t the lines of a dump'
NO_FILES = 'no file there ends in .json'

# Words, with the status and both outputs. Standard input has a policy.
WORDS = {
    'check good.json': [0, ['ok Policy p 1'], []],
    'check -': [0, ['ok Policy p 1'], []],
    'check - -': TWICE,
    'check - good.json -': TWICE,
    'check --stored - -': TWICE,
    'check --attributes - --lines - good.json': TWICE,
    'test - -': TWICE,
    'test --state - -': TWICE,
    'compare - -': TWICE,
    'check good.json none': [1, ['ok Policy p 1'], [f'none: {NO_FILES}', 'review: 1 fault']],
    'check none good.json bare': [1, ['ok Policy p 1'], [f'none: {NO_FILES}', f'bare: {NO_FILES}', 'review: 2 faults']],
    'check none bare': [1, [], [f'review: {NO_FILES}']],
    'check --stored empty good.json': [1, [], [NO_STATE, 'empty: the file is empty']],
    'check --stored long good.json': [1, [], [NO_STATE, f'long: line 2 has more than {LINE_LIMIT} bytes']],
    'test --junit some.test some.test': JUNIT,
    'test --junit empty --state empty some.test': JUNIT,
    'test --junit - some.test': JUNIT,
    'test --list --junit out some.test': JUNIT,
}


def policy(name, **parts):
    """A policy of that name, which has one rule that permits unless it has others."""
    rules = {'Rule': [{'RuleId': 'r', 'Effect': 'Permit'}]}
    return {'Policy': {'PolicyId': name, 'Version': '1', 'RuleCombiningAlgId': OVERRIDES, **rules, **parts}}


def match(literal):
    """A target that compares the id of the resource with a literal."""
    designator = {'Category': RESOURCE, 'AttributeId': RESOURCE_ID, 'DataType': 'string'}
    one = {'MatchId': EQUAL, 'AttributeValue': {'Value': literal}, 'AttributeDesignator': designator}
    return {'AnyOf': [{'AllOf': [{'Match': [one]}]}]}


def set_line(entity, *values, **keys):
    """The line that sets the role of a person."""
    row = {'category': 'AccessSubject', 'entity': entity, 'attribute': 'role', 'type': 'string', 'values': list(values)}
    return json.dumps({'do': 'attr.set', **row, **keys})


class Trial:
    """The program, a folder for what it reads, and what was found wrong so far."""

    def __init__(self, program, folder):
        self.program, self.folder, self.faults = program, pathlib.Path(folder), []

    def see(self, what, found, wanted):
        """Notes whether something is as it should be."""
        if found != wanted:
            self.faults.append(what)
            print(f'{what}: found {found!r:.2000}, wanted {wanted!r:.2000}')

    def call(self, *words, **options):
        """What comes of these words: the status, and the lines of both outputs."""
        options = {'stdout': subprocess.PIPE, 'stderr': subprocess.PIPE, 'input': b'', **options}
        done = subprocess.run([self.program, *words], check=False, **options)
        return [done.returncode, (done.stdout or b'').decode().splitlines(), done.stderr.decode().splitlines()]

    def run(self, *words, **options):
        """What comes of a check with these words."""
        return self.call('check', *map(os.fspath, words), **options)

    def fill(self, name, files):
        """A folder with these policies, each in the file of its name."""
        place = self.folder / name
        place.mkdir()
        for file in files:
            (place / file).write_text(json.dumps(policy(file)), encoding='utf-8')
        return place

    def file(self, name, text):
        """A file with this text."""
        path = self.folder / name
        path.write_text(text, encoding='utf-8')
        return path


def try_folders(trial):
    """Folders of few and many names, short and long ones."""
    for what, names in FOLDERS.items():
        place = trial.fill(what, names)
        wanted = [f'ok Policy {name} 1' for name in sorted(names) if name.endswith('.json')]
        trial.see(what, trial.run(place), [0, wanted, []])
    os.symlink(place, trial.folder / 'link')
    trial.see('a link to a folder', trial.run(trial.folder / 'link')[:2], [0, wanted])
    (place / 'folder.json').mkdir()
    trial.see('a folder in a folder', trial.run(str(place) + '/')[:2], [0, wanted])


def try_broken_folders(trial):
    """Folders without a policy, with a name that isn't UTF-8, and one that can't be read."""
    none = trial.fill('none', [])
    trial.see('no name', trial.run(none), [1, [], ['review: no file there ends in .json']])
    odd = trial.fill('odd', ['p.json'])
    name = pathlib.Path(os.fsdecode(bytes(odd) + b'/\xff.json'))
    name.write_text('{}', encoding='utf-8')
    trial.see('a name that is no UTF-8', trial.run(odd), [2, [], ['review: read fault', f'{odd}: invalid filename']])
    trial.see('a word that is no UTF-8', trial.run(name),
              [1, [], ['review: a word of the command line isn\'t UTF-8']])
    trial.see('no such folder', trial.run(trial.folder / 'gone'),
              [2, [], ['review: read fault', f'{trial.folder}/gone: No such file or directory (os error 2)']])
    closed = trial.fill('closed', ['p.json'])
    closed.chmod(0o311)
    program = shutil.copy(trial.program, trial.folder / 'review')
    trial.folder.chmod(0o755)
    options = {'user': NOBODY, 'group': NOBODY, 'extra_groups': []} if os.geteuid() == 0 else {}
    told = Trial(program, trial.folder).run(closed, **options)
    trial.see('a folder that cannot be read', told,
              [2, [], ['review: read fault', f'{closed}: Permission denied (os error 13)']])


def try_documents(trial):
    """A merge that was left in a document, and an obligation that never comes."""
    versions = '<<<<<<< ours\n"Version":"1"\n=======\n"Version":"2"\n>>>>>>> theirs'
    trial.file('merged', f'{{"Policy":{{"PolicyId":"p",\n{versions}\n}}}}')
    marker = 'merged: line 2, column 1: a merge left its marker here: of these lines two versions stand, keep one'
    trial.see('a merge', trial.run('merged', cwd=trial.folder),
              [1, ['refused 2'], ['review: the file isn\'t JSON', marker]])
    duty = [{'ObligationId': 'tell', 'FulfillOn': 'Deny'}]
    rule = {'RuleId': 'r', 'Effect': 'Permit', 'ObligationExpressions': duty}
    trial.file('duty', json.dumps(policy('p', Rule=[rule])))
    never = 'so this obligation never comes'
    told = trial.run('--strict', 'duty', cwd=trial.folder)
    trial.see('an obligation that never comes', [told[0], [never in line for line in told[2]]], [1, [True, False]])


def try_lines(trial):
    """Lines that say what can't be, or what was said, and literals that are no listed name."""
    role = [{'Category': SUBJECT, 'AttributeId': 'role', 'DataType': 'string'}]
    trial.file('list', json.dumps({'Attributes': role}))
    lines = ['{"do":"person.add","name":"ann"}', '{"do":"resource.add","name":"plan"}', set_line('ann', 'clerk'),
             '', set_line('ann', 'teller')]
    trial.file('lines', '\n'.join(lines))
    wrong = ['{"do":"person.ad","name":"ben"}', lines[0], json.dumps({'do': 'action.add', 'name': 'n' * 257})]
    trial.file('wrong', '\n'.join(lines[:3] + wrong))
    trial.file('plan', json.dumps(policy('p', Target=match('plan'))))
    trial.file('plam', json.dumps(policy('p', Target=match('plam'))))
    again = 'warning: lines: line 5: `role` (string) of access-subject is set again for `ann`, and not what line 3 sets'
    listed = ['check', '--attributes', 'list', '--lines']
    trial.see('a row twice', trial.call(*listed, 'lines', 'plan', cwd=trial.folder),
              [0, ['ok Policy p 1'], [f'{again} counts', 'review: 1 warning']])
    trial.see('a row twice, strictly', trial.call(*listed, 'lines', '--strict', 'plan', cwd=trial.folder)[0], 1)
    told = ['line 4: there is no command `person.ad`; did you mean `person.add`?',
            'line 5: the person `ann` is listed already, by line 1',
            'line 6: the name of the action has 257 bytes; it has 1 to 256 bytes']
    trial.see('lines that are wrong', trial.call(*listed, 'wrong', 'plan', cwd=trial.folder),
              [1, ['ok Policy p 1'], ['review: something is wrong with a line', *(f'wrong: {line}' for line in told),
                                      'review: 3 faults']])
    status, _, said = trial.call(*listed, 'wrong', 'plam', cwd=trial.folder)
    unlisted = "`plam` isn't among the values of"
    found = [[unlisted in line, line.endswith('did you mean `plan`?')] for line in said[:1]]
    trial.see('a literal that is no name', [status, found], [1, [[True, True]]])


def try_words(trial):
    """Words that can't be meant together, folders without a policy beside files, and states that are none."""
    good = json.dumps(policy('p'))
    trial.file('good.json', good)
    test = trial.file('some.test', '# a test\n> {"do":"person.add","name":"ann"}\n')
    trial.file('empty', '')
    trial.file('long', '{"do":"person.add","name":"ann"}\n' + 'x' * (LINE_LIMIT + 1) + '\n')
    trial.fill('none', [])
    trial.fill('bare', [])
    for words, wanted in WORDS.items():
        found = trial.call(*words.split(), cwd=trial.folder, input=good.encode())
        trial.see(words, found, wanted)
    trial.see('the test stands', test.read_text(encoding='utf-8'), '# a test\n> {"do":"person.add","name":"ann"}\n')


def try_help(trial):
    """Help that can't be written."""
    lost = [2, [], ['review: write fault']]
    with open('/dev/full', 'wb') as full:
        for words in ['--help'], ['--version'], ['check', '--help']:
            trial.see(f'{words} on a full disk', trial.call(*words, stdout=full), lost)
    shut = ['sh', '-c', 'exec "$0" --help >&-', trial.program]
    done = subprocess.run(shut, stderr=subprocess.PIPE, check=False)
    trial.see('help without an output', [done.returncode, [], done.stderr.decode().splitlines()], lost)


def try_declared(trial):
    """Which lists declared.py closes."""
    rows = [('role', 'string', ['clerk']), ('since', 'date', ['2025-01-10']), ('leads', 'string', ['ann', 'ben']),
            ('level', 'integer', [1, 2])]
    lines = [json.dumps({'do': f'{sort}.add', 'name': name})
             for sort, name in [('person', 'ann'), ('person', 'ben'), ('resource', 'plan')]]
    lines += [set_line('ann', *values, attribute=name, type=datatype) for name, datatype, values in rows]
    state = trial.file('rows', '\n'.join(lines))
    made = subprocess.run([HERE / 'declared.py', state], capture_output=True, check=True).stdout
    found = {one['AttributeId'].rpartition(':')[2]: one.get('Values') for one in json.loads(made)['Attributes']}
    trial.see('lists of values', found, {'role': ['clerk'], 'since': None, 'leads': None, 'level': [1, 2],
                                         'subject-id': None, 'resource-id': ['plan']})
    declared = trial.file('rows-declared', made.decode())
    whole = trial.file('whole', json.dumps(policy('p', Target=match('plan'))))
    trial.see('the list is read', trial.run('--attributes', declared, '--lines', state, whole),
              [0, ['ok Policy p 1'], []])


def main():
    parser = argparse.ArgumentParser(description='Tries `review check` over folders.')
    parser.add_argument('program', metavar='PROGRAM', help='the review program')
    options = parser.parse_args()
    program, faults = os.path.abspath(options.program), []
    for attempt in (try_folders, try_broken_folders, try_documents, try_lines, try_words, try_help,
                    try_declared):
        with tempfile.TemporaryDirectory() as folder:
            trial = Trial(program, os.path.realpath(folder))
            attempt(trial)
            faults += trial.faults
    print('check is as it should be' if not faults else f'{len(faults)} faults of check')
    return 1 if faults else 0


if __name__ == '__main__':
    sys.exit(main())
