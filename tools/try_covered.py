#!/usr/bin/env python3
"""Tries what `review` tells of rules that give no decision, and that tests which share a service are as each by itself.

    try_covered.py PROGRAM

PROGRAM is the review program. The status is 0 where all is as it should be, and 1 where something isn't.
"""
import argparse
import json
import sys
import tempfile

from try_check import Trial, match, policy

ROOT = {'PolicySet': {
    'PolicySetId': 'root', 'Version': '1',
    'PolicyCombiningAlgId': 'urn:oasis:names:tc:xacml:3.0:policy-combining-algorithm:permit-overrides',
    'Children': [{'PolicyIdReference': {'Id': 'plans'}}, policy('inner', Rule=[
        {'RuleId': 'third', 'Effect': 'Permit', 'Target': match('third')}])]}}
PLANS = policy('plans', Rule=[
    {'RuleId': name, 'Effect': 'Permit', 'Target': match(name)} for name in ['first', 'second', 'nowhere']])
ASK = {'Request': {
    'Resource': [{'Attribute': [
        {'AttributeId': 'urn:oasis:names:tc:xacml:1.0:resource:resource-id', 'Value': 'second'}]}]}}
STATE = [
    {'do': 'policy.add', 'document': PLANS}, {'do': 'policy.add', 'document': ROOT},
    {'do': 'root.set', 'reference': {'PolicySetIdReference': {'Id': 'root'}}},
    {'do': 'person.add', 'name': 'ann'}, {'do': 'action.add', 'name': 'read'},
    *({'do': 'resource.add', 'name': name} for name in ['first', 'third'])]
UNSEEN = ['plans 1 > second', 'plans 1 > nowhere', '2 of 4 rules gave a decision']
CELL = {'do': 'cell', 'person': 'ann', 'action': 'read', 'resource': 'first'}

# Tests, by their names: lines, each with what its reply has to have.
TESTS = {
    'asks': [(CELL, {'cell': {'decision': 'Permit'}}), ({'do': 'ask', 'request': ASK}, {})],
    'marks': [({'do': 'mark'}, {'mark': 7}), ({'do': 'notices'}, {})],
    'has no mark': [({'do': 'notices'}, {'refused': 12})],
    'drops': [({'do': 'person.drop', 'name': 'ann'}, {'serial': 8}), (CELL, {'refused': 7})],
    'is still there': [(CELL, {'cell': {'decision': 'Permit'}}), ({'do': 'state'}, {'state': {'serial': 7}})],
    'counts': [({'do': 'work'}, {'evaluations': 2})],
    'is refused': [({'do': 'nothing'}, {'refused': 4}), (CELL, {})],
    'four modules 4': [(CELL, {'cell': {'decision': 'Permit'}})],
}


def line(command):
    """A command as one line."""
    return json.dumps(command, separators=(',', ':'))


def text_of(names):
    """The file of those tests."""
    steps = {name: ''.join(f'> {line(sent)}\n~ {line(reply)}\n' for sent, reply in TESTS[name]) for name in names}

    def word(name):
        return name.replace(' ', '_', name.count(' ') - name[-1].isdigit())

    return ''.join(f'# {word(name)}\n{steps[name]}\n' for name in names)


def try_states(trial, state):
    """What is told of a state."""
    trial.see('a state', trial.run('--coverage', state), [0, UNSEEN, []])
    status, told, _ = trial.run('--coverage', state, '--json')
    unseen = [{'policy': 'plans', 'rule': rule, 'version': '1'} for rule in ['second', 'nowhere']]
    trial.see('a state as JSON', [status, json.loads(told[0])], [0, {'rules': 4, 'seen': 2, 'unseen': unseen}])
    refused = trial.file('refused.jsonl', state.read_text(encoding='utf-8') + '{"do":"nothing"}\n')
    trial.see('a state with a line that is refused', trial.run('--coverage', refused)[0], 2)


def try_tests(trial, state):
    """What is told of tests, and that each is as by itself."""
    for name, steps in TESTS.items():
        alone = trial.file('alone.txt', text_of([name]))
        found = trial.call('test', '--state', str(state), str(alone))
        trial.see(f'{name}, by itself', found, [0, ['1 passed, 0 failed'], []])
    for names in [list(TESTS), [*reversed(TESTS)], [*TESTS] * 2]:
        together = trial.file('together.txt', text_of(names))
        found = trial.call('test', '--state', str(state), str(together))
        trial.see(f'{len(names)} tests', found, [0, [f'{len(names)} passed, 0 failed'], []])
    asks = trial.file('asks.txt', text_of(['asks']))
    words = ['test', '--state', str(state), '--coverage']
    told = ['plans 1 > nowhere', 'inner 1 > third', '2 of 4 rules gave a decision', '1 passed, 0 failed']
    trial.see('tests', trial.call(*words, str(asks)), [0, told, []])
    trial.see('as many rules as have to', trial.call(*words, '--coverage-min', '50', str(asks)), [0, told, []])
    few = ['review: 2 of 4 rules gave a decision, and 51 of 100 have to']
    trial.see('fewer rules than have to', trial.call(*words[:3], '--coverage-min', '51', str(asks)), [1, told, few])


def main():
    parser = argparse.ArgumentParser(description=__doc__, formatter_class=argparse.RawDescriptionHelpFormatter)
    parser.add_argument('program')
    with tempfile.TemporaryDirectory() as folder:
        trial = Trial(parser.parse_args().program, folder)
        state = trial.file('state.jsonl', ''.join(line(command) + '\n' for command in STATE))
        try_states(trial, state)
        try_tests(trial, state)
    print(f'{len(trial.faults)} faults of coverage' if trial.faults else 'coverage is as it should be')
    return 1 if trial.faults else 0


if __name__ == '__main__':
    sys.exit(main())
