#!/usr/bin/env python3
"""Tries what `review check` tells of documents that can be used and may not be meant.

    try_meant.py PROGRAM

PROGRAM is the review program. The status is 0 where all is as it should be, and 1 where something isn't.
"""
import argparse
import json
import os
import pathlib
import re
import sys
import tempfile

import try_check
from try_check import HERE, Trial, policy

FUNCTION = 'urn:oasis:names:tc:xacml:1.0:function:'
COMBINING = 'urn:oasis:names:tc:xacml:{}:combining-algorithm:{}'
ENVIRONMENT = 'urn:oasis:names:tc:xacml:3.0:attribute-category:environment'


def apply(function, *arguments):
    """A function of arguments."""
    return {'Apply': {'FunctionId': FUNCTION + function, 'Arguments': list(arguments)}}


def literal(value, datatype='string'):
    """A literal."""
    return {'AttributeValue': {'DataType': datatype, 'Value': value}}


def variable(name):
    """A variable."""
    return {'VariableReference': {'VariableId': name}}


def the(attribute, datatype):
    """The one value of an attribute of the environment."""
    designator = {'Category': ENVIRONMENT, 'AttributeId': attribute, 'DataType': datatype}
    return apply(f'{datatype}-one-and-only', {'AttributeDesignator': designator})


def match(value, function='string-equal'):
    """A target that compares the id of the resource with a literal by a function."""
    target = try_check.match(value)
    target['AnyOf'][0]['AllOf'][0]['Match'][0]['MatchId'] = FUNCTION + function
    return target


def time(comparison, value):
    """Whether the time lies so to a literal."""
    return apply(f'time-{comparison}', the('time', 'time'), literal(value, 'time'))


def rule(name, effect='Permit', **parts):
    """A rule."""
    return {'RuleId': name, 'Effect': effect, **parts}


def one(condition):
    """A policy with one rule of that condition."""
    return policy('p', Rule=[rule('r', Condition=condition)])


def given(effect, *children, algorithm='deny-overrides'):
    """A set with an obligation for an effect."""
    combining = COMBINING.format('3.0', algorithm).replace(':combining', ':policy-combining')
    duty = {'ObligationId': 'tell', 'FulfillOn': effect}
    return {'PolicySet': {'PolicySetId': 's', 'Version': '1', 'PolicyCombiningAlgId': combining,
                          'Children': list(children), 'ObligationExpressions': [duty]}}


FIRST = COMBINING.format('1.0', 'first-applicable').replace(':combining', ':rule-combining')
CONDITION = '/Policy/Rule/0/Condition'
ASKS = apply('string-equal', the('place', 'string'), literal('home'))
COPIES = [rule('a', Target=match('plan'), Condition=ASKS), rule('b', 'Deny', Target=match('plan'), Condition=ASKS)]
NAMED = [{'VariableId': 'v', 'Expression': ASKS}, {'VariableId': 'w', 'Expression': variable('v')}]
UNTIL = 'no value meets this and argument {} of the same `and`'
FIXED = 'this condition asks for nothing, so it is the same for each request'
LEAST = 'nothing is less than the literal here'
REFERENCE = {'PolicyIdReference': {'Id': 'p'}}
NEVER = '/PolicySet/ObligationExpressions/0: the set never gives {}, so this never comes'

# A document each, and what is told of it.
CASES = {
    'a named variable': (policy('p', VariableDefinition=NAMED, Rule=[rule('r', Condition=variable('w'))]), []),
    'a variable that nobody names': (
        policy('p', VariableDefinition=NAMED), ['/Policy/VariableDefinition/1: no expression names this variable']),
    'literals alone': (one(apply('string-equal', literal('a'), literal('b'))), [f'{CONDITION}: {FIXED}']),
    'no argument': (one(apply('and')), [f'{CONDITION}: {FIXED}']),
    'a copy that is denied': (policy('p', Rule=COPIES), [
        '/Policy/Rule/0: the rule `b` has the same target and condition, so this one never decides']),
    'a copy behind the first': (policy('p', RuleCombiningAlgId=FIRST, Rule=COPIES), [
        '/Policy/Rule/1: the rule `a` has the same target and condition, so this one never decides']),
    'another target': (policy('p', Rule=[COPIES[0], {**COPIES[1], 'Target': match('list')}]), []),
    'the night': (one(apply('and', time('greater-than-or-equal', '18:00:00'), time('less-than', '06:00:00'))), [
        f'{CONDITION}/Apply/Arguments/1: {UNTIL.format(0)}']),
    'the night, well said': (
        one(apply('or', time('greater-than-or-equal', '18:00:00'), time('less-than', '06:00:00'))), []),
    'a moment': (one(apply('and', time('greater-than-or-equal', '18:00:00'), ASKS,
                           time('less-than-or-equal', '18:00:00'))), []),
    'a moment that is left out': (one(apply('not', apply('and', time('greater-than', '18:00:00'), ASKS,
                                                         time('less-than-or-equal', '18:00:00')))), [
        f'{CONDITION}/Apply/Arguments/0/Apply/Arguments/2: {UNTIL.format(0)}']),
    'the literal first': (one(apply('and', time('less-than', '08:00:00'),
                                    apply('time-less-than', literal('09:00:00', 'time'), the('time', 'time')))), [
        f'{CONDITION}/Apply/Arguments/1: {UNTIL.format(0)}']),
    'two values': (one(apply('and', ASKS, apply('string-equal', literal('office'), the('place', 'string')))), [
        f'{CONDITION}/Apply/Arguments/1: {UNTIL.format(0)}']),
    'two attributes': (one(apply('and', ASKS, apply('string-equal', literal('office'), the('room', 'string')))), []),
    'before midnight': (one(apply('and', ASKS, time('less-than', '00:00:00'))), [
        f'{CONDITION}/Apply/Arguments/1: {LEAST}']),
    'up to midnight': (one(apply('and', ASKS, time('less-than-or-equal', '00:00:00'))), []),
    'the empty string first': (
        policy('p', Target=match('', 'string-greater-than')), [f'/Policy/Target/AnyOf/0/AllOf/0/Match/0: {LEAST}']),
    'behind the empty string': (policy('p', Target=match('', 'string-less-than')), []),
    'a set that never denies': (given('Deny', policy('p')), [NEVER.format('Deny')]),
    'a set that denies by its algorithm': (given('Deny', policy('p'), algorithm='deny-unless-permit'), []),
    'a set with a reference': (given('Deny', policy('p'), REFERENCE), []),
}


def try_cases(trial):
    """Each case: nothing else is told of it, and it may be stored."""
    for what, (document, wanted) in CASES.items():
        trial.file('document', json.dumps(document))
        status, printed, told = trial.run('document', cwd=trial.folder)
        found = [re.sub(r'line \d+, column \d+: ', '', line).removeprefix('warning: document: ') for line in told]
        trial.see(what, [status, len(printed), [line for line in found if not line.startswith('review: ')]],
                  [0, 1, wanted])


def try_stored(trial):
    """Nothing is told of the policies of the examples."""
    for folder in sorted((HERE.parent / 'examples').glob('*/policies')):
        for file in sorted(folder.glob('*.json')):
            trial.see(f'{file}', trial.run('--strict', file)[::2], [0, []])


def main():
    parser = argparse.ArgumentParser(description='Tries what `review check` tells of what may not be meant.')
    parser.add_argument('program', metavar='PROGRAM', help='the review program')
    options = parser.parse_args()
    with tempfile.TemporaryDirectory() as folder:
        trial = Trial(os.path.abspath(options.program), pathlib.Path(folder).resolve())
        try_cases(trial)
        try_stored(trial)
    print(f'{len(trial.faults)} faults of warnings' if trial.faults else 'warnings are as they should be')
    return 1 if trial.faults else 0


if __name__ == '__main__':
    sys.exit(main())
