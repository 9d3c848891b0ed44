"""What is told of files that are XACML 3.0: by the program at the lines of the XML, of what can't match, of times,
and of a first-applicable."""
import pathlib
import subprocess
import sys
import tempfile

from . import names
from .driver import F1, SUBJECT, XS, apply, bag, literal
from .try_grammar import POLICY

ENVIRONMENT, RESOURCE, ACTION = (names.CATEGORIES[one] for one in ('Environment', 'Resource', 'Action'))
IDS = {one: f'urn:oasis:names:tc:xacml:1.0:{one}:{one}-id' for one in ('subject', 'action', 'resource')}
UNLESS = 'deny-unless-permit'
NOON = '2026-03-01T12:00:00'
LISTED = ['--attributes', 'declared.json']
NOW = 'urn:oasis:names:tc:xacml:1.0:environment:current-dateTime'
FIRST = 'urn:oasis:names:tc:xacml:1.0:{}-combining-algorithm:first-applicable'
DECLARED = f'''{{"Attributes": [
  {{"Category": "{SUBJECT}", "AttributeId": "role", "DataType": "string", "Values": ["doctor", "nurse"]}},
  {{"Category": "{SUBJECT}", "AttributeId": "level", "DataType": "{XS}integer", "Issuer": "desk", "Values": [1, 2]}},
  {{"Category": "{SUBJECT}", "AttributeId": "free", "DataType": "string"}}
]}}'''


def rules(*inside):
    """A policy of rules, each on a line of its own, from the second."""
    return f'{POLICY}<Target/>\n' + '\n'.join(inside) + '</Policy>'


def a_rule(number, effect='Permit', inside=''):
    """A rule."""
    return f'<Rule RuleId="{number}" Effect="{effect}">{inside}</Rule>'


def a_set(*children, algorithm='deny-overrides', identifier='s'):
    """A set whose children stand on lines of their own, from the second."""
    return (
        f'<PolicySet xmlns="{names.NAMESPACE}" PolicySetId="{identifier}" Version="1" PolicyCombiningAlgId='
        f'"urn:oasis:names:tc:xacml:3.0:policy-combining-algorithm:{algorithm}"><Target/>\n'
        + '\n'.join(children)
        + '</PolicySet>'
    )


def first(*inside, identifier='f', kind='rule'):
    """A first-applicable of rules or, as a set, of policies."""
    name, one = ('Policy', 'Rule') if kind == 'rule' else ('PolicySet', 'Policy')
    return (
        f'<{name} xmlns="{names.NAMESPACE}" {name}Id="{identifier}" Version="1"'
        f' {one}CombiningAlgId="{FIRST.format(one.lower())}"><Target/>{"".join(inside)}</{name}>'
    )


def condition(inside):
    """A condition."""
    return f'<Condition>{inside}</Condition>'


def given(inside):
    """Obligations with one value."""
    return (
        '<ObligationExpressions><ObligationExpression ObligationId="o" FulfillOn="Permit">'
        f'<AttributeAssignmentExpression AttributeId="a">{inside}</AttributeAssignmentExpression>'
        '</ObligationExpression></ObligationExpressions>'
    )


def one_rule(inside):
    """A policy of one rule with a condition, which begins on the third line."""
    return rules(a_rule('a', inside=condition('\n' + inside)))


def reference(to, kind='Policy'):
    """A reference to a policy or a set."""
    return f'<{kind}IdReference>{to}</{kind}IdReference>'


def designator(category, attribute, kind, issuer=''):
    """A designator."""
    by = f' Issuer="{issuer}"' if issuer else ''
    return (
        f'<AttributeDesignator Category="{category}" AttributeId="{attribute}" DataType="{XS}{kind}"{by}'
        ' MustBePresent="false"/>'
    )


def is_in(kind, text, inside):
    """Whether a literal is in a bag."""
    return apply(F1(f'{kind}-is-in'), literal(kind, text), inside)


def later(text):
    """Whether it is after a moment."""
    now = apply(F1('dateTime-one-and-only'), designator(ENVIRONMENT, NOW, 'dateTime'))
    return condition(apply(F1('dateTime-greater-than'), now, literal('dateTime', text)))


LEVELS = ['\n' + is_in('integer', text, designator(SUBJECT, 'level', 'integer', 'desk')) for text in '23']

# With a program: of each set of files, the words behind `--program PROGRAM` and what is told, as FILE:LINE: and words.
FAULTS = [
    ([rules(a_rule('a'), a_rule('a'))], [], ['a:3: fault: ']),
    ([POLICY.replace('Version="1"', 'Version="12345678901234"') + '\n<Target/></Policy>'], [], ['a:1: fault: ']),
    ([a_set(*(reference(f'p{number}') for number in range(33)))], [], ['a:1: fault: 33 references stand here']),
    ([rules(*(a_rule(number) for number in range(300)))], [], ['a:1: fault: `Rule` has 300 members']),
    ([rules(a_rule('a'), a_rule('x' * 257).replace('RuleId', '\nRuleId'))], [], ['a:4: fault: `RuleId` has 257 bytes']),
    ([rules(a_rule('a'), a_rule('b', inside=condition(literal('integer', '1'))))], [], ['a:3: fault: ']),
    (
        [one_rule(apply(F1('string-equal'), bag('x', 'string'), bag('y', 'string')))],
        [],
        ['a:3: fault: '],
    ),
    ([one_rule('<VariableReference VariableId="v"/>')], [], ['a:3: fault: no variable is called `v`']),
    ([one_rule(literal('integer', 'x'))], [], ['a:3: impossible: the integer x: no', 'weren\'t given to the program']),
    ([a_set(reference('q'), identifier='r'), rules(a_rule('a'))], [], ['a:2: fault: no Policy q is stored']),
    ([rules(a_rule('a')), rules(a_rule('b'))], [], ['b:1: fault: Policy p 1 stands in a.xml too']),
    ([rules(a_rule('a'))], ['--stored', 'state.jsonl'], ['a:1: warning: the root doesn\'t lead here']),
    ([first(a_rule('a'), '\n', a_rule('b'))], [], ['a:2: warning: the rule `a` before this one always decides']),
]

# Without one.
WARNINGS = [
    *(
        (
            [one_rule(is_in(kind, text, '\n' + designator(category, IDS[one], kind)))],
            [],
            [f'a:4: warning: the attribute {IDS[one]} ({kind}) of {category}: the table has it as string'],
        )
        for one, category, kind, text in [
            ('subject', SUBJECT, 'anyURI', 'urn:ann'),
            ('action', ACTION, 'anyURI', 'urn:read'),
            ('resource', RESOURCE, 'integer', '7'),
        ]
    ),
    (
        [one_rule(is_in('string', 'x', designator(ENVIRONMENT, 'weather', 'string')))],
        [],
        ['a:3: warning: the attribute weather (string) of', 'no listed request has it, and no module holds it'],
    ),
    (
        [one_rule(is_in('string', 'x', designator('urn:own', 'x', 'string')))],
        [],
        ['a:3: warning: the attribute x (string) of urn:own: no listed request has it, and no module holds it'],
    ),
    (
        [one_rule(is_in('string', 'docter', bag('role', 'string')))],
        LISTED,
        ['a:3: warning: the value docter of the attribute role (string) of'],
    ),
    (
        [one_rule(apply(F1('and'), is_in('string', 'x', bag('rolle', 'string')), *LEVELS))],
        LISTED,
        [
            'a:3: warning: the attribute rolle (string) of',
            'a:5: warning: the value 3 of the attribute level (integer) of',
        ],
    ),
    (
        [rules(a_rule('a', inside=later(f'{NOON}Z')), a_rule('b', inside='\n' + later(NOON)))],
        [],
        [
            'a:2: times: with Z: send the moment in UTC',
            'a:2: warning: times with Z at a.xml:2:',
            'a.xml:4:',
            'a:4: times: with neither an offset nor Z: send the local moment, without Z',
        ],
    ),
    (
        [rules(a_rule('a', inside=later(f'{NOON}+01:00'))), rules(a_rule('b', inside=later(NOON)))],
        [],
        [
            'a:2: times: with an offset: send the moment in UTC',
            'a:2: rewritten: the dateTime 2026-03-01T12:00:00+01:00: the same moment is 2026-03-01T11:00:00Z',
            'a:2: warning: times with an offset at a.xml:2:',
            'b.xml:2:',
            'b:2: times: with neither an offset nor Z',
        ],
    ),
    (
        [a_set(first(a_rule('x'), a_rule('y', 'Deny')), rules(a_rule('z')))],
        [],
        ['a:2: warning: a first-applicable of both effects under an overrides algorithm'],
    ),
    (
        [a_set(reference('f'), algorithm='permit-overrides'), first(a_rule('x'), a_rule('y', 'Deny'))],
        [],
        ['b:1: warning: a first-applicable of both effects under an overrides algorithm'],
    ),
    (
        [a_set(a_set(first(rules(a_rule('x')), rules(a_rule('y', 'Deny')), kind='set'), algorithm=UNLESS))],
        [],
        ['a:3: warning: a first-applicable of both effects under an overrides algorithm'],
    ),
]

WARNINGS.append(
    (
        [
            f'{POLICY}<Target/>\n<VariableDefinition VariableId="v">{literal("dateTime", NOON)}</VariableDefinition>\n'
            + a_rule('a', inside=later(f'{NOON}Z') + given('\n' + literal('date', '2026-03-01Z')))
            + '</Policy>'
        ],
        [],
        [
            'a:2: times: with neither',
            'a:3: times: with Z',
            'a:4: rewritten: the date 2026-03-01Z: a Z means nothing here: it is given back without',
            'a:2: warning: times with neither an offset nor Z at a.xml:2:',
        ],
    )
)

LEGACY = a_set(rules(a_rule('a'), a_rule('b')).replace(':3.0:rule', ':1.0:rule')).replace(':3.0:policy', ':1.0:policy')
WARNINGS.append(
    (
        [LEGACY],
        ['--as-modern'],
        [
            'a:1: warning: the legacy algorithm urn:oasis:names:tc:xacml:1.0:policy-combining-algorithm:deny-overrides',
            'an Indeterminate child made it Deny: that may become Permit',
            'a:2: warning: the legacy algorithm urn:oasis:names:tc:xacml:1.0:rule-combining-algorithm:deny-overrides',
            'there it may become Permit or Deny',
        ],
    )
)
VIOLATION = rules(a_rule('a', inside=2 * condition(literal('boolean', 'true'))))

FIRST_OF_OTHERS = first(reference('elsewhere'), kind='set')
WARNINGS.append(([a_set(FIRST_OF_OTHERS)], [], ['a:2: warning: a first-applicable of both effects under']))

# What nothing is told of.
NURSE = condition(is_in('string', 'nurse', bag('role', 'string')))
SILENT = [
    ([rules(a_rule('a', inside=condition(is_in('string', 'x', bag('role', 'string')))))], []),
    ([rules(a_rule('a', inside=NURSE))], LISTED),
    ([rules(a_rule('a', inside=condition(is_in('string', 'any', bag('free', 'string')))))], LISTED),
    ([rules(a_rule('a', inside=condition(is_in('string', 'ann', designator(SUBJECT, IDS['subject'], 'string')))))], []),
    ([rules(a_rule('a', inside=later(f'{NOON}Z')), a_rule('b', inside=later(f'{NOON}+01:00')))], []),
    ([a_set(first(a_rule('x', inside=NURSE), a_rule('y')), rules(a_rule('z')))], []),
    ([a_set(first(a_rule('x', inside=NURSE), a_rule('y', 'Deny')), algorithm=UNLESS)], []),
    ([first(a_rule('x', inside=NURSE), a_rule('y', 'Deny'))], []),
]
STATE = (
    '{"do":"format","version":2}\n{"do":"policy.add","document":{"Policy":{"PolicyId":"only","Version":"1",'
    '"RuleCombiningAlgId":"urn:oasis:names:tc:xacml:3.0:rule-combining-algorithm:deny-overrides"}}}\n'
    '{"do":"root.set","reference":{"PolicyIdReference":{"Id":"only"}}}\n'
)


class Folder:
    """A folder with the files of a trial; it runs the tool on them."""

    def __init__(self, tool):
        self.tool, self.folder = tool, tempfile.TemporaryDirectory()
        for name, text in [('declared.json', DECLARED), ('state.jsonl', STATE)]:
            self.path(name).write_text(text, encoding='utf-8')

    def path(self, name):
        return pathlib.Path(self.folder.name) / name

    def ran(self, texts, words):
        """The tool's status, the documents that it wrote, and what it told, without the folder's name."""
        stems = 'abcdefgh'[: len(texts)]
        for stem, text in zip(stems, texts):
            self.path(f'{stem}.xml').write_text(text, encoding='utf-8')
        ran = subprocess.run(
            [sys.executable, str(self.tool), 'policy', *(f'{stem}.xml' for stem in stems), *words],
            capture_output=True,
            text=True,
            cwd=self.folder.name,
        )
        return ran.returncode, ran.stdout, ran.stderr


def is_told(expected, lines):
    """Whether a line has words; those that begin with a file and a line of it stand in a line that begins there."""
    stem, _, rest = expected.partition(':')
    number, _, words = rest.partition(': ')
    if len(stem) == 1 and number.isdigit():
        return any(line.startswith(f'{stem}.xml:{number}:') and words in line.partition(': ')[2] for line in lines)
    return any(expected in line for line in lines)


def run(tool, program):
    """How many trials there were, and what was wrong."""
    wrong, folder = [], Folder(tool)
    for texts, words, expected in FAULTS:
        status, written, told = folder.ran(texts, ['--program', program, *words])
        is_fault = not any(': warning: ' in each for each in expected)
        if status != is_fault or not all(is_told(each, told.splitlines()) for each in expected):
            wrong.append(f'{texts} {words}: {status} {told}, and not {expected}')
        if is_fault and len(texts) == 1 and written or 'Traceback' in told:
            wrong.append(f'{texts}: written in spite of {told}')
    for texts, words, expected in WARNINGS:
        results = [folder.ran(texts, [*words, *strict]) for strict in ([], ['--strict'])]
        if [status for status, _, _ in results] != [0, 1] or results[0][1] != results[1][1] or not results[0][1]:
            wrong.append(f'{texts} {words}: {results}')
        for _, _, told in results:
            wrong += [f'{each}, but {told}' for each in expected if not is_told(each, told.splitlines())]
    for texts, words in SILENT:
        status, written, told = folder.ran(texts, [*words, '--strict', '--program', program])
        if status or not written or 'warning' in told or 'xacml.py: ' in told:
            wrong.append(f'{texts} {words}: {status} {told}')
    status, written, told = folder.ran([VIOLATION], ['--keep-going', '-o', 'out'])
    if status != 1 or written or list(folder.path('out').iterdir()) or 'not XACML 3.0: one more Condition' not in told:
        wrong.append(f'{VIOLATION}: {status} {written} {told}')
    status, _, told = folder.ran([rules(a_rule('a'))], [])
    if status or not told.splitlines()[-1].startswith('xacml.py: without --program these weren\'t looked at: ids'):
        wrong.append(f'without --program: {status} {told}')
    return len(FAULTS) + len(WARNINGS) + len(SILENT) + 2, wrong
