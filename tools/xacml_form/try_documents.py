"""Documents from JSON to XML and back: one for each function and element, those of the repository, and random ones."""
import json
import random
import subprocess
import tempfile

from lxml import etree

from . import back, literals, names, places, policies, schema

XS = names.XML_SCHEMA
F1 = names.FUNCTION.format('1.0', '{}').format
TEXTS = [
    'a',
    'two words',
    ' edges ',
    'naïve',
    '\u65e5\u672c',
    '<&>"\'',
    ']]>',
    'line\nfeed',
    'tab\tand\rreturn',
    '',
    '\U0001f600',
    '&amp;',
    '\u2028',
    'x' * 256,
]
OF_TYPE = {
    'string': TEXTS,
    'boolean': [True, False],
    'integer': [0, -1, 2**63 - 1, -(2**63)],
    'date': ['2024-02-29', '0001-01-01'],
    'anyURI': ['urn:x', 'http://a/?b=c&d'],
    'time': ['00:00:00', '23:59:59'],
    'dateTime': ['2024-02-29T12:00:00'],
    'yearMonthDuration': ['P1Y2M', '-P3M', 'P0M'],
}


def again(document):
    """What a document is after it was written as XML, which is as the schema says, and read again; what was told of it
    but for the Z of times."""
    root = back.document(document)
    SCHEMA.assertValid(root)
    read, where = places.read(etree.tostring(root, xml_declaration=True, encoding='UTF-8'))
    told = places.Told('trial')
    found = policies.Policies(told, where).document(read)
    return found, [line for line in told.lines() if ': a Z means nothing here: ' not in line]


def compare(documents):
    """How many came back as the same document, and what was wrong with the others."""
    wrong = []
    for document in documents:
        found, told = again(document)
        if back.normal(found) != back.normal(document) or told:
            wrong.append(f'{json.dumps(document)[:300]} came back as {json.dumps(found)[:300]} {told}')
    return len(documents), wrong


# ---- one for each function


def argument(kind, is_bag=False):
    """An expression of a type."""
    if is_bag:
        return {
            'AttributeDesignator': {
                'Category': names.CATEGORIES['AccessSubject'],
                'AttributeId': 'x',
                'DataType': XS + kind,
                'MustBePresent': False,
            }
        }
    return {'AttributeValue': {'DataType': XS + kind, 'Value': OF_TYPE[kind][0]}}


def arguments_of(function):
    """Arguments of the types that a function takes (docs/FUNCTIONS.md)."""
    name = function.rpartition(':')[2]
    kind, _, rest = name.partition('-')
    if name in ('or', 'and', 'not'):
        return [argument('boolean')]
    if name in ('any-of', 'all-of'):
        return [{'Function': {'FunctionId': F1('string-equal')}}, argument('string'), argument('string', True)]
    if name.endswith('yearMonthDuration'):
        return [argument('date'), argument('yearMonthDuration')]
    if rest in ('one-and-only', 'bag-size'):
        return [argument(kind, True)]
    if rest == 'is-in':
        return [argument(kind), argument(kind, True)]
    if rest in ('intersection', 'union', 'at-least-one-member-of', 'subset', 'set-equals'):
        return [argument(kind, True), argument(kind, True)]
    return [argument(kind)] * (1 if rest in ('bag', 'abs') else 2)


def of_functions():
    """A policy for each function, which stands in a variable."""
    return [
        {
            'Policy': {
                'PolicyId': 'f',
                'Version': '1',
                'RuleCombiningAlgId': sorted(names.HERE_ALGORITHMS['rule'])[0],
                'VariableDefinition': [
                    {
                        'VariableId': 'v',
                        'Expression': {'Apply': {'FunctionId': function, 'Arguments': arguments_of(function)}},
                    }
                ],
            }
        }
        for function in sorted(names.HERE_FUNCTIONS)
    ]


# ---- random ones


class Random:
    """Makes documents with every element in them; they have the form, and not always types that fit."""

    def __init__(self, seed):
        self.random = random.Random(seed)

    def some(self, make, most=3):
        return [make() for _ in range(self.random.randint(0, most))]

    def one(self, listed):
        return self.random.choice(listed)

    def name(self):
        return self.one(TEXTS) or 'n'

    def uri(self):
        """An id that is a URI in XML, so without white space at its ends."""
        return schema.collapsed(self.name())

    def maybe(self, **parts):
        return {key: make() for key, make in parts.items() if self.random.random() < 0.4}

    def document(self, levels=2):
        return self.policy() if levels == 0 or self.random.random() < 0.5 else self.set(levels)

    def policy(self):
        return {
            'Policy': {
                'PolicyId': self.uri(),
                'Version': self.one(['1', '1.2', '10.0.3']),
                'RuleCombiningAlgId': self.one(sorted(names.HERE_ALGORITHMS['rule'])),
                **self.head(),
                'VariableDefinition': self.some(lambda: {'VariableId': self.name(), 'Expression': self.expression()}),
                'Rule': self.some(self.rule),
                **self.given(),
            }
        }

    def set(self, levels):
        return {
            'PolicySet': {
                'PolicySetId': self.uri(),
                'Version': '2',
                'PolicyCombiningAlgId': self.one(sorted(names.HERE_ALGORITHMS['policy'])),
                **self.head(),
                'Children': self.some(lambda: self.child(levels - 1)),
                **self.given(),
            }
        }

    def child(self, levels):
        if self.random.random() < 0.4:
            versions = self.maybe(Version=lambda: '1.*', EarliestVersion=lambda: '1.+', LatestVersion=lambda: '3')
            return {
                self.one(['PolicyIdReference', 'PolicySetIdReference']): {'Id': self.uri(), **versions}
            }
        return self.document(levels)

    def head(self):
        return self.maybe(Description=lambda: self.one(TEXTS), Target=self.target)

    def target(self):
        return {
            'AnyOf': self.some(
                lambda: {
                    'AllOf': [
                        {'Match': [self.match() for _ in range(self.random.randint(1, 2))]}
                        for _ in range(self.random.randint(1, 2))
                    ]
                }
            )
        }

    def match(self):
        kind = self.one(names.TYPES)
        return {
            'MatchId': F1('string-equal'),
            'AttributeValue': self.value(kind),
            'AttributeDesignator': self.designator(kind),
        }

    def value(self, kind):
        value = self.one(OF_TYPE[kind])
        return (
            {'Value': value}
            if kind in ('string', 'boolean', 'integer') and self.random.random() < 0.3
            else {'DataType': self.one([kind, XS + kind]), 'Value': value}
        )

    def designator(self, kind):
        return {
            'Category': self.one(list(names.CATEGORIES.values())),
            'AttributeId': self.uri(),
            'DataType': XS + kind,
            **self.maybe(Issuer=self.name, MustBePresent=lambda: self.one([True, False])),
        }

    def rule(self):
        return {
            'RuleId': self.name(),
            'Effect': self.one(['Permit', 'Deny']),
            **self.head(),
            **self.maybe(Condition=self.expression),
            **self.given(),
        }

    def expression(self, levels=3):
        kind = self.one(names.TYPES)
        forms = [
            lambda: {'AttributeValue': self.value(kind)},
            lambda: {'AttributeDesignator': self.designator(kind)},
            lambda: {'VariableReference': {'VariableId': self.name()}},
            lambda: {'Function': {'FunctionId': F1('string-equal')}},
            lambda: {
                'Apply': {
                    'FunctionId': self.one(sorted(names.HERE_FUNCTIONS)),
                    'Arguments': self.some(lambda: self.expression(levels - 1)),
                }
            },
        ]
        return self.one(forms if levels else forms[:3])()

    def given(self):
        assignment = lambda: {
            'AttributeId': self.uri(),
            **self.maybe(Category=self.uri, Issuer=self.name),
            'Expression': self.expression(1),
        }
        return self.maybe(
            ObligationExpressions=lambda: self.some(
                lambda: {
                    'ObligationId': self.uri(),
                    'FulfillOn': 'Permit',
                    'AttributeAssignmentExpression': self.some(assignment),
                }
            ),
            AdviceExpressions=lambda: self.some(
                lambda: {
                    'AdviceId': self.uri(),
                    'AppliesTo': 'Deny',
                    'AttributeAssignmentExpression': self.some(assignment),
                }
            ),
        )


# ---- those of the repository


def stored(files, program):
    """The documents of the lines in some files that the program accepts, each once."""
    found = {}
    for file in files:
        for line in file.read_bytes().split(b'\n'):
            at = line.find(b'{"do":"policy.')
            if at < 0 or '«'.encode() in line:
                continue
            try:
                read = json.loads(line[at:])
                found[json.dumps(read['document'], sort_keys=True)] = read['document']
            except (ValueError, KeyError, RecursionError):
                pass
    return [document for document in found.values() if is_good(document, program)]


def is_good(document, program):
    with tempfile.NamedTemporaryFile('w', suffix='.json', encoding='utf-8') as file:
        try:
            json.dump(document, file, ensure_ascii=False)
        except UnicodeEncodeError:
            return False
        file.flush()
        return subprocess.run([program, 'check', file.name], capture_output=True).returncode == 0


def has_a_place_in_xml(document):
    """Whether every text of a document can stand in XML."""
    try:
        back.document(document)
        return True
    except back.Unwritten:
        return False


SCHEMA = None


def run(program, files, schema, number):
    """Counts by kind, and what was wrong."""
    global SCHEMA
    SCHEMA = etree.RelaxNG(file=str(schema))
    functions = of_functions()
    wrong = [f'{json.dumps(each)[:300]} is refused' for each in functions if not is_good(each, program)]
    kept = [each for each in stored(files, program) if has_a_place_in_xml(each)]
    counts = []
    for what, documents in [
        ('functions', functions),
        ('stored documents', kept),
        ('random documents', [Random(seed).document() for seed in range(number)]),
    ]:
        count, told = compare(documents)
        counts.append(f'{count} {what}')
        wrong += told
    for uri, kind in names.HERE_TYPES.items():
        for value in OF_TYPE[kind]:
            told = places.Told('trial')
            if literals.value(uri, literals.text_of(uri, value), (1, 1), told) != value or told.lines():
                wrong.append(f'{kind} {value!r} {told.lines()}')
    return counts, wrong
