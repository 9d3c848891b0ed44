"""Random policies in ALFA as trees, and those trees as text. Nothing here knows what the tool makes of them; what they
mean says try_meaning.py."""
import random
import typing

KINDS = ['string', 'boolean', 'integer', 'date', 'anyURI', 'time', 'dateTime']
ORDERED = ['string', 'integer', 'date', 'time', 'dateTime']
VALUES = {
    'string': ['a', 'b', 'ab', ''],
    'boolean': [True, False],
    'integer': [0, 1, 2, -3, 2**63 - 1],
    'date': ['2026-01-31', '2026-02-28', '2024-02-29'],
    'anyURI': ['urn:a', 'urn:b'],
    'time': ['07:00:00', '12:30:00', '23:59:59'],
    'dateTime': ['2026-01-31T12:00:00', '2026-02-01T00:00:00'],
    'yearMonthDuration': ['P1M', 'P1Y', '-P2Y1M'],
}
CATEGORIES = {'subjectCat': 'urn:oasis:names:tc:xacml:1.0:subject-category:access-subject',
              'resourceCat': 'urn:oasis:names:tc:xacml:3.0:attribute-category:resource',
              'deviceCat': 'urn:example:device'}
ALGORITHMS = ['denyOverrides', 'permitOverrides', 'orderedDenyOverrides', 'orderedPermitOverrides', 'denyUnlessPermit',
              'permitUnlessDeny', 'firstApplicable']
ISSUER = 'idp "one"'
# The namespaces of the text, and the ranks of operators there: what binds more tightly has the greater one.
RANKS = {'||': 1, '&&': 2, '==': 3, '<': 3, '<=': 3, '>': 3, '>=': 3, '+': 4, '-': 4, '*': 5, '/': 5, '%': 5}


class Node(typing.NamedTuple):
    """An expression: `literal` (type, value), `attribute` (name, must, issuer), `operation` (sign, parts), `call`
    (name, arguments), or `function` (name)."""

    form: str
    parts: tuple


class Attribute(typing.NamedTuple):
    """A declared attribute."""

    name: str
    category: str
    id: str
    kind: str


class Rule(typing.NamedTuple):
    """A rule: a target is clauses of alternatives of matches, each (attribute node, sign or function, literal node,
    whether the attribute stands at the left)."""

    name: str
    effect: str
    target: list
    condition: typing.Optional[Node]
    given: list


class Policy(typing.NamedTuple):
    """A policy with rules, or a set with policies and names of others."""

    kind: str
    name: str
    algorithm: str
    target: list
    members: list
    given: list


def attributes():
    """Two of each type, in three categories."""
    found = []
    for number, kind in enumerate(KINDS):
        found.append(Attribute(f'x{kind}', list(CATEGORIES)[number % 3], f'x-{kind}', kind))
        found.append(Attribute(f'y{kind}', list(CATEGORIES)[(number + 1) % 3], f'urn:example:y:{kind}', kind))
    return found


ATTRIBUTES = attributes()
BY_NAME = {each.name: each for each in ATTRIBUTES}


class Worlds:
    """Makes them, by chance."""

    def __init__(self, seed):
        self.random, self.count = random.Random(seed), 0

    def one(self, listed):
        """One of some."""
        return self.random.choice(listed)

    def maybe(self, share):
        """True as often as that."""
        return self.random.random() < share

    # ---- policies

    def world(self):
        """Two policies, and a set that refers to them and has one inside."""
        one, two = (self.policy(name) for name in ('one', 'two'))
        inner = self.policy('inner')
        members = [inner, 'one', 'two']
        self.random.shuffle(members)
        top = Policy('policyset', 'top', self.one([*ALGORITHMS, 'onlyOneApplicable']), self.target(0.2), members,
                     self.given())
        return {'one': one, 'two': two, 'top': top}

    def policy(self, name):
        """A policy."""
        rules = [self.rule(f'r{number}') for number in range(self.random.randint(1, 3))]
        return Policy('policy', name, self.one(ALGORITHMS), self.target(0.4), rules, self.given())

    def rule(self, name):
        """A rule."""
        effect = self.one(['permit', 'deny'])
        condition = self.boolean(3) if self.maybe(0.8) else None
        return Rule(name, effect, self.target(0.4), condition, self.given(effect))

    def target(self, share):
        """A target, which may have no clause."""
        if not self.maybe(share):
            return []
        return [[[self.match() for _ in range(self.random.randint(1, 2))] for _ in range(self.random.randint(1, 2))]
                for _ in range(self.random.randint(1, 2))]

    def match(self):
        """A match."""
        kind = self.one(KINDS)
        sign = self.one(['==', '<', '<=', '>', '>=']) if kind in ORDERED else '=='
        if kind == 'string' and self.maybe(0.4):
            sign = self.one(['stringStartsWith', 'stringEndsWith', 'stringContains'])
        return self.attribute(kind), sign, self.literal(kind), self.maybe(0.6)

    def given(self, effect=None):
        """Obligations and advice: the effect, the kind, the name, and what is assigned."""
        if self.maybe(0.6):
            return []
        assigned = []
        for _ in range(self.random.randint(0, 2)):
            kind = self.one(KINDS)
            assigned.append((f'x{kind}', self.value(kind, 1) if self.maybe(0.6) else self.bag(kind, 1)))
        return [(effect or self.one(['permit', 'deny']), self.one(['obligation', 'advice']), self.one('uv'), assigned)]

    # ---- expressions

    def literal(self, kind):
        """A literal."""
        return Node('literal', (kind, self.one(VALUES[kind])))

    def attribute(self, kind):
        """An attribute."""
        return Node('attribute', (self.one('xy') + kind, self.maybe(0.2), ISSUER if self.maybe(0.2) else None))

    def call(self, name, *arguments):
        return Node('call', (name, arguments))

    def operation(self, sign, *parts):
        return Node('operation', (sign, parts))

    def value(self, kind, levels):
        """One value of a type."""
        makers = {'boolean': self.boolean, 'integer': self.integer, 'string': self.string, 'date': self.date}
        if levels > 0 and kind in makers and self.maybe(0.6):
            return makers[kind](levels - 1)
        return self.call(f'{kind}OneAndOnly', self.attribute(kind)) if self.maybe(0.5) else self.literal(kind)

    def bag(self, kind, levels):
        """A bag of a type."""
        if levels <= 0 or self.maybe(0.6):
            return self.attribute(kind)
        name = self.one(['Bag', 'Intersection', 'Union'])
        if name == 'Bag':
            return self.call(f'{kind}Bag', *(self.value(kind, 0) for _ in range(self.random.randint(0, 3))))
        return self.call(kind + name, self.bag(kind, levels - 1), self.bag(kind, levels - 1))

    def boolean(self, levels):
        """One boolean."""
        if levels <= 0:
            return self.compared(0)
        part = lambda: self.boolean(levels - 1)
        ways = [
            lambda: self.compared(levels - 1),
            lambda: self.operation(self.one(['&&', '||']), *(part() for _ in range(self.random.randint(2, 3)))),
            lambda: self.operation(self.one(['&&', '||']), *(part() for _ in range(self.random.randint(2, 3)))),
            lambda: self.call('not', part()),
            lambda: self.of_bags(levels - 1),
            lambda: self.of_functions(levels - 1),
            lambda: self.call(self.one(['and', 'or']), *(part() for _ in range(self.random.randint(0, 2)))),
            lambda: self.call('nOf', Node('literal', ('integer', self.one([0, 1, 2]))), part(), part()),
        ]
        return self.one(ways)()

    def compared(self, levels):
        """Values or bags of one type that are compared: two bags by `==` alone."""
        kind = self.one(KINDS)
        sign = self.one(['==', '<', '<=', '>', '>=']) if kind in ORDERED else '=='
        left, right = self.maybe(0.5), self.maybe(0.5)
        if left and right:
            sign = '=='
        sides = [self.bag(kind, levels) if is_bag else self.value(kind, levels) for is_bag in (left, right)]
        return self.operation(sign, *sides)

    def of_bags(self, levels):
        """A question on bags, or on strings, or on times."""
        kind = self.one(KINDS)
        name = self.one(['IsIn', 'AtLeastOneMemberOf', 'Subset', 'SetEquals', 'StartsWith', 'Range'])
        if name == 'Range':
            return self.call('timeInRange', self.value('time', 0), self.literal('time'), self.literal('time'))
        if name == 'StartsWith':
            name = self.one(['stringStartsWith', 'stringEndsWith', 'stringContains'])
            return self.call(name, self.value('string', levels), self.value('string', levels))
        first = self.value(kind, levels) if name == 'IsIn' else self.bag(kind, levels)
        return self.call(kind + name, first, self.bag(kind, levels))

    def of_functions(self, levels):
        """A function of a function."""
        kind = self.one(KINDS)
        if self.maybe(0.4):
            inner = Node('function', (f'{kind}Equal',))
            return self.call(self.one(['anyOfAny', 'allOfAny']), inner, self.bag(kind, levels), self.bag(kind, levels))
        order = self.one(['Equal', 'LessThan', 'GreaterThanOrEqual']) if kind in ORDERED else 'Equal'
        sides = [self.value(kind, levels), self.bag(kind, levels)]
        self.random.shuffle(sides)
        return self.call(self.one(['anyOf', 'allOf']), Node('function', (kind + order,)), *sides)

    def integer(self, levels):
        """One integer."""
        kind = self.one(KINDS)
        ways = [
            lambda: self.operation(self.one('+-*/%'), self.value('integer', levels), self.value('integer', levels)),
            lambda: self.operation(self.one('+-*/%'), self.value('integer', levels), self.value('integer', levels)),
            lambda: self.call('integerAbs', self.value('integer', levels)),
            lambda: self.call(f'{kind}BagSize', self.bag(kind, levels)),
        ]
        return self.one(ways)()

    def string(self, levels):
        """One string."""
        return self.operation('+', self.value('string', levels), self.value('string', levels))

    def date(self, levels):
        """One date."""
        return self.operation(self.one('+-'), self.value('date', levels), self.literal('yearMonthDuration'))


# ---- as text


class Text:
    """Writes trees as ALFA, with more parentheses than are needed here and there."""

    def __init__(self, seed):
        self.random = random.Random(seed)

    def quoted(self, text):
        quote = self.random.choice('"\'')
        return quote + text.replace('\\', '\\\\').replace(quote, '\\' + quote) + quote

    def expression(self, node, least=0):
        """An expression that stands where one has to bind more tightly than that."""
        if node.form == 'operation':
            sign, parts = node.parts
            rank = RANKS[sign]
            if sign in ('&&', '||'):
                text = f' {sign} '.join(self.expression(each, rank) for each in parts)
            else:
                first = rank if RANKS[sign] == 3 else rank - 1
                text = f'{self.expression(parts[0], first)} {sign} {self.expression(parts[1], rank)}'
            return f'({text})' if rank <= least or self.random.random() < 0.1 else text
        return self.single(node)

    def single(self, node):
        """An expression that isn't an operation."""
        if node.form == 'literal':
            kind, value = node.parts
            if kind in ('boolean', 'integer'):
                return str(value).lower()
            return self.quoted(value) + ('' if kind == 'string' else f':{kind}')
        if node.form == 'function':
            return f'function[{node.parts[0]}]'
        if node.form == 'call':
            name, arguments = node.parts
            return f'{name}({", ".join(map(self.expression, arguments))})'
        name, must, issuer = node.parts
        inside = ['mustbepresent'] * must + ([f'issuer = {self.quoted(issuer)}'] if issuer else [])
        self.random.shuffle(inside)
        return name + (f'[{" ".join(inside)}]' if inside else '')

    def target(self, target):
        """A target."""
        clauses = [' or '.join(' and '.join(map(self.match, each)) for each in clause) for clause in target]
        return ['target ' + ' '.join(f'clause {each}' for each in clauses)] if clauses else []

    def match(self, match):
        """A match: `attribute sign literal` means what it says, at whichever side the attribute is written."""
        attribute, sign, literal, is_left = match
        texts = self.single(attribute), self.single(literal)
        if sign[0].isalpha():
            return f'{sign}({texts[1]}, {texts[0]})'
        if is_left:
            return f'{texts[0]} {sign} {texts[1]}'
        return f'{texts[1]} {sign.translate(str.maketrans("<>", "><"))} {texts[0]}'

    def given(self, given):
        """Obligations and advice."""
        found = []
        for effect, kind, name, assigned in given:
            inner = ' '.join(f'{attribute} = {self.expression(value)}' for attribute, value in assigned)
            found.append(f'on {effect} {{ {kind} {name}{f" {{ {inner} }}" if inner else ""} }}')
        return found

    def rule(self, rule):
        """A rule."""
        parts = [rule.effect, *self.target(rule.target), *self.given(rule.given)]
        if rule.condition:
            parts.append(f'condition {self.expression(rule.condition)}')
        return f'rule {rule.name} {{ {" ".join(parts)} }}'

    def policy(self, policy):
        """A policy or a set."""
        members = [each if isinstance(each, str) else self.rule(each) if isinstance(each, Rule) else self.policy(each)
                   for each in policy.members]
        parts = [*self.target(policy.target), f'apply {policy.algorithm}', *members, *self.given(policy.given)]
        return f'{policy.kind} {policy.name} {{\n  ' + '\n  '.join(parts) + '\n}'

    def world(self, world):
        """All of a world: attributes in a namespace of their own, and the policies in one within another."""
        lines = [f'attribute {each.name} {{ category = {each.category} id = "{each.id}" type = {each.kind} }}'
                 for each in ATTRIBUTES]
        own = f'category deviceCat = "{CATEGORIES["deviceCat"]}"'
        given = 'obligation u = "urn:u" obligation v = "urn:v" advice u = "urn:u" advice v = "urn:v"'
        policies = '\n'.join(self.policy(each) for each in world.values())
        return (f'namespace own {{ import System.* {own}\n' + '\n'.join(lines) + f'\n}}\nnamespace w {{ {given}\n'
                f'namespace p {{ import own.*\n{policies} }} }}')
