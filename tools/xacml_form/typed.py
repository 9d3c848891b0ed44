"""Random policies in XML whose expressions have types that fit: each function that the tool takes or rewrites stands in
some."""
import random

from . import names
from .driver import F1, apply, bag, function, literal

F2, F3 = names.FUNCTION.format('2.0', '{}').format, names.FUNCTION.format('3.0', '{}').format
LITERALS = {
    'string': ['a', 'doctor', 'ab', ''],
    'boolean': ['true', 'false', ' 1 '],
    'integer': ['0', '1', '-7', '+3', str(2**63 - 1)],
    'date': ['2026-03-01', '2024-02-29', '9999-12-31'],
    'anyURI': ['urn:a', 'http://example.org/'],
    'time': ['07:00:00', '23:30:00', '12:00:00'],
    'dateTime': ['2026-03-01T12:00:00', '2025-12-31T23:29:59+01:00', '2026-01-01T00:00:00Z'],
    'yearMonthDuration': ['P1Y', '-P3M', 'P1Y1M'],
}
COMPARED = ['equal', *names.ORDERS]


class Typed:
    """Makes them, by chance."""

    def __init__(self, seed):
        self.random = random.Random(seed)
        self.count = 0

    def one(self, listed):
        """One of some."""
        return self.random.choice(listed)

    def some(self, make, least=0, most=3):
        """Some parts, one behind the other."""
        return ''.join(make() for _ in range(self.random.randint(least, most)))

    def new(self, stem):
        """An id that no other part has."""
        self.count += 1
        return f'{stem}{self.count}'

    # ---- policies

    def document(self):
        """A policy or a set, with the namespace."""
        made = self.policy() if self.random.random() < 0.4 else self.set(2)
        return made.replace(' ', f' xmlns="{names.NAMESPACE}" ', 1)

    def policy(self):
        """A policy."""
        algorithm = self.one(sorted(names.HERE_ALGORITHMS[names.RULES]))
        return (
            f'<Policy PolicyId="{self.new("p")}" Version="1" RuleCombiningAlgId="{algorithm}">{self.target()}'
            f'{self.some(self.rule, 1)}{self.given()}</Policy>'
        )

    def set(self, levels):
        """A set of policies and sets."""
        algorithm = self.one(sorted(names.HERE_ALGORITHMS[names.POLICIES]))
        child = lambda: self.set(levels - 1) if levels > 1 and self.random.random() < 0.3 else self.policy()
        return (
            f'<PolicySet PolicySetId="{self.new("s")}" Version="1" PolicyCombiningAlgId="{algorithm}">{self.target()}'
            f'{self.some(child, 1)}{self.given()}</PolicySet>'
        )

    def rule(self):
        """A rule."""
        condition = f'<Condition>{self.single("boolean", 3)}</Condition>' if self.random.random() < 0.7 else ''
        own = self.target() if self.random.random() < 0.5 else ''
        effect = self.one(['Permit', 'Deny'])
        return f'<Rule RuleId="{self.new("r")}" Effect="{effect}">{own}{condition}{self.given()}</Rule>'

    def target(self):
        """A target."""
        all_of = lambda: f'<AllOf>{self.some(self.match, 1, 2)}</AllOf>'
        return f'<Target>{self.some(lambda: f"<AnyOf>{self.some(all_of, 1, 2)}</AnyOf>", 0, 1)}</Target>'

    def match(self):
        """A match."""
        kind = self.one(names.BAGGED)
        name = self.one(COMPARED) if kind in names.COMPARED else 'equal'
        return f'<Match MatchId="{F1(f"{kind}-{name}")}">{self.literal(kind)}{self.designator(kind)}</Match>'

    def given(self):
        """Obligations or advice, or neither."""
        if self.random.random() < 0.6:
            return ''
        name, on = self.one([('Obligation', 'FulfillOn'), ('Advice', 'AppliesTo')])
        effect = self.one(['Permit', 'Deny'])
        one = f'<{name}Expression {name}Id="{self.new("o")}" {on}="{effect}">{self.some(self.assignment)}'
        return f'<{name}Expressions>{one}</{name}Expression></{name}Expressions>'

    def assignment(self):
        """A value, or a bag of them."""
        value = self.bag('string', 1) if self.random.random() < 0.3 else self.single(self.one(names.TYPES[:6]), 1)
        head = f'AttributeAssignmentExpression AttributeId="{self.new("a")}"'
        return f'<{head}>{value}</AttributeAssignmentExpression>'

    # ---- expressions

    def literal(self, kind):
        """A literal of a type."""
        return literal(kind, self.one(LITERALS[kind]))

    def designator(self, kind):
        """One of two attributes of a type."""
        return bag(f'{kind}-{self.one("xy")}', kind, self.one(['true', 'false', 'false']))

    def single(self, kind, levels):
        """An expression of one value of a type."""
        makers = {'boolean': self.boolean, 'integer': self.integer, 'string': self.string, 'date': self.date}
        if levels > 0 and kind in makers and self.random.random() < 0.8:
            return makers[kind](levels - 1)
        if kind in names.BAGGED and self.random.random() < 0.5:
            return apply(F1(f'{kind}-one-and-only'), self.designator(kind))
        text = self.one(LITERALS[kind])
        return literal(kind, text.partition('+')[0] if kind == 'dateTime' else text)

    def bag(self, kind, levels):
        """An expression of a bag of a type."""
        name = self.one(['bag', 'intersection', 'union'])
        if levels <= 0 or self.random.random() < 0.5:
            return self.designator(kind)
        if name == 'bag':
            return apply(F1(f'{kind}-bag'), self.some(lambda: self.single(kind, levels - 1)))
        return apply(F1(f'{kind}-{name}'), self.bag(kind, levels - 1), self.bag(kind, levels - 1))

    def boolean(self, levels):
        """A comparison, or and, or, not and n-of over some."""
        truth = lambda: self.single('boolean', levels)
        makers = [
            lambda: self.comparison(levels),
            lambda: self.of_bags(levels),
            lambda: self.of_functions(levels),
            lambda: self.of_strings(levels),
            lambda: apply(F1('not'), truth()),
            lambda: apply(self.one([F1('and'), F1('or')]), self.some(truth)),
            lambda: apply(names.N_OF, literal('integer', self.one('012')), truth(), truth()),
        ]
        return self.one(makers)()

    def comparison(self, levels):
        """An equality or an order, or a range of times."""
        kind = self.one(names.BAGGED)
        name = self.one(COMPARED) if kind in names.COMPARED else 'equal'
        if kind == 'time' and self.random.random() < 0.3:
            return apply(names.TIME_IN_RANGE, self.single(kind, levels), self.literal(kind), self.literal(kind))
        sides = [self.single(kind, levels), self.literal(kind) if kind == 'dateTime' else self.single(kind, levels)]
        return apply(F1(f'{kind}-{name}'), *sides)

    def of_bags(self, levels):
        """A question on bags."""
        kind = self.one(names.BAGGED)
        name = self.one(['is-in', 'at-least-one-member-of', 'subset', 'set-equals'])
        first = self.single(kind, levels) if name == 'is-in' else self.bag(kind, levels)
        return apply(F1(f'{kind}-{name}'), first, self.bag(kind, levels))

    def of_functions(self, levels):
        """A function of an equality."""
        kind = self.one(names.BAGGED)
        inner = function(F1(f'{kind}-equal'))
        if self.random.random() < 0.5:
            return apply(self.one([names.ANY_OF_ANY, names.ALL_OF_ANY]), inner, *(self.bag(kind, levels) for _ in 'ab'))
        name = self.one([names.ANY_OF, names.ALL_OF, F1('any-of'), F1('all-of')])
        return apply(name, inner, self.single(kind, levels), self.bag(kind, levels))

    def of_strings(self, levels):
        """A question on strings."""
        name = self.one(['starts-with', 'ends-with', 'contains'])
        return apply(F3(f'string-{name}'), self.single('string', levels), self.single('string', levels))

    def integer(self, levels):
        """A number that is reckoned."""
        name = self.one(['add', 'multiply', 'subtract', 'divide', 'mod', 'abs', 'bag-size'])
        if name == 'bag-size':
            kind = self.one(names.BAGGED)
            return apply(F1(f'{kind}-bag-size'), self.bag(kind, levels))
        return apply(F1(f'integer-{name}'), *(self.single('integer', levels) for _ in range(1 if name == 'abs' else 2)))

    def string(self, levels):
        """Two strings as one."""
        return apply(F2('string-concatenate'), self.single('string', levels), self.single('string', levels))

    def date(self, levels):
        """A date so much later or earlier."""
        name = F3(f'date-{self.one(["add", "subtract"])}-yearMonthDuration')
        return apply(name, self.single('date', levels), self.literal('yearMonthDuration'))
