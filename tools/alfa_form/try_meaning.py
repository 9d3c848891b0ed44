"""What the trees of try_worlds.py mean, by section 7 and appendices A and C of the standard: nothing of the tool, and
no document, is looked at."""
import datetime

from xacml_form.direct_combining import combining

from .try_worlds import BY_NAME, CATEGORIES, Rule

LEAST, MOST = -(2**63), 2**63 - 1
URI = {'firstApplicable': '1.0:{}-combining-algorithm:first-applicable',
       'onlyOneApplicable': '1.0:{}-combining-algorithm:only-one-applicable',
       'denyOverrides': '3.0:{}-combining-algorithm:deny-overrides',
       'permitOverrides': '3.0:{}-combining-algorithm:permit-overrides',
       'orderedDenyOverrides': '3.0:{}-combining-algorithm:ordered-deny-overrides',
       'orderedPermitOverrides': '3.0:{}-combining-algorithm:ordered-permit-overrides',
       'denyUnlessPermit': '3.0:{}-combining-algorithm:deny-unless-permit',
       'permitUnlessDeny': '3.0:{}-combining-algorithm:permit-unless-deny'}
NONE = ('NotApplicable', [], [])


class Indeterminate(Exception):
    """An expression without a value."""


def ordered(sign, left, right):
    """Whether two values are so to each other."""
    return {'==': left == right, '<': left < right, '<=': left <= right, '>': left > right,
            '>=': left >= right}[sign]


def whole(value):
    """An integer of 64 bits."""
    if not LEAST <= value <= MOST:
        raise Indeterminate
    return value


def cut(left, right):
    """A quotient that is cut toward zero."""
    if right == 0:
        raise Indeterminate
    return abs(left) // abs(right) * (1 if (left < 0) == (right < 0) else -1)


def months(text):
    """How many months a duration has."""
    sign, text = (-1, text[1:]) if text[0] == '-' else (1, text)
    years, _, rest = text[1:].rpartition('Y')
    return sign * (int(years or 0) * 12 + int(rest.rstrip('M') or 0))


def later(day, count):
    """A date so many months later; the day of the month becomes the last of a shorter one."""
    year, month, number = map(int, day.split('-'))
    year, month = divmod(year * 12 + month - 1 + count, 12)
    if not 1 <= year <= 9999:
        raise Indeterminate
    last = (datetime.date(year + month // 11, (month + 1) % 12 + 1, 1) - datetime.timedelta(1)).day
    return f'{year:04}-{month + 1:02}-{min(number, last):02}'


class Meaning:
    """What trees mean for one request: for each attribute the values that it has, each with its issuer."""

    def __init__(self, world, request):
        self.world, self.request = world, request

    # ---- expressions

    def of(self, node):
        """The value of an expression, or a list of values."""
        return getattr(self, node.form)(*node.parts)

    def literal(self, _kind, value):
        return value

    def attribute(self, name, must, issuer):
        found = [value for value, by in self.request[name] if issuer in (None, by)]
        if must and not found:
            raise Indeterminate
        return found

    def operation(self, sign, parts):
        if sign in ('&&', '||'):
            return self.logic(sign == '||', parts)
        left, right = (self.of(each) for each in parts)
        if sign in ('==', '<', '<=', '>', '>='):
            lefts, rights = (each if isinstance(each, list) else [each] for each in (left, right))
            return any(ordered(sign, one, other) for one in lefts for other in rights)
        if isinstance(left, int):
            return whole(self.reckoned(sign, left, right))
        if right[-1:] in ('Y', 'M') and right.lstrip('-').startswith('P'):
            return later(left, months(right) * (1 if sign == '+' else -1))
        return left + right

    def reckoned(self, sign, left, right):
        if sign in '/%':
            quotient = cut(left, right)
            return quotient if sign == '/' else left - quotient * right
        return {'+': left + right, '-': left - right, '*': left * right}[sign]

    def logic(self, decides, parts):
        """From left to right up to the first that decides."""
        for each in parts:
            if self.of(each) == decides:
                return decides
        return not decides

    def call(self, name, arguments):
        if name in ('and', 'or'):
            return self.logic(name == 'or', arguments)
        if name == 'nOf':
            return self.count(self.of(arguments[0]), arguments[1:])
        if name in ('anyOf', 'allOf', 'anyOfAny', 'allOfAny'):
            return self.of_function(name, arguments)
        return self.function(name, [self.of(each) for each in arguments])

    def count(self, wanted, parts):
        """Whether so many are true; what can't change that isn't looked at."""
        for number, each in enumerate(parts):
            if wanted <= 0 or wanted > len(parts) - number:
                break
            wanted -= self.of(each)
        return wanted <= 0

    def of_function(self, name, arguments):
        """A function over the values of bags."""
        inner, (left, right) = arguments[0].parts[0], [self.of(each) for each in arguments[1:]]
        sign = next(sign for end, sign in [('Equal', '=='), ('LessThan', '<'), ('GreaterThanOrEqual', '>=')]
                    if inner.endswith(end) and (end != 'Equal' or not inner.endswith('OrEqual')))
        lefts, rights = (each if isinstance(each, list) else [each] for each in (left, right))
        if name == 'allOfAny':
            return all(any(ordered(sign, one, other) for other in rights) for one in lefts)
        each = [ordered(sign, one, other) for one in lefts for other in rights]
        return all(each) if name == 'allOf' else any(each)

    def function(self, name, values):
        """A function that looks at all its arguments."""
        first, second = (values + [None, None])[:2]
        ends = {'OneAndOnly': self.only, 'BagSize': len, 'AtLeastOneMemberOf': lambda bag: bool(set(bag) & set(second)),
                'IsIn': lambda value: value in second, 'Subset': lambda bag: set(bag) <= set(second),
                'SetEquals': lambda bag: set(bag) == set(second),
                'Intersection': lambda bag: [each for each in dict.fromkeys(bag) if each in second],
                'Union': lambda bag: list(dict.fromkeys(bag + second)), 'Abs': lambda value: whole(abs(value)),
                'StartsWith': lambda text: second.startswith(text), 'EndsWith': lambda text: second.endswith(text),
                'Contains': lambda text: text in second}
        if name == 'not':
            return not first
        if name == 'timeInRange':
            since, until = values[1:]
            return since <= first <= until if since <= until else first >= since or first <= until
        if name.endswith('Bag'):
            return values
        return next(way for end, way in ends.items() if name.endswith(end))(first)

    def only(self, bag):
        """The one value of a bag."""
        if len(bag) != 1:
            raise Indeterminate
        return bag[0]

    # ---- targets

    def match(self, match):
        """Whether a match holds: True, False or None, where that can't be said."""
        attribute, sign, literal, _ = match
        try:
            values = self.of(attribute)
        except Indeterminate:
            return None
        wanted = literal.parts[1]
        if sign[0].isalpha():
            return any(self.function(sign, [wanted, value]) for value in values)
        return any(ordered(sign, value, wanted) for value in values)

    def target(self, target):
        """Whether a target matches: as one of the words of the standard."""
        each = [any_of([all_of([self.match(match) for match in matches]) for matches in clause]) for clause in target]
        return {True: 'Match', False: 'No match', None: 'Indeterminate'}[all_of(each)]

    # ---- rules, policies and sets

    def result(self, node):
        """The decision of an element, with its obligations and advice."""
        matches = self.target(node.target)
        if matches == 'No match':
            return NONE
        if isinstance(node, Rule):
            return self.rule(node, matches)
        members = [self.world[each] if isinstance(each, str) else each for each in node.members]
        children = [(lambda _, each=each: self.target(each.target), lambda _, each=each: self.result(each))
                    for each in members]
        kind = 'PolicySet' if node.kind == 'policyset' else 'Policy'
        of = 'policy' if kind == 'PolicySet' else 'rule'
        name = 'urn:oasis:names:tc:xacml:' + URI[node.algorithm].format(of)
        found = combining(name, kind)(children, None)
        if matches == 'Indeterminate':
            kinds = {'Permit': 'Indeterminate{P}', 'Deny': 'Indeterminate{D}'}
            return kinds.get(found[0], found[0]), [], []
        return self.given(node.given, found)

    def rule(self, rule, matches):
        """The same of a rule."""
        effect = rule.effect.capitalize()
        try:
            if matches == 'Indeterminate':
                raise Indeterminate
            if rule.condition is not None and not self.of(rule.condition):
                return NONE
        except Indeterminate:
            return f'Indeterminate{{{effect[0]}}}', [], []
        return self.given(rule.given, (effect, [], []))

    def given(self, given, found):
        """What an element gives for its decision, behind what its children give."""
        decision, obligations, advice = found
        lists = {'obligation': list(obligations), 'advice': list(advice)}
        try:
            for effect, kind, name, assigned in given:
                if effect.capitalize() == decision:
                    lists[kind].append([f'urn:{name}', [one for each in assigned for one in self.assigned(*each)]])
        except Indeterminate:
            return f'Indeterminate{{{decision[0]}}}', [], []
        if decision not in ('Permit', 'Deny'):
            return decision, [], []
        return decision, lists['obligation'], lists['advice']

    def assigned(self, name, node):
        """What is assigned: each value with the attribute's id, category and type."""
        found, value = BY_NAME[name], self.of(node)
        values = value if isinstance(value, list) else [value]
        return [[found.id, CATEGORIES[found.category], found.kind, each] for each in values]


def all_of(each):
    """`and` of True, False and None."""
    return False if False in each else None if None in each else True


def any_of(each):
    """`or` of them."""
    return True if True in each else None if None in each else False


