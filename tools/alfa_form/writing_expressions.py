"""Expressions of documents as ALFA."""
from xacml_form import names

from . import library
from .meaning import LOGIC, NUMBERS, ORDERS
from .preparing import Unsayable, kind_of

# How tightly each binds.
OR, AND, COMPARISON, SUM, PRODUCT, SINGLE = range(1, 7)
CHAINS = {library.F1(name): (sign, AND if name == 'and' else OR) for sign, name in LOGIC.items()}
COMPARED = {library.F1(f'{kind}-{name}'): sign for sign, name in ORDERS.items() for kind in names.BAGGED}
RECKONED = {library.F1(f'integer-{name}'): (sign, SUM if sign in '+-' else PRODUCT) for sign, name in NUMBERS.items()}
RECKONED |= {library.F2('string-concatenate'): ('+', SUM)}
RECKONED |= {library.F3(f'date-{NUMBERS[sign]}-yearMonthDuration'): (sign, SUM) for sign in '+-'}
MEMBERS = {library.F1(f'{kind}-at-least-one-member-of') for kind in names.BAGGED}


def quoted(text):
    """A text in quotes."""
    made = ''.join('\\' + sign if sign in '\\"\r\n' else sign for sign in text)
    return f'"{made}"'


def literal(inner):
    """A literal."""
    value = inner['Value']
    kind = kind_of(inner.get('DataType', 'boolean' if isinstance(value, bool) else 'integer' if isinstance(value, int)
                   else 'string'))
    if kind == 'boolean':
        return 'true' if value in (True, 'true', '1') else 'false'
    if kind == 'integer':
        return str(int(value))
    return quoted(value) if kind == 'string' else f'{quoted(value)}:{kind}'


class Expressions:
    """Writes them with names for attributes."""

    def __init__(self, found):
        self.names = found

    def expression(self, json):
        """A whole expression."""
        return self.ranked(json)[0]

    def within(self, json, least):
        """An expression that stands where one has to bind so tightly."""
        text, rank = self.ranked(json)
        return text if rank >= least else f'({text})'

    def ranked(self, json):
        """An expression, and how tightly it binds."""
        (key, inner), = json.items()
        if key == 'AttributeValue':
            return literal(inner), SINGLE
        if key == 'AttributeDesignator':
            return self.designator(inner), SINGLE
        if key == 'Function':
            return f'function[{self.function(inner["FunctionId"])}]', SINGLE
        return self.apply(inner['FunctionId'], inner.get('Arguments', []))

    def designator(self, inner):
        """An attribute."""
        name = self.names.attributes[inner['Category'], inner['AttributeId'], kind_of(inner['DataType'])]
        more = ['mustbepresent'] if inner.get('MustBePresent') else []
        more += [f'issuer = {quoted(inner["Issuer"])}'] if 'Issuer' in inner else []
        return f'{name}[{" ".join(more)}]' if more else name

    def function(self, uri):
        """The name of a function."""
        if uri not in library.NAME_OF:
            raise Unsayable(f'no function of ALFA is `{uri}`')
        return library.NAME_OF[uri]

    def apply(self, uri, arguments):
        """A function of arguments: by its sign where it has one, else by its name."""
        if uri in CHAINS and len(arguments) > 1:
            sign, rank = CHAINS[uri]
            return f' {sign} '.join(self.within(each, rank + 1) for each in arguments), rank
        if len(arguments) == 2 and uri in COMPARED:
            return self.between(COMPARED[uri], arguments, COMPARISON)
        if len(arguments) == 2 and uri in RECKONED:
            return self.between(*RECKONED[uri][:1], arguments, RECKONED[uri][1])
        if len(arguments) == 2 and uri in MEMBERS and all('AttributeDesignator' in each for each in arguments):
            return self.between('==', arguments, COMPARISON)
        if len(arguments) == 3 and uri == names.ANY_OF:
            inner = arguments[0].get('Function', {}).get('FunctionId')
            if inner in COMPARED:
                return self.between(COMPARED[inner], arguments[1:], COMPARISON)
        return f'{self.function(uri)}({", ".join(map(self.expression, arguments))})', SINGLE

    def between(self, sign, arguments, rank):
        """Two expressions with a sign between them, from left to right where there are several."""
        first = rank + 1 if rank == COMPARISON else rank
        return f'{self.within(arguments[0], first)} {sign} {self.within(arguments[1], rank + 1)}', rank

    def parts(self, json):
        """The parts of a chain, each as it stands in it, with the sign; or the whole."""
        inner = json.get('Apply', {})
        uri, arguments = inner.get('FunctionId'), inner.get('Arguments', [])
        if uri not in CHAINS or len(arguments) < 2:
            return '', [self.expression(json)]
        sign, rank = CHAINS[uri]
        return sign, [self.within(each, rank + 1) for each in arguments]


