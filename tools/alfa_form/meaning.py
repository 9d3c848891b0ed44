"""What expressions of ALFA mean: the expression of a document, with its type."""
import typing

from xacml_form import literals, names, rewriting
from xacml_form.told import Placed

from . import library, tree

ORDERS = {'==': 'equal', '>': 'greater-than', '>=': 'greater-than-or-equal', '<': 'less-than',
          '<=': 'less-than-or-equal'}
LOGIC = {'&&': 'and', '||': 'or'}
NUMBERS = {'+': 'add', '-': 'subtract', '*': 'multiply', '/': 'divide', '%': 'mod'}


class Found(typing.NamedTuple):
    """An expression, its type, and whether it is a bag of that; of one in which something is wrong the type is None."""

    json: typing.Optional[dict]
    kind: typing.Optional[str]
    is_bag: bool = False

    @property
    def type(self):
        """Its type in a sentence."""
        return bag_of(self.kind) if self.is_bag else self.kind


WRONG = Found(None, None)


def bag_of(kind):
    """A bag of a type, in a sentence."""
    return f'a bag of {kind}s'


def one_and_only(kind):
    """The function that makes one value of a bag of a type."""
    return library.camel(f'{kind}-one-and-only')


def placed(place, parts):
    """An object of a document that knows its place."""
    return Placed(place, lambda _: place, parts)


class Meaning:
    """Finds it, and tells what is wrong."""

    def __init__(self, world):
        self.world, self.told = world, world.told
        self.ways = {tree.Literal: self.literal, tree.Designator: self.designator, tree.Call: self.call,
                     tree.FunctionName: self.function_alone, tree.Operation: self.operation,
                     tree.Unread: lambda *_: WRONG}

    def of(self, node, block):
        """The expression that a node is."""
        return self.ways[type(node)](node, block)

    def wrong(self, place, what):
        """Tells what is wrong, and gives an expression without a type."""
        self.told.error(place, what)
        return WRONG

    # ---- literals and attributes

    def literal(self, node, block):
        """A literal."""
        if node.kind == 'boolean':
            return self.valued(node.place, 'boolean', node.text == 'true')
        if node.kind == 'number':
            if '.' in node.text:
                return self.missing_type(node.place, f'`{node.text}` is a double, which', library.TYPES['double'])
            if why := literals.why_not('integer', node.text):
                return self.wrong(node.place, why.removeprefix('by hand: '))
            return self.valued(node.place, 'integer', int(node.text))
        kind = self.type(node.type, block) if node.type else 'string'
        if kind is None:
            return WRONG
        if why := literals.why_not(kind, node.text):
            return self.wrong(node.place, f'"{node.text[:60]}" is no {kind} here: {why.removeprefix("by hand: ")}')
        if kind in ('boolean', 'integer'):
            return self.valued(node.place, kind, node.text in ('true', '1') if kind == 'boolean' else int(node.text))
        return self.valued(node.place, kind, node.text)

    def valued(self, place, kind, value):
        """A literal of a type."""
        return Found(placed(place, {'AttributeValue': placed(place, {'DataType': kind, 'Value': value})}), kind)

    def missing_type(self, place, what, uri):
        """Tells of a type that isn't here what can be done."""
        how = names.MISSING_TYPES.get(uri, 'store what it finds as an attribute')
        return self.wrong(place, f'{what} isn\'t here: {how}')

    def type(self, name, block):
        """The type that a name means; None, and told, where it isn't here."""
        uri = self.world.uri('type', name, block)
        if uri is None or uri in names.HERE_TYPES:
            return names.HERE_TYPES.get(uri)
        if uri in names.MISSING_TYPES or uri == names.XPATH_TYPE:
            self.missing_type(name.place, f'the type `{name.text}`', uri)
        else:
            self.told.error(name.place, f'the type `{name.text}` ({uri}) isn\'t here; docs/POLICIES.md lists the eight')
        return None

    def declared(self, name, block):
        """What a name of an attribute means: its declaration, its category, its id and its type; or None."""
        found = self.world.need('attribute', name, block)
        if found is None or None in (found.id, found.type, found.category):
            return None
        uri = self.world.find('type', found.type, found.block)
        category = self.world.find('category', found.category, found.block)
        if not self.is_uri(uri) or not self.is_uri(category):
            return None
        uri = uri if isinstance(uri, str) else uri.uri.text
        if uri in names.HERE_TYPES:
            category = self.world.uri('category', found.category, found.block)
            return names.HERE_TYPES[uri], category, found.id.text
        self.missing_type(name.place, f'`{name.text}` is of the type `{found.type.text}`, which', uri)
        return None

    def is_uri(self, found):
        """Whether a name was found, and means one thing."""
        return isinstance(found, (str, tree.Declaration))

    def designator(self, node, block):
        """An attribute."""
        found = self.declared(node.name, block)
        if found is None:
            return WRONG
        kind, category, identifier = found
        if not category:
            return self.wrong(node.place, f'`{node.name.text}` is of a category without a URI, so it is only assigned')
        parts = {'Category': category, 'AttributeId': identifier, 'DataType': kind, 'MustBePresent': node.must}
        if node.issuer:
            parts['Issuer'] = node.issuer.text
        return Found(placed(node.place, {'AttributeDesignator': placed(node.place, parts)}), kind, True)

    # ---- functions

    def apply(self, place, function, *arguments):
        """A function of arguments."""
        parts = {'FunctionId': function}
        if arguments:
            parts['Arguments'] = [each.json for each in arguments]
        return placed(place, {'Apply': placed(place, parts)})

    def function(self, name, block):
        """The name in the library of a function that is called so; None, and told, where it isn't here."""
        found = self.world.need('function', name, block)
        if isinstance(found, tree.Declaration):
            uri = names.OLD_FUNCTIONS.get(found.uri.text, found.uri.text)
            known = {**library.NAME_OF, **{uri: each for each, uri in library.REWRITTEN.items()}}
            if uri not in known:
                what = f'the function `{name.text}` ({uri}) isn\'t here: {library.instead(uri)}'
                self.told.error(name.place, what)
            return known.get(uri)
        if found in library.SPELLED:
            self.told.note(name.place, f'`{found}` is taken as `{library.SPELLED[found]}`')
            return library.SPELLED[found]
        if found in library.MISSING:
            uri = library.MISSING[found]
            what = f'the function {uri.rpartition(":")[2]} isn\'t here: {library.instead(uri)}'
            self.told.error(name.place, what)
            return None
        return found

    def function_alone(self, node, _block):
        """`function[name]` where no function takes one."""
        return self.wrong(node.place, 'function[..] is only the first argument of anyOf and allOf')

    def call(self, node, block):
        """A function with its arguments."""
        name = self.function(node.name, block)
        takes_function = name in library.REWRITTEN and name.endswith('Any') or name in ('anyOf', 'allOf')
        inner, rest = None, node.arguments
        if takes_function:
            if not rest or not isinstance(rest[0], tree.FunctionName):
                self.of_all(rest, block)
                return self.wrong(node.place, f'{node.name.text} begins with function[..]')
            inner, rest = self.function(rest[0].name, block), rest[1:]
        arguments = self.of_all(rest, block)
        if name is None or takes_function and inner is None or WRONG in arguments:
            return WRONG
        if name in library.REWRITTEN:
            return self.rewritten(node, name, inner, arguments)
        if takes_function:
            return self.of_function(node, name, inner, arguments)
        return self.applied(node.place, name, arguments)

    def of_all(self, nodes, block):
        """Some expressions."""
        return [self.of(each, block) for each in nodes]

    def applied(self, place, name, arguments):
        """A function of arguments, whose types have to fit."""
        function = library.FUNCTIONS[name]
        fault = misfit(name, function, [(each.kind, each.is_bag) for each in arguments])
        if fault:
            return self.wrong(place, fault)
        return Found(self.apply(place, function.uri, *arguments), *function.gives)

    def of_function(self, node, name, inner, arguments):
        """anyOf or allOf: exactly one argument is a bag, and for each of its values the function gives a boolean."""
        if sum(each.is_bag for each in arguments) != 1:
            return self.wrong(node.place, f'{name} takes exactly one bag behind its function')
        function = library.FUNCTIONS.get(inner)
        fault = f'{inner} can\'t stand in {name}' if function is None or function.takes is None else misfit(
            inner, function, [(each.kind, False) for each in arguments])
        if not fault and function.gives != ('boolean', False):
            fault = f'{inner} gives no boolean, so it can\'t stand in {name}'
        if fault:
            return self.wrong(node.place, fault)
        return Found(self.higher(node.place, library.FUNCTIONS[name].uri, function.uri, arguments), 'boolean')

    def higher(self, place, uri, inner, arguments):
        """A function of a function, and of arguments."""
        first = Found(placed(place, {'Function': placed(place, {'FunctionId': inner})}), None)
        return self.apply(place, uri, first, *arguments)

    def rewritten(self, node, name, inner, arguments):
        """A function that isn't here, by those that are."""
        given = [full(each.json) for each in arguments]
        bags = {id(each) for each, found in zip(given, arguments) if found.is_bag}
        if name.endswith('Any'):
            uri = library.FUNCTIONS[inner].uri if inner in library.FUNCTIONS else library.REWRITTEN[inner]
            given = [{'Function': {'FunctionId': uri}}, *given]
            fault = None if len({each.kind for each in arguments}) == 1 else f'{name} takes values of one type'
        elif name == 'nOf':
            kinds = [(each.kind, each.is_bag) for each in arguments]
            fits = kinds[:1] == [('integer', False)] and all(each == ('boolean', False) for each in kinds[1:])
            fault = None if fits else 'nOf takes an integer and then booleans'
        else:
            fits = [(each.kind, each.is_bag) for each in arguments] == [('time', False)] * 3
            fault = None if fits else 'timeInRange takes three times'
        if fault:
            return self.wrong(node.place, fault)
        try:
            uri = library.REWRITTEN[name]
            made, how, _ = rewriting.REWRITINGS[uri](uri, given, lambda each: id(each) in bags)
        except rewriting.ByHand as told:
            return self.wrong(node.place, f'{name} isn\'t here: {str(told).removeprefix("by hand: ")}')
        self.told.note(node.place, f'{name} is written as {how}')
        return Found(placed(node.place, made), 'boolean')

    # ---- operators

    def operation(self, node, block):
        """Expressions with an operator between them."""
        parts, sign, place = self.of_all(node.parts, block), node.sign.text, node.place
        if WRONG in parts:
            return WRONG
        if sign in LOGIC:
            return self.logic(place, sign, parts)
        if sign in ORDERS:
            return self.compared(place, sign, *parts)
        return self.reckoned(place, sign, *parts)

    def logic(self, place, sign, parts):
        """Booleans with `&&` or `||` between them."""
        bad = next((each for each in parts if (each.kind, each.is_bag) != ('boolean', False)), None)
        if bad:
            hint = f': {one_and_only("boolean")} makes one of a bag' if bad.kind == 'boolean' else ''
            count = 'two booleans' if len(parts) == 2 else 'booleans'
            return self.wrong(place, f'`{sign}` takes {count}, and not {bad.type}{hint}')
        return Found(self.apply(place, library.F1(LOGIC[sign]), *parts), 'boolean')

    def compared(self, place, sign, left, right):
        """Two values or bags that are compared."""
        if left.kind != right.kind:
            return self.wrong(place, f'`{sign}` compares values of one type, not {left.kind} with {right.kind}')
        name, kind = f'{left.kind}-{ORDERS[sign]}', left.kind
        if library.camel(name) not in library.FUNCTIONS:
            how = '' if kind in names.BAGGED else f': {library.instead_of(name)}'
            return self.wrong(place, f'no function compares {kind} with {kind} by `{sign}`{how}')
        uri = library.F1(name)
        if not left.is_bag and not right.is_bag:
            return Found(self.apply(place, uri, left, right), 'boolean')
        if not (left.is_bag and right.is_bag):
            return Found(self.higher(place, names.ANY_OF, uri, [left, right]), 'boolean')
        if sign == '==':
            return Found(self.apply(place, library.F1(f'{kind}-at-least-one-member-of'), left, right), 'boolean')
        return self.wrong(place, f'`{sign}` between two bags has no form here: {one_and_only(kind)} at one side')

    def reckoned(self, place, sign, left, right):
        """A sum, a product and so on."""
        kinds = left.kind, right.kind
        reckons = {('string', 'string'): ('+',), ('date', 'yearMonthDuration'): ('+', '-'),
                   ('integer', 'integer'): tuple(NUMBERS)}
        if sign not in reckons.get(kinds, ()):
            return self.wrong(place, f'no function reckons `{sign}` with {kinds[0]} and {kinds[1]}')
        bag = next((each.kind for each in (left, right) if each.is_bag), None)
        if bag:
            return self.wrong(place, f'`{sign}` takes single values: {one_and_only(bag)} makes one of a bag')
        if left.kind == 'integer':
            uri = library.F1(f'integer-{NUMBERS[sign]}')
        elif left.kind == 'string':
            uri = library.F2('string-concatenate')
            self.told.note(place, '`+` between strings is taken as stringConcatenate')
        else:
            uri = library.F3(f'date-{NUMBERS[sign]}-yearMonthDuration')
            self.told.note(place, f'`{sign}` between a date and a yearMonthDuration is taken as'
                           f' {library.NAME_OF[uri]}')
        return Found(self.apply(place, uri, left, right), left.kind)


def misfit(name, function, given):
    """Why arguments of these types don't fit a function; None where they do."""
    takes = list(function.takes or [])
    if function.least is not None:
        takes = takes * max(function.least, len(given))
    if given == takes:
        return None
    if len(given) != len(takes):
        least = 'at least ' if function.least is not None else ''
        count = f'{len(takes)} argument' + ('' if len(takes) == 1 else 's')
        return f'{name} takes {least}{count}, and not {len(given)}'
    at = next(number for number, (one, other) in enumerate(zip(given, takes)) if one != other)
    (kind, is_bag), (wanted, wants_bag) = given[at], takes[at]
    shown, want = bag_of(kind) if is_bag else kind, bag_of(wanted) if wants_bag else wanted
    hint = ''
    if kind == wanted:
        makes = f'{wanted}-bag' if wants_bag else f'{wanted}-one-and-only'
        hint = f': {library.camel(makes)} makes one'
    return f'{name} takes {want} as argument {at + 1}, and not {shown}{hint}'


def full(json):
    """A literal with the URI of its type, which the rewriting reads; anything else as it is."""
    found = json.get('AttributeValue')
    return {'AttributeValue': found | {'DataType': names.XML_SCHEMA + found['DataType']}} if found else json
