"""Expressions (5.25 to 5.31), from XML to JSON."""
from . import literals, names, patterns, rewriting
from .places import IMPOSSIBLE, REWRITTEN, WARNING

BAG_RESULTS = ('-bag', '-intersection', '-union')
PASSING = (*BAG_RESULTS, '-one-and-only', '-yearMonthDuration')
NO_SELECTOR = 'there is no XPath; store what it finds as an attribute, and use an AttributeDesignator'


# What an expression is read for, beside literals.COMPARED and GIVEN: the function of any-of or all-of.
HIGHER = 'higher'
# What is rewritten as the function of any-of and all-of.
OVER = {function: rewriting.regexp_match_over for function in patterns.MATCHES}


def not_over(_function, arguments, _is_bag):
    """A function that is rewritten by itself alone."""
    raise rewriting.ByHand(names.how_without(arguments[0]['Function']['FunctionId']))


def shown(function, arguments):
    """What is rewritten, in words: a regular expression by its pattern, else the function."""
    found = [rewriting.literal(each, 'string') for each in arguments[:2]] if function in patterns.MATCHES else []
    pattern = next((each for each in found if each is not None), None)
    return f'the function {function}' if pattern is None else f'the regular expression {pattern[:80]}'


class Expressions:
    """Reads expressions of one policy or set, whose variables it knows by the elements that define them."""

    def __init__(self, elements, definitions):
        self.elements, self.told, self.definitions = elements, elements.told, definitions

    def only(self, element, use=None):
        """The one expression in an element."""
        [(_, child)] = self.elements.children(element)
        return self.expression(child, use)

    def expression(self, element, use=None):
        name = self.elements.name(element)
        if name == 'Apply':
            return self.apply(element, use)
        read = {
            'AttributeValue': lambda: self.value(element, use),
            'AttributeDesignator': lambda: self.designator(element),
            'AttributeSelector': lambda: self.selector(element),
            'VariableReference': lambda: self.elements.attributes(element),
            'Function': lambda: {'FunctionId': self.function(element, use == HIGHER)},
        }
        return {name: self.elements.placed(element, read[name]())}

    def value(self, element, use=None):
        """A literal: its type in full, and its value."""
        place = self.elements.place(element)
        uri = literals.data_type(self.elements.attributes(element)['DataType'], place, self.told)
        text = self.elements.text(element)
        return {'DataType': uri, 'Value': literals.value(uri, text, place, self.told, use)}

    def designator(self, element):
        found = self.elements.attributes(element)
        found['DataType'] = literals.data_type(found['DataType'], self.elements.place(element), self.told)
        return found

    def selector(self, element):
        self.told.tell(IMPOSSIBLE, self.elements.place(element), 'AttributeSelector', NO_SELECTOR)
        return {}

    def function(self, element, is_applied=False):
        """The identifier of a function: an older name of one that is here by its newer one, else as it stands. One that
        isn't here is told, unless it may be rewritten."""
        given = self.elements.attributes(element)['FunctionId']
        found = names.OLD_FUNCTIONS.get(given, given)
        if found != given:
            self.told.tell(
                REWRITTEN, self.elements.place(element), f'the function {given}', f'an older name of {found}'
            )
        if found not in names.HERE_FUNCTIONS and not (is_applied and found in rewriting.REWRITINGS):
            self.not_here(element, found)
        return found

    def not_here(self, element, function, how=None):
        how = how or names.how_without(function)
        weight, _, rest = how.partition(': ')
        self.told.tell(
            'by hand' if weight == 'by hand' else IMPOSSIBLE,
            self.elements.place(element),
            f'the function {function}',
            rest or how,
        )

    def apply(self, element, use):
        function = self.function(element, is_applied=True)
        children = []
        for name, child in self.elements.children(element):
            if name == 'Description':
                how = 'left out: an Apply has none here'
                self.told.tell(REWRITTEN, self.elements.place(child), 'the Description of an Apply', how)
            else:
                children.append(child)
        inner = literals.COMPARED if self.compares(function, children) else use if function.endswith(PASSING) else None
        over = HIGHER if function in (names.ANY_OF, names.ALL_OF) else inner
        arguments = [
            self.expression(child, over if self.elements.name(child) == 'Function' else inner) for child in children
        ]
        return self.elements.placed(element, self.applied(element, function, arguments))

    def applied(self, element, function, arguments):
        """An application, or what says the same where it is rewritten."""
        named = arguments[0].get('Function', {}).get('FunctionId') if arguments else None
        if function in (names.ANY_OF, names.ALL_OF) and named in rewriting.REWRITINGS:
            what, rewrite = named, OVER.get(named, not_over)
        elif function in rewriting.REWRITINGS:
            what, rewrite = function, rewriting.REWRITINGS[function]
        else:
            return rewriting.apply(function, *arguments)
        try:
            rewritten = rewrite(function, arguments, self.is_bag)
        except rewriting.ByHand as why:
            self.not_here(element, what, str(why))
            return rewriting.apply(function, *arguments)
        self.told.tell(rewritten.weight, self.elements.place(element), shown(what, arguments), rewritten.how)
        return rewritten.expression

    def words(self, element, function, literal):
        """What finds the words of the regular expression of a Match: of each the function and the literal."""
        try:
            kind, found = rewriting.words_of(function, literal)
        except rewriting.ByHand as why:
            self.not_here(element, function, str(why))
            return [(function, {})]
        self.told.tell(WARNING, self.elements.place(element), shown(function, [literal]), patterns.said(kind, found))
        return [
            (patterns.function(kind, each), rewriting.a_literal(kind, each.text)['AttributeValue']) for each in found
        ]

    def compares(self, function, children):
        """Whether a function compares dates or times, or applies one that does."""
        if function in names.HIGHER_ORDER:
            first = children[0].get('FunctionId') if children else None
            return first in names.TIMES_COMPARED
        return function in names.TIMES_COMPARED

    def is_bag(self, expression, within=()):
        """Whether an expression gives a bag."""
        if 'Apply' in expression:
            return expression['Apply']['FunctionId'].endswith(BAG_RESULTS)
        if 'VariableReference' in expression:
            variable = expression['VariableReference']['VariableId']
            element = self.definitions.get(variable)
            return element is not None and variable not in within and self.is_bag_element(element, (*within, variable))
        return 'AttributeDesignator' in expression or 'AttributeSelector' in expression

    def is_bag_element(self, element, within):
        """The same of what defines a variable."""
        for child in element:
            name = child.tag.rpartition('}')[2] if isinstance(child.tag, str) else ''
            if name == 'Apply':
                return child.get('FunctionId', '').endswith(BAG_RESULTS)
            if name == 'VariableReference':
                return self.is_bag({'VariableReference': {'VariableId': child.get('VariableId', '')}}, within)
            if name in ('AttributeDesignator', 'AttributeSelector'):
                return True
        return False
