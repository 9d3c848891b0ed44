"""Functions that aren't here and are said by those that are, with the same meaning.

Each rewriting has its argument by the standard's definitions in the comment above it; tools/try_xacml.py compares each
over a grid of values, of empty bags and of arguments that fail with a direct reading of the standard's function."""
import typing

from . import names, patterns
from .told import REWRITTEN, WARNING

F1, F3 = (names.FUNCTION.format(version, '{}').format for version in ('1.0', '3.0'))
MOST_NODES = 256
# Comparisons of two values that have no fault of their own, beside the equalities.
COMPARISONS = {F1(f'{kind}-{order}') for kind in names.COMPARED for order in names.ORDERS} | {
    F3(f'string-{one}') for one in ('starts-with', 'ends-with', 'contains')
}


class Rewritten(typing.NamedTuple):
    """What says the same, in words too, and how that is told."""

    expression: dict
    how: str
    weight: str = REWRITTEN


class ByHand(Exception):
    """A use of a function that isn't rewritten, with what to do."""


def apply(function, *arguments):
    """An application, as it stands in a document."""
    return {'Apply': {'FunctionId': function, 'Arguments': list(arguments)} if arguments else {'FunctionId': function}}


def a_literal(kind, value):
    """A literal as it stands in a document."""
    return {'AttributeValue': {'DataType': names.XML_SCHEMA + kind, 'Value': value}}


def either(tests):
    """Some tests under `or`; one by itself."""
    return tests[0] if len(tests) == 1 else apply(F1('or'), *tests)


def literal(argument, kind):
    """The value of an argument that is a literal of a type, or None."""
    found = argument.get('AttributeValue')
    return found['Value'] if found and found.get('DataType') == names.XML_SCHEMA + kind else None


def size(expression):
    """How many nodes an expression has, as the limits count them; a variable as one."""
    inner = expression.get('Apply')
    return 1 + (sum(size(each) for each in inner.get('Arguments', [])) if inner else 0)


# any-of-any (A.3.12) applies a function to each combination of values of its arguments, and is True if one
# application is True. With one bag, the others being single values, the combinations are those of the bag's values:
# that is any-of with the same arguments. With no bag there is one combination. With an equality and two bags it is
# True if a value of the first equals one of the second, which is what at-least-one-member-of says (A.3.11, by the
# same equality); on an empty bag there is no combination: False, as there. An argument that is Indeterminate makes
# each of them Indeterminate, the first in the order of arguments; equalities have no fault of their own.
def any_of_any(function, arguments, is_bag):
    inner, rest = _function_and_rest(arguments)
    bags = [each for each in rest if is_bag(each)]
    if rest and not bags:
        return Rewritten(apply(inner, *rest), 'no bag: one application')
    if len(bags) == 1:
        return Rewritten(apply(names.ANY_OF, *arguments), 'one bag: any-of')
    if len(bags) == len(rest) == 2 and inner in names.EQUALITIES:
        member = F1(f'{names.EQUALITIES[inner]}-at-least-one-member-of')
        return Rewritten(apply(member, *rest), 'an equality over two bags: at-least-one-member-of')
    if len(bags) == len(rest) == 2 and inner in COMPARISONS:
        return _over_literals(arguments[0], rest)
    raise ByHand(names.how_without(function))


# With another comparison and a bag of literals the combinations are those of each literal with the values of the
# other bag: `or` of any-of, one for each literal. Where the other bag is Indeterminate the first any-of is, and so
# `or`; comparisons have no fault of their own.
def _over_literals(function, rest):
    for at, each in enumerate(rest):
        values = bag_of_literals(each)
        if values and len(values) * (3 + size(rest[1 - at])) < MOST_NODES:
            placed = [[value, rest[1]] if at == 0 else [rest[0], value] for value in values]
            tests = [apply(names.ANY_OF, function, *two) for two in placed]
            return Rewritten(either(tests), 'a bag of literals: any-of for each of them')
    raise ByHand(names.how_without(names.ANY_OF_ANY))


def bag_of_literals(expression):
    """The literals of which a bag is made; none where it is made of something else."""
    inner = expression.get('Apply', {})
    if names.last_word(inner.get('FunctionId', '')) not in (f'{kind}-bag' for kind in names.BAGGED):
        return []
    values = inner.get('Arguments', [])
    return values if all('AttributeValue' in each for each in values) else []


# all-of-any (A.3.12): True if for each value of the first bag the function is True with some value of the second.
# With an equality: each value of the first bag is in the second, which is subset (A.3.11). An empty first bag gives
# True in both. Indeterminate as above.
def all_of_any(function, arguments, is_bag):
    inner, rest = _function_and_rest(arguments)
    if len(rest) == 2 and all(is_bag(each) for each in rest) and inner in names.EQUALITIES:
        return Rewritten(apply(F1(f'{names.EQUALITIES[inner]}-subset'), *rest), 'an equality over two bags: subset')
    raise ByHand(names.how_without(function))


def _function_and_rest(arguments):
    if not arguments or 'Function' not in arguments[0]:
        raise ByHand('by hand: its first argument has to be a function')
    return arguments[0]['Function']['FunctionId'], arguments[1:]


# time-in-range (A.3.8): the first time lies within the two bounds, both included, the second bound being the same
# time or one less than 24 hours later. So with bounds in order the time is at or after the first and at or before the
# second; where the second is the earlier of the two the range goes over midnight, and the time is at or after the
# first or at or before the second. Bounds that aren't literals are in order where the first is the first second of the
# day or the second its last one. Else both cases are written: at or after the first bound, and at or before the
# second or over midnight; or at or before the second, and over midnight. In bounds that are in order that is both
# comparisons, and over midnight one of them. An argument that is Indeterminate is met in the order of the arguments,
# in the first comparison or, where that is False, in the next, and makes `and` and `or` Indeterminate with its status.
def time_in_range(function, arguments, is_bag):
    if len(arguments) != 3 or any(is_bag(each) for each in arguments):
        raise ByHand(names.how_without(function))
    time, first, last = arguments
    since, until = _compared(time, 'greater-than-or-equal', first), _compared(time, 'less-than-or-equal', last)
    bounds = [(literal(each, 'time') or '').removesuffix('Z') for each in (first, last)]
    if all(bounds):
        over = bounds[0] > bounds[1]
        how = 'two comparisons, over midnight' if over else 'two comparisons'
        return Rewritten(apply(F1('or' if over else 'and'), since, until), how)
    if bounds[0] == '00:00:00' or bounds[1] == '23:59:59':
        return Rewritten(apply(F1('and'), since, until), 'two comparisons, as it never goes over midnight')
    over = _compared(first, 'greater-than', last)
    both = apply(F1('or'), apply(F1('and'), since, apply(F1('or'), until, over)), apply(F1('and'), until, over))
    if size(both) > MOST_NODES:
        raise ByHand('by hand: its arguments are too long to be written more than once; store what they give')
    return Rewritten(both, 'two comparisons, for bounds in order and over midnight')


def _compared(first, order, second):
    return apply(F1(f'time-{order}'), first, second)


# n-of (A.3.5) looks at its arguments in order: it is True once n are True, and False once those that are left can't
# make n. An argument that is looked at and Indeterminate makes it Indeterminate. So n-of of 0 is True, as `or` of
# True and the arguments, which are looked at no more but have to have their types, 1 of them is `or`, all of them is
# `and` (both look at arguments in that order, and stop as early), and else: the first is True and n - 1 of the rest
# are, or the first isn't and n of the rest are. There the first alone says which of the two is looked at: True makes
# the first `and` the rest, and where that is False the second is False by `not`; False makes the first `and` False;
# Indeterminate makes the first `and`, and so `or`, Indeterminate. Fewer arguments than n are Indeterminate whatever
# they are, which no function here is without a fault: that is told.
def n_of(function, arguments, is_bag):
    count = literal(arguments[0], 'integer') if arguments else None
    if not isinstance(count, int) or any(is_bag(each) for each in arguments[1:]):
        raise ByHand(names.how_without(function))
    if not 0 <= count < len(arguments):
        raise ByHand('by hand: fewer arguments than it asks for, which is always Indeterminate')
    if _nodes_of(count, arguments[1:]) > MOST_NODES:
        raise ByHand('by hand: too many ways to choose; say which sets of them are enough')
    return Rewritten(_at_least(count, arguments[1:]), f'{count} of {len(arguments) - 1}: `or`, `and` and `not`')


def _at_least(count, rest):
    if count == 0:
        return apply(F1('or'), a_literal('boolean', True), *rest)
    if count == 1:
        return apply(F1('or'), *rest)
    if count == len(rest):
        return apply(F1('and'), *rest)
    first = rest[0]
    return apply(
        F1('or'),
        apply(F1('and'), first, _at_least(count - 1, rest[1:])),
        apply(F1('and'), apply(F1('not'), first), _at_least(count, rest[1:])),
    )


def _nodes_of(count, rest):
    if count <= 1 or count == len(rest):
        return 1 + sum(size(each) for each in rest)
    return 4 + 2 * size(rest[0]) + _nodes_of(count - 1, rest[1:]) + _nodes_of(count, rest[1:])


# string-regexp-match (A.3.14) looks for a pattern anywhere in a text, but where it begins with ^ or ends with $. A
# pattern that is a literal is found as a word is; its alternatives are looked for one by one. The text is one value:
# where it is Indeterminate the first test is, and so `or`.
def regexp_match(function, arguments, is_bag):
    if len(arguments) != 2 or is_bag(arguments[1]):
        raise ByHand(names.how_without(function))
    kind, words = words_of(function, arguments[0])
    listed = all(each.function == 'equal' for each in words) and len(words) > 1
    tests = [a_test(kind, each, arguments[1]) for each in words]
    made = apply(F1(f'{kind}-is-in'), arguments[1], a_bag(kind, words)) if listed else either(tests)
    if size(made) > MOST_NODES:
        raise ByHand('by hand: too many words; store what it tests as an attribute of its own')
    return Rewritten(made, patterns.said(kind, words), WARNING)


# any-of of it over a bag is True where a word is found in a value: `or` of any-of, one for each word; all-of is
# written so where there is one word alone.
def regexp_match_over(higher, arguments, is_bag):
    inner = arguments[0]['Function']['FunctionId']
    if len(arguments) != 3 or is_bag(arguments[1]):
        raise ByHand(names.how_without(inner))
    kind, words = words_of(inner, arguments[1])
    if higher != names.ANY_OF and len(words) > 1:
        raise ByHand('by hand: one word for all values; store what it tests as an attribute of its own')
    tests = [
        apply(
            higher,
            {'Function': {'FunctionId': patterns.function(kind, each)}},
            a_literal(kind, each.text),
            arguments[2],
        )
        for each in words
    ]
    if sum(size(each) for each in tests) >= MOST_NODES:
        raise ByHand('by hand: too many words; store what it tests as an attribute of its own')
    return Rewritten(either(tests), patterns.said(kind, words), WARNING)


def a_test(kind, word, text):
    """A word that is looked for in a text."""
    return apply(patterns.function(kind, word), a_literal(kind, word.text), text)


def a_bag(kind, words):
    """The words as a bag."""
    return apply(F1(f'{kind}-bag'), *(a_literal(kind, each.text) for each in words))


def words_of(function, pattern):
    """The words of a pattern that is a literal, and the type of the texts; or what to do by hand."""
    found = literal(pattern, 'string')
    if not isinstance(found, str):
        raise ByHand(names.how_without(function))
    kind = patterns.MATCHES[function]
    try:
        return kind, patterns.words(found, kind)
    except patterns.NotPlain as why:
        raise ByHand(f'by hand: {why}') from None


REWRITINGS = {
    **{function: regexp_match for function in patterns.MATCHES},
    names.ANY_OF_ANY: any_of_any,
    names.ALL_OF_ANY: all_of_any,
    names.TIME_IN_RANGE: time_in_range,
    names.N_OF: n_of,
}
