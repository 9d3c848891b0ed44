"""Each rewriting over a grid of values, of empty bags and of arguments that fail, beside a direct reading of the
standard's function.

A reading here is of the words of appendix A.3 and knows nothing of what the tool writes: it works on values of
Python, and FAILS stands for an argument that is Indeterminate."""
import datetime
import itertools
import re

from . import direct_combining, literals, names, places
from .driver import F1, apply, bag, function, literal, single
from .grid import FAILS, Grid, attributes
from .try_patterns import regular_expressions

VALUES = {
    'string': ['a', 'b', ''],
    'boolean': ['true', 'false'],
    'integer': ['1', '-2', '30'],
    'date': ['2024-02-29', '0001-01-01', '9999-12-31'],
    'anyURI': ['u:a', 'u:b'],
    'time': ['00:00:00', '23:59:59', '12:00:00'],
    'dateTime': ['2024-02-29T00:00:00', '1999-12-31T23:59:59'],
}


def bags_of(kind):
    """Bags of a type: none, one value, some, one twice."""
    some = VALUES[kind]
    return [[], some[:1], some[1:2], some, [some[0], some[0]]]


# ---- any-of-any, all-of-any (A.3.12)


def of_bags(reading, first, second, fails):
    """What a function of two bags comes to: an argument that fails makes it fail, the first before the second."""
    return FAILS if fails else reading(first, second)


def some_of_some(first, second):
    return any(one == other for one in first for other in second)


def each_of_some(first, second):
    return all(any(one == other for other in second) for one in first)


def higher_order(grid):
    readings = [
        (names.ANY_OF_ANY, some_of_some),
        (names.ALL_OF_ANY, each_of_some),
        (F1('any-of-any'), some_of_some),
        (F1('all-of-any'), each_of_some),
    ]
    for name, reading in readings:
        for kind in names.BAGGED:
            for must in itertools.product(['false', 'true'], repeat=2):
                condition = apply(name, function(F1(f'{kind}-equal')), bag('x', kind, must[0]), bag('y', kind, must[1]))
                cases = []
                for first, second in itertools.product(bags_of(kind), repeat=2):
                    fails = must[0] == 'true' and not first or must[1] == 'true' and not second
                    cases.append(
                        (attributes(x=(kind, first), y=(kind, second)), of_bags(reading, first, second, fails))
                    )
                grid.compare(name, condition, cases)
    one_bag(grid)


def one_bag(grid):
    """any-of-any of one bag, with an order as its function, and of none."""
    for order, says in [('less-than', lambda a, b: a < b), ('greater-than-or-equal', lambda a, b: a >= b)]:
        left = apply(names.ANY_OF_ANY, function(F1(f'integer-{order}')), single('x', 'integer'), bag('y', 'integer'))
        right = apply(names.ANY_OF_ANY, function(F1(f'integer-{order}')), bag('y', 'integer'), single('x', 'integer'))
        none = apply(names.ANY_OF_ANY, function(F1(f'integer-{order}')), single('x', 'integer'), single('y', 'integer'))
        cases = {'left': [], 'right': [], 'none': []}
        for first, second in itertools.product(bags_of('integer'), repeat=2):
            given = attributes(x=('integer', first), y=('integer', second))
            one, many = [int(each) for each in first], [int(each) for each in second]
            cases['left'].append((given, any(says(one[0], each) for each in many) if len(one) == 1 else FAILS))
            cases['right'].append((given, any(says(each, one[0]) for each in many) if len(one) == 1 else FAILS))
            cases['none'].append((given, says(one[0], many[0]) if len(one) == len(many) == 1 else FAILS))
        for condition, key in [(left, 'left'), (right, 'right'), (none, 'none')]:
            grid.compare(names.ANY_OF_ANY, condition, cases[key])


def over_literals(grid):
    """any-of-any with an order, a bag and a bag of literals, in both orders of the two."""
    for kind in names.COMPARED:
        literals_ = VALUES[kind][1:]
        given = apply(F1(f'{kind}-bag'), *(literal(kind, each) for each in literals_))
        for order, says in [('less-than', lambda a, b: a < b), ('greater-than-or-equal', lambda a, b: a >= b)]:
            for must, is_first in itertools.product(['false', 'true'], [False, True]):
                two = [bag('x', kind, must), given]
                condition = apply(names.ANY_OF_ANY, function(F1(f'{kind}-{order}')), *(two if is_first else two[::-1]))
                cases = []
                for values in bags_of(kind):
                    pairs = itertools.product(values, literals_)
                    found = any(says(*(map(read(kind), pair if is_first else pair[::-1]))) for pair in pairs)
                    cases.append((attributes(x=(kind, values)), FAILS if must == 'true' and not values else found))
                grid.compare(names.ANY_OF_ANY, condition, cases)


def read(kind):
    """How the text of a type is read where it is put in order: numbers as such, the others as they stand."""
    return int if kind == 'integer' else str


# ---- time-in-range (A.3.8): the last bound is the first, or later by less than 24 hours


def seconds(text):
    hours, minutes, rest = (int(each) for each in text.split(':'))
    return (hours * 60 + minutes) * 60 + rest


def in_range(time, first, last):
    return (seconds(time) - seconds(first)) % 86400 <= (seconds(last) - seconds(first)) % 86400


def ranges(grid):
    times = ['00:00:00', '00:00:01', '07:59:59', '08:00:00', '12:34:56', '18:00:00', '18:00:01', '23:59:59']
    for first, last in itertools.product(['00:00:00', '08:00:00', '18:00:00', '23:59:59'], repeat=2):
        condition = apply(
            names.TIME_IN_RANGE, single('t', 'time'), literal('time', f' {first} '), literal('time', last + 'Z')
        )
        cases = [(attributes(t=('time', [time])), in_range(time, first, last)) for time in times]
        cases += [(attributes(t=('time', few)), FAILS) for few in ([], ['08:00:00', '09:00:00'])]
        grid.compare(names.TIME_IN_RANGE, condition, cases)


def computed_ranges(grid):
    """The same where one bound or both aren't literals: each may fail, and so may the time."""
    times = ['00:00:00', '07:59:59', '08:00:00', '18:00:00', '23:59:59']
    bounds = [(None, None), ('08:00:00', None), (None, '18:00:00'), ('00:00:00', None), (None, '23:59:59')]
    for first, last in bounds:
        given = [single('a', 'time') if first is None else literal('time', first)]
        given.append(single('b', 'time') if last is None else literal('time', last))
        condition = apply(names.TIME_IN_RANGE, single('t', 'time'), *given)
        cases = []
        for time, one, other in itertools.product([None, *times], repeat=3):
            if (first is None or one == times[0]) and (last is None or other == times[0]):
                values = [time, one if first is None else first, other if last is None else last]
                has = {key: ('time', [value] if value else []) for key, value in zip('tab', [time, one, other])}
                cases.append((attributes(**has), FAILS if None in values else in_range(*values)))
        grid.compare(names.TIME_IN_RANGE, condition, cases)


# ---- n-of (A.3.5): in order, up to the n-th True, or to where those that are left can't make n


def n_of(count, arguments):
    found = 0
    for place, argument in enumerate(arguments):
        if found == count:
            return True
        if found + len(arguments) - place < count:
            return False
        if argument == FAILS:
            return FAILS
        found += argument
    return found == count


def numbers(grid):
    values = {True: ['true'], False: ['false'], FAILS: []}
    for length in range(0, 5):
        for count in range(0, length + 1):
            condition = apply(
                names.N_OF,
                literal('integer', str(count)),
                *(single(f'a{number}', 'boolean') for number in range(length)),
            )
            cases = [
                (
                    attributes(**{f'a{number}': ('boolean', values[each]) for number, each in enumerate(given)}),
                    n_of(count, given),
                )
                for given in itertools.product([True, False, FAILS], repeat=length)
            ]
            grid.compare(names.N_OF, condition, cases)


# ---- literals of dateTime with an offset, where they are compared (A.3.8 on moments)


def moments(grid):
    written = [
        '2024-02-29T23:30:00+01:00',
        '2024-03-01T00:00:00-14:00',
        '2024-12-31T20:00:00-05:30',
        '0001-01-02T00:00:00+14:00',
        '9999-12-30T23:59:59-12:00',
    ]
    for text in written:
        point = datetime.datetime.fromisoformat(text)
        near = []
        for away in (-3600, -1, 0, 1, 3600):
            try:
                near.append((point + datetime.timedelta(seconds=away)).astimezone(datetime.timezone.utc))
            except OverflowError:
                pass
        for order, says in [
            ('equal', lambda a, b: a == b),
            ('less-than', lambda a, b: a < b),
            ('greater-than-or-equal', lambda a, b: a >= b),
        ]:
            condition = apply(F1(f'dateTime-{order}'), single('m', 'dateTime'), literal('dateTime', text))
            cases = [
                (attributes(m=('dateTime', [f'{each.year:04}-{each:%m-%dT%H:%M:%S}Z'])), says(each, point))
                for each in near
            ]
            grid.compare('dateTime', condition, [*cases, (attributes(m=('dateTime', [])), FAILS)])
    for text in [
        '0001-01-01T00:00:00+00:01',
        '9999-12-31T23:59:59-00:01',
        '2024-01-01T00:00:00.5+01:00',
        '2024-01-01T00:00:00+24:00',
    ]:
        if literals.in_utc(text) is not None:
            grid.wrong.append(f'{text} was taken as {literals.in_utc(text)}')


def zero_fractions(grid):
    """Literals with a fraction that is zero."""
    for kind, text in [('time', '08:00:00.000'), ('dateTime', '2024-02-29T08:00:00.0Z')]:
        condition = apply(F1(f'{kind}-equal'), single('x', kind), literal(kind, text))
        whole, other = re.sub(r'\.0+', '', text), '09:00:00' if kind == 'time' else '2024-02-29T08:00:01Z'
        cases = [(attributes(x=(kind, [each])), each == whole) for each in (whole, other)]
        grid.compare(f'the {kind} {text}', condition, cases)
        told = places.Told('trial')
        literals.value(names.XML_SCHEMA + kind, text.replace('.0', '.5'), (1, 1), told, literals.COMPARED)
        if not told.holds(places.BY_HAND):
            grid.wrong.append(f'half a second was cut off a {kind}')


def older_names(grid):
    """any-of and all-of under the names of 1.0."""
    for name, says in [('any-of', any), ('all-of', all)]:
        condition = apply(F1(name), function(F1('string-equal')), literal('string', 'a'), bag('x', 'string'))
        grid.compare(
            F1(name),
            condition,
            [(attributes(x=('string', each)), says(one == 'a' for one in each)) for each in bags_of('string')],
        )


# ---- the legacy algorithms (C.10 to C.13) beside those that --as-modern takes, over all results of three children


def legacy(name, of, results):
    """The decision of a legacy algorithm by its pseudo-code; of rules an Indeterminate knows its effect alone."""
    first, second = ('Deny', 'Permit') if name == 'deny-overrides' else ('Permit', 'Deny')
    is_potential = has_second = has_error = False
    for each in results:
        if each == first:
            return first
        has_second = has_second or each == second
        if each.startswith('Indeterminate'):
            if of == names.POLICIES and first == 'Deny':
                return 'Deny'
            has_error = True
            is_potential = is_potential or of == names.RULES and each == f'Indeterminate{{{first[0]}}}'
    if is_potential:
        return 'Indeterminate'
    return second if has_second else 'Indeterminate' if has_error else 'NotApplicable'


TURNED = {
    (names.RULES, 'deny-overrides'): set(),
    (names.RULES, 'permit-overrides'): set(),
    (names.POLICIES, 'deny-overrides'): {('Deny', 'Permit'), ('Deny', 'Indeterminate')},
    (names.POLICIES, 'permit-overrides'): {('Deny', 'Indeterminate')},
}


def turns(grid):
    """What the tool says of each legacy algorithm: which decision may turn into which."""
    for (of, name), expected in TURNED.items():
        kinds = ['Indeterminate{P}', 'Indeterminate{D}'] + (['Indeterminate{DP}'] if of == names.POLICIES else [])
        found = set()
        for results in itertools.product(['Permit', 'Deny', 'NotApplicable', *kinds], repeat=3):
            children = [(None, lambda request, each=each: (each, [], [])) for each in results]
            modern = direct_combining.overrides(name)(children, None)[0].partition('{')[0]
            found.add((legacy(name, of, results), modern))
            grid.count += 1
        if {(old, new) for old, new in found if old != new} != expected or (of, name) not in names.TURNS:
            grid.wrong.append(f'{of} {name}: {found}')


TRIALS = [
    *(higher_order, over_literals, regular_expressions, ranges, computed_ranges, numbers, moments, zero_fractions),
    *(older_names, turns),
]


def run(service):
    """How many decisions were compared, and what was wrong."""
    grid = Grid(service)
    for trial in TRIALS:
        trial(grid)
    return grid.count, grid.wrong
