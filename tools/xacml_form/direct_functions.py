"""Values and functions of the evaluator that reads XML itself (appendix A): bags are lists, single values pairs of a
type and a value, and what fails raises Indeterminate."""
import datetime
import re

XS = 'http://www.w3.org/2001/XMLSchema#'
LEAST, MOST = -(2**63), 2**63 - 1
BOOLEAN = XS + 'boolean'


class Indeterminate(Exception):
    """An expression without a value."""


class Unread(Exception):
    """What this evaluator doesn't read."""


def value(uri, text):
    """The value that a text of a type is; a dateTime by its moment in UTC."""
    kind = uri.removeprefix(XS)
    text = text if kind == 'string' else text.strip(' \t\r\n')
    if kind == 'boolean':
        return uri, {'true': True, '1': True, 'false': False, '0': False}[text]
    if kind == 'integer':
        return uri, int(text)
    if kind == 'date':
        return uri, datetime.date.fromisoformat(text.removesuffix('Z'))
    if kind == 'time':
        return uri, datetime.time.fromisoformat(text.removesuffix('Z'))
    if kind == 'dateTime':
        moment = datetime.datetime.fromisoformat(text.replace('Z', '+00:00'))
        if moment.tzinfo is not None:
            moment = moment.astimezone(datetime.timezone.utc).replace(tzinfo=None)
        return uri, moment
    if kind == 'yearMonthDuration':
        found = re.fullmatch(r'(-?)P(?:(\d+)Y)?(?:(\d+)M)?', text)
        months = 12 * int(found[2] or 0) + int(found[3] or 0)
        return uri, -months if found[1] else months
    if kind in ('string', 'anyURI'):
        return uri, text
    raise Unread(uri)


def truth(is_so):
    """A boolean."""
    return BOOLEAN, bool(is_so)


def number(result):
    """An integer, which has 64 bits."""
    if not LEAST <= result <= MOST:
        raise Indeterminate('overflow')
    return XS + 'integer', result


def divided(first, second):
    """A quotient, cut toward zero."""
    if second == 0:
        raise Indeterminate('division by zero')
    quotient = abs(first) // abs(second)
    return quotient if (first < 0) == (second < 0) else -quotient


def in_turn(step, numbers):
    """A sum or a product from left to right, each result of which has to be a number."""
    total = numbers[0]
    for each in numbers[1:]:
        _, total = number(step(total, each))
    return number(total)


def moved(day, months):
    """A date so many months later, on the last day of the month where it has fewer days."""
    years, month = divmod(day.year * 12 + day.month - 1 + months, 12)
    if not 1 <= years <= 9999:
        raise Indeterminate('no such year')
    for last in (day.day, 30, 29, 28):
        try:
            return XS + 'date', datetime.date(years, month + 1, min(day.day, last))
        except ValueError:
            continue
    raise Indeterminate('no such day')


def single(bag):
    """The one value of a bag."""
    if len(bag) != 1:
        raise Indeterminate('not one value')
    return bag[0]


def distinct(bag):
    """The values of a bag, each once."""
    return list(dict.fromkeys(bag))


def in_range(time, first, last):
    """time-in-range (A.3.8): the last bound is the first, or later by less than a day."""
    after = lambda bound: (seconds(bound) - seconds(first)) % 86400
    return after(time) <= after(last)


def seconds(time):
    """A time of day in seconds."""
    return (time.hour * 60 + time.minute) * 60 + time.second


def _of_values(function):
    """A function of the values alone, without their types."""
    return lambda *arguments: function(*(each for _, each in arguments))


def _comparisons(kind):
    """The orders of a type, by their names."""
    yield f'{kind}-greater-than', lambda a, b: truth(a > b)
    yield f'{kind}-greater-than-or-equal', lambda a, b: truth(a >= b)
    yield f'{kind}-less-than', lambda a, b: truth(a < b)
    yield f'{kind}-less-than-or-equal', lambda a, b: truth(a <= b)


def _bags(kind):
    """The functions of bags of a type (A.3.10, A.3.11), by their names."""
    yield f'{kind}-one-and-only', single
    yield f'{kind}-bag-size', lambda bag: number(len(bag))
    yield f'{kind}-is-in', lambda one, bag: truth(one in bag)
    yield f'{kind}-bag', lambda *values: list(values)
    yield f'{kind}-intersection', lambda a, b: distinct([each for each in a if each in b])
    yield f'{kind}-union', lambda *bags: distinct([each for bag in bags for each in bag])
    yield f'{kind}-at-least-one-member-of', lambda a, b: truth(any(each in b for each in a))
    yield f'{kind}-subset', lambda a, b: truth(all(each in b for each in a))
    yield f'{kind}-set-equals', lambda a, b: truth(set(a) == set(b))


def _functions():
    """All functions of values, by their URIs."""
    found = {}
    for kind in ('string', 'boolean', 'integer', 'date', 'anyURI', 'time', 'dateTime'):
        found[f'1.0:function:{kind}-equal'] = _of_values(lambda a, b: truth(a == b))
        found |= {f'1.0:function:{name}': function for name, function in _bags(kind)}
    for kind in ('string', 'integer', 'date', 'time', 'dateTime'):
        found |= {f'1.0:function:{name}': _of_values(function) for name, function in _comparisons(kind)}
    of_values = {
        '1.0:function:integer-add': lambda *all_: in_turn(lambda a, b: a + b, all_),
        '1.0:function:integer-multiply': lambda *all_: in_turn(lambda a, b: a * b, all_),
        '1.0:function:integer-subtract': lambda a, b: number(a - b),
        '1.0:function:integer-divide': lambda a, b: number(divided(a, b)),
        '1.0:function:integer-mod': lambda a, b: number(a - b * divided(a, b)),
        '1.0:function:integer-abs': lambda a: number(abs(a)),
        '1.0:function:not': lambda a: truth(not a),
        '2.0:function:string-concatenate': lambda *all_: (XS + 'string', ''.join(all_)),
        '3.0:function:string-starts-with': lambda a, b: truth(b.startswith(a)),
        '3.0:function:string-ends-with': lambda a, b: truth(b.endswith(a)),
        '3.0:function:string-contains': lambda a, b: truth(a in b),
        '3.0:function:date-add-yearMonthDuration': moved,
        '3.0:function:date-subtract-yearMonthDuration': lambda day, months: moved(day, -months),
        '2.0:function:time-in-range': lambda a, b, c: truth(in_range(a, b, c)),
    }
    # A pattern of XML Schema that is made of words means the same to Python, but in texts with a line break.
    for uri in (
        '1.0:function:string-regexp-match',
        '1.0:function:regexp-string-match',
        '2.0:function:anyURI-regexp-match',
    ):
        of_values[uri] = lambda pattern, text: truth(re.search(pattern, text))
    of_values['1.0:function:date-add-yearMonthDuration'] = of_values['3.0:function:date-add-yearMonthDuration']
    of_values['1.0:function:date-subtract-yearMonthDuration'] = of_values[
        '3.0:function:date-subtract-yearMonthDuration'
    ]
    found |= {name: _of_values(function) for name, function in of_values.items()}
    return {'urn:oasis:names:tc:xacml:' + name: function for name, function in found.items()}


FUNCTIONS = _functions()


def higher(name, function, arguments):
    """any-of, all-of, any-of-any and all-of-any (A.3.12): the function over the values of bags."""
    bags = [each if isinstance(each, list) else [each] for each in arguments]
    if name in ('any-of', 'all-of', 'any-of-any'):
        results = [function(*each) for each in _combinations(bags)]
        return truth(all(is_so for _, is_so in results) if name == 'all-of' else any(is_so for _, is_so in results))
    return truth(all(any(function(one, other)[1] for other in bags[1]) for one in bags[0]))


def _combinations(bags):
    """Each way to take one value of each bag."""
    if not bags:
        yield ()
        return
    for one in bags[0]:
        for rest in _combinations(bags[1:]):
            yield (one, *rest)
