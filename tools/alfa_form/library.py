"""What the library `System` of ALFA has: types, categories, combining algorithms and functions, by their names."""
import typing

from xacml_form import names

SYSTEM = 'System'
F1, F2, F3 = (names.FUNCTION.format(version, '{}').format for version in ('1.0', '2.0', '3.0'))
SUBJECT = 'urn:oasis:names:tc:xacml:1.0:subject-category:{}'.format
CATEGORIES = {
    'subjectCat': names.CATEGORIES['AccessSubject'],
    'resourceCat': names.CATEGORIES['Resource'],
    'actionCat': names.CATEGORIES['Action'],
    'environmentCat': names.CATEGORIES['Environment'],
    'recipientSubjectCat': SUBJECT('recipient-subject'),
    'intermediarySubjectCat': SUBJECT('intermediary-subject'),
    'codebaseCat': SUBJECT('codebase'),
    'requestingMachineCat': SUBJECT('requesting-machine'),
}
UNSURE_CATEGORIES = list(CATEGORIES)[4:]
OTHER_TYPES = {uri.rpartition('#')[2].rpartition(':')[2]: uri for uri in reversed(list(names.MISSING_TYPES))}
OTHER_TYPES['xpathExpression'] = names.XPATH_TYPE
TYPES = {name: names.XML_SCHEMA + name for name in names.TYPES} | OTHER_TYPES
OF_STRINGS = ['starts-with', 'ends-with', 'contains']


class Function(typing.NamedTuple):
    """A function: its URI, the types of its arguments, each with whether it is a bag, from which number on the last
    of them may stand how often one likes, and the type of what it gives. The arguments of one that takes a function
    are None."""

    uri: str
    takes: typing.Optional[list]
    least: typing.Optional[int]
    gives: tuple


def camel(name):
    """The name of a function in ALFA: the words of the standard's name without dashes, a capital where one was."""
    first, *others = name.split('-')
    return first + ''.join(word[:1].upper() + word[1:] for word in others)


def _functions():
    one, many, truth, number = (lambda kind: (kind, False)), (lambda kind: (kind, True)), ('boolean', False), (
        'integer', False)
    found = {}
    for kind in names.BAGGED:
        own, bag = one(kind), many(kind)
        found[f'{kind}-equal'] = F1, [own, own], None, truth
        for order in names.ORDERS if kind in names.COMPARED else []:
            found[f'{kind}-{order}'] = F1, [own, own], None, truth
        found[f'{kind}-one-and-only'] = F1, [bag], None, own
        found[f'{kind}-bag-size'] = F1, [bag], None, number
        found[f'{kind}-is-in'] = F1, [own, bag], None, truth
        found[f'{kind}-bag'] = F1, [own], 0, bag
        found[f'{kind}-intersection'] = F1, [bag, bag], None, bag
        found[f'{kind}-union'] = F1, [bag], 2, bag
        for question in ['at-least-one-member-of', 'subset', 'set-equals']:
            found[f'{kind}-{question}'] = F1, [bag, bag], None, truth
    for name, count in [('add', 2), ('multiply', 2), ('subtract', None), ('divide', None), ('mod', None)]:
        found[f'integer-{name}'] = F1, [number, number] if count is None else [number], count, number
    found['integer-abs'] = F1, [number], None, number
    found |= {name: (F1, [truth], 0, truth) for name in ['or', 'and']} | {'not': (F1, [truth], None, truth)}
    text, day, term = one('string'), one('date'), one('yearMonthDuration')
    found['string-concatenate'] = F2, [text], 2, text
    found |= {f'string-{name}': (F3, [text, text], None, truth) for name in OF_STRINGS}
    found |= {f'date-{name}-yearMonthDuration': (F3, [day, term], None, day) for name in ['add', 'subtract']}
    found |= {name: (F3, None, None, truth) for name in ['any-of', 'all-of']}
    return {camel(name): Function(uri(name), takes, least, gives) for name, (uri, takes, least, gives) in found.items()}


FUNCTIONS = _functions()
BY_URI = {each.uri: each for each in FUNCTIONS.values()}
NAME_OF = {each.uri: name for name, each in FUNCTIONS.items()}
# Other spellings, which are taken.
SPELLED = {'booleanAnd': 'and', 'booleanOr': 'or', 'booleanNot': 'not'}
# Functions that are said by others.
REWRITTEN = {'anyOfAny': names.ANY_OF_ANY, 'allOfAny': names.ALL_OF_ANY, 'timeInRange': names.TIME_IN_RANGE,
             'nOf': names.N_OF}


def _missing():
    """The functions of the standard that aren't here, by their names in ALFA; each as its URI."""
    bags = ['equal', *names.BAGS]
    found = [f'{kind}-{name}' for kind in OTHER_TYPES for name in bags]
    found += [f'yearMonthDuration-{name}' for name in bags]
    found += [f'{kind}-{name}' for kind in ['double', 'hexBinary', 'base64Binary'] for name in names.ORDERS]
    found += [f'double-{name}' for name in ['add', 'multiply', 'subtract', 'divide', 'abs']]
    found += [f'{kind}-{name}' for kind in names.TYPES + list(OTHER_TYPES) for name in ['regexp-match', 'from-string']]
    found += [f'string-from-{kind}' for kind in names.TYPES + list(OTHER_TYPES)]
    found += [f'dateTime-{name}-{kind}' for name in ['add', 'subtract'] for kind in [
        'dayTimeDuration', 'yearMonthDuration']]
    found += ['rfc822Name-match', 'x500Name-match', 'string-equal-ignore-case', 'string-normalize-space', 'round',
              'string-normalize-to-lower-case', 'string-substring', 'anyURI-substring', 'anyURI-starts-with', 'floor',
              'anyURI-ends-with', 'anyURI-contains', 'double-to-integer', 'integer-to-double', 'any-of-all', 'map',
              'all-of-all', 'xpath-node-count', 'xpath-node-equal', 'xpath-node-match', 'access-permitted']
    return {camel(name): names.BY_WORD.get(name, F1(name)) for name in found if camel(name) not in FUNCTIONS}


MISSING = _missing()


def instead(function):
    """What can be done about a function that isn't here."""
    return names.how_without(function).removeprefix('by hand: ').removeprefix(names.IMPOSSIBLE + ': ')


def instead_of(name):
    """The same of the standard's function of a name."""
    return instead(names.BY_WORD.get(name, F1(name)))


def _algorithms():
    found = {}
    for kind, uris in names.HERE_ALGORITHMS.items():
        found[kind] = {camel(uri.rpartition(':')[2]): uri for uri in uris}
    return found


ALGORITHMS = _algorithms()
