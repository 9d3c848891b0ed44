"""The identifiers of XACML 3.0: those that are here, those that aren't with what can be done, and older ones."""
import re

NAMESPACE = 'urn:oasis:names:tc:xacml:3.0:core:schema:wd-17'
OLDER_POLICIES = {
    'urn:oasis:names:tc:xacml:2.0:policy:schema:os': '2.0',
    'urn:oasis:names:tc:xacml:2.0:policy:schema:cd:04': '2.0',
    'urn:oasis:names:tc:xacml:1.0:policy': '1.x',
}
OLDER = {
    **OLDER_POLICIES,
    'urn:oasis:names:tc:xacml:2.0:context:schema:os': '2.0',
    'urn:oasis:names:tc:xacml:1.0:context': '1.x',
}
XML_SCHEMA = 'http://www.w3.org/2001/XMLSchema#'
FUNCTION = 'urn:oasis:names:tc:xacml:{}:function:{}'

# ---- data types (A.2)

TYPES = ['string', 'boolean', 'integer', 'date', 'anyURI', 'time', 'dateTime', 'yearMonthDuration']
HERE_TYPES = {XML_SCHEMA + name: name for name in TYPES}
OLD_TYPES = {
    'http://www.w3.org/TR/2002/WD-xquery-operators-20020816#yearMonthDuration': XML_SCHEMA + 'yearMonthDuration',
    'urn:oasis:names:tc:xacml:2.0:data-type:yearMonthDuration': XML_SCHEMA + 'yearMonthDuration',
}
OLD_DAYS = 'http://www.w3.org/TR/2002/WD-xquery-operators-20020816#dayTimeDuration'
DATA_TYPE = 'urn:oasis:names:tc:xacml:{}:data-type:{}'
MISSING_TYPES = {
    XML_SCHEMA + 'double': 'keep whole numbers: cents for an amount, thousandths for a rate, as integer',
    XML_SCHEMA + 'dayTimeDuration': 'store the day or moment that comes of it as an attribute, and compare with that',
    OLD_DAYS: 'store the day or moment that comes of it as an attribute, and compare with that',
    XML_SCHEMA + 'hexBinary': 'as string, in one spelling (upper case)',
    XML_SCHEMA + 'base64Binary': 'as string, in one spelling (no white space)',
    DATA_TYPE.format(
        '1.0', 'rfc822Name'
    ): 'as string: the whole name with its domain in lower case; the domain as an attribute of its own where policies'
    ' ask for it',
    DATA_TYPE.format(
        '1.0', 'x500Name'
    ): 'as string, in one spelling; each part that policies ask for as an attribute of its own',
    DATA_TYPE.format(
        '2.0', 'ipAddress'
    ): 'as string, one spelling; which net an address is in as an attribute of its own, told by whoever asks',
    DATA_TYPE.format('2.0', 'dnsName'): 'as string in lower case, and string-ends-with for a domain',
}
XPATH_TYPE = DATA_TYPE.format('3.0', 'xpathExpression')

# ---- functions (A.3)

COMPARED = ['integer', 'string', 'date', 'time', 'dateTime']
BAGGED = ['string', 'boolean', 'integer', 'date', 'anyURI', 'time', 'dateTime']
ORDERS = ['greater-than', 'greater-than-or-equal', 'less-than', 'less-than-or-equal']
BAGS = [
    'one-and-only',
    'bag-size',
    'is-in',
    'bag',
    'intersection',
    'union',
    'at-least-one-member-of',
    'subset',
    'set-equals',
]
INTEGERS = ['add', 'multiply', 'subtract', 'divide', 'mod', 'abs']


def _functions_here():
    first = [f'{one}-equal' for one in BAGGED] + [f'{one}-{order}' for one in COMPARED for order in ORDERS]
    first += (
        [f'integer-{one}' for one in INTEGERS]
        + ['or', 'and', 'not']
        + [f'{one}-{bag}' for one in BAGGED for bag in BAGS]
    )
    third = [
        'string-starts-with',
        'string-ends-with',
        'string-contains',
        'date-add-yearMonthDuration',
        'date-subtract-yearMonthDuration',
        'any-of',
        'all-of',
    ]
    return (
        {FUNCTION.format('1.0', one) for one in first}
        | {FUNCTION.format('2.0', 'string-concatenate')}
        | {FUNCTION.format('3.0', one) for one in third}
    )


HERE_FUNCTIONS = _functions_here()
EQUALITIES = {FUNCTION.format('1.0', f'{one}-equal'): one for one in BAGGED}
# What compares dates and times, or looks for one among others: a dateTime with an offset may stand there as the same
# moment with Z.
TIME_IN_RANGE = FUNCTION.format('2.0', 'time-in-range')
TIMES_COMPARED = {TIME_IN_RANGE} | {
    FUNCTION.format('1.0', f'{kind}-{one}')
    for kind in ['date', 'time', 'dateTime']
    for one in ['equal', *ORDERS, 'is-in', 'at-least-one-member-of', 'subset', 'set-equals']
}

# Names that the standard calls deprecated (A.4), of functions that are the same under the newer name; and the name that
# a regular expression had in XACML 1.x.
REGEXP_MATCH = FUNCTION.format('1.0', 'string-regexp-match')
OLD_FUNCTIONS = {
    FUNCTION.format('1.0', 'any-of'): FUNCTION.format('3.0', 'any-of'),
    FUNCTION.format('1.0', 'all-of'): FUNCTION.format('3.0', 'all-of'),
    FUNCTION.format('1.0', 'any-of-any'): FUNCTION.format('3.0', 'any-of-any'),
    FUNCTION.format('1.0', 'regexp-string-match'): REGEXP_MATCH,
    **{
        FUNCTION.format('1.0', one): FUNCTION.format('3.0', one)
        for one in [
            *(f'{kind}-{one}-yearMonthDuration' for kind in ('date', 'dateTime') for one in ('add', 'subtract')),
            *(f'dateTime-{one}-dayTimeDuration' for one in ('add', 'subtract')),
            *('dayTimeDuration-equal', 'yearMonthDuration-equal', 'map'),
            *(f'xpath-node-{one}' for one in ('count', 'equal', 'match')),
        ]
    },
}
ANY_OF, ALL_OF = FUNCTION.format('3.0', 'any-of'), FUNCTION.format('3.0', 'all-of')
# Of these all-of-any, any-of-all and all-of-all have no name of 3.0.
ANY_OF_ANY, ALL_OF_ANY = FUNCTION.format('3.0', 'any-of-any'), FUNCTION.format('1.0', 'all-of-any')
HIGHER_ORDER = {
    ANY_OF,
    ALL_OF,
    ANY_OF_ANY,
    ALL_OF_ANY,
    *(FUNCTION.format('1.0', one) for one in ['any-of-all', 'all-of-all']),
    FUNCTION.format('3.0', 'map'),
}
N_OF = FUNCTION.format('1.0', 'n-of')

# The URIs of the standard by their last word: of what is here, of what is rewritten, and of what isn't here.
_MISSING = {
    '1.0': [
        *(f'{one}-equal' for one in ('double', 'rfc822Name', 'x500Name', 'hexBinary', 'base64Binary')),
        *(f'double-{one}' for one in ('add', 'subtract', 'multiply', 'divide', 'abs', *ORDERS)),
        *('round', 'floor', 'double-to-integer', 'integer-to-double'),
        *('string-normalize-space', 'string-normalize-to-lower-case', 'x500Name-match', 'rfc822Name-match'),
        *('any-of-all', 'all-of-all'),
    ],
    '2.0': [f'{one}-regexp-match' for one in ('anyURI', 'ipAddress', 'dnsName', 'rfc822Name', 'x500Name')],
    '3.0': [
        *('string-equal-ignore-case', 'dayTimeDuration-equal', 'yearMonthDuration-equal', 'map', 'access-permitted'),
        *(f'dateTime-{one}-{kind}Duration' for one in ('add', 'subtract') for kind in ('dayTime', 'yearMonth')),
        *(f'anyURI-{one}' for one in ('starts-with', 'ends-with', 'contains', 'substring')),
        *('string-substring', 'xpath-node-count', 'xpath-node-equal', 'xpath-node-match'),
    ],
}


def last_word(uri):
    """What a URI ends with, behind its version."""
    return re.split('[:#/]', uri)[-1]


BY_WORD = {
    last_word(uri): uri
    for uri in {
        *HERE_FUNCTIONS,
        *(TIME_IN_RANGE, N_OF, ANY_OF_ANY, ALL_OF_ANY, REGEXP_MATCH),
        *(FUNCTION.format(version, one) for version, listed in _MISSING.items() for one in listed),
    }
}
DID_YOU_MEAN = 'by hand: did you mean {}?'.format


def meant(uri, known):
    """What to do about a URI that the standard hasn't, where it has one that ends with the same word; or None."""
    found = known.get(last_word(uri))
    return DID_YOU_MEAN(found) if found not in (None, uri) else None


IMPOSSIBLE = 'impossible here'
_HOW = [
    # (end of the name, what to do)
    (
        '-regexp-match',
        'by hand: string-starts-with for ^x, string-ends-with for x$, string-contains for x, string-equal or is-in for'
        ' a list of words; what more it tests as an attribute of its own',
    ),
    ('string-equal-ignore-case', 'by hand: store values in lower case, and compare with a literal in lower case'),
    ('string-normalize-space', 'by hand: store values without white space around them'),
    ('string-normalize-to-lower-case', 'by hand: store values in lower case'),
    (
        'rfc822Name-match',
        'by hand: the name as string with its domain in lower case; string-equal for a whole name, string-ends-with for'
        ' @domain (or .domain)',
    ),
    ('x500Name-match', 'by hand: the part that is matched as an attribute of its own, compared by string-equal'),
    ('any-of-all', 'by hand: of one bag that has few values write `or` of all-of, one for each value'),
    (
        'all-of-all',
        'by hand: with an equality, bags that are both empty or hold one value: say what is meant by set-equals or'
        ' bag-size',
    ),
    (
        'any-of-any',
        'by hand: with an equality and two bags the tool writes at-least-one-member-of, with another comparison and a'
        ' bag of literals `or` of any-of; else one-and-only at one side, and any-of',
    ),
    (
        'all-of-any',
        'by hand: with an equality and two bags the tool writes subset; with another function say it by all-of over'
        ' values that are known',
    ),
    ('map', IMPOSSIBLE + ': store the values that come of it as an attribute'),
    (
        'time-in-range',
        'by hand: its three arguments have to be single times: one-and-only where one of them is a bag',
    ),
    (
        'n-of',
        'by hand: with a literal number and few arguments the tool writes `or` and `and`; else say which sets of them'
        ' are enough',
    ),
    ('access-permitted', IMPOSSIBLE + ': no request asks another one'),
    ('-add-dayTimeDuration', 'by hand: store the moment that comes of it as an attribute, and compare with that'),
    ('-subtract-dayTimeDuration', 'by hand: store the moment that comes of it as an attribute, and compare with that'),
    (
        'dateTime-add-yearMonthDuration',
        'by hand: store the moment that comes of it as an attribute, and compare with that',
    ),
    (
        'dateTime-subtract-yearMonthDuration',
        'by hand: store the moment that comes of it as an attribute, and compare with that',
    ),
    (
        '-substring',
        'by hand: string-starts-with, string-ends-with or string-contains, or the part as an attribute of its own',
    ),
    ('-from-string', 'by hand: store the attribute with its type'),
    ('string-concatenate', 'by hand: urn:oasis:names:tc:xacml:2.0:function:string-concatenate on strings'),
    ('round', 'by hand: keep whole numbers (integer-divide cuts toward zero)'),
    ('floor', 'by hand: keep whole numbers (integer-divide cuts toward zero)'),
    ('integer-to-double', 'by hand: keep whole numbers'),
    ('double-to-integer', 'by hand: keep whole numbers'),
    ('yearMonthDuration-equal', 'by hand: compare the days that come of the durations, or their months as integers'),
]
_STANDARD = (
    'string',
    'boolean',
    'integer',
    'double',
    'date',
    'time',
    'dateTime',
    'anyURI',
    'hexBinary',
    'base64Binary',
    'dayTimeDuration',
    'yearMonthDuration',
    'rfc822Name',
    'x500Name',
    'ipAddress',
    'dnsName',
    'xpath',
)


def how_without(function):
    """What can be done about a function that isn't here, in words that begin with *by hand* or *impossible*."""
    name = function.rpartition(':')[2]
    if not function.startswith('urn:oasis:names:tc:xacml:'):
        return IMPOSSIBLE + ': a function of one\'s own; store what it gives as an attribute'
    if (mistaken := meant(function, BY_WORD)) is not None:
        return mistaken
    if name.startswith('xpath') or name.endswith('xpath-node-match'):
        return IMPOSSIBLE + ': there is no XPath; store what it finds as an attribute'
    for end, how in _HOW:
        if name == end or end.startswith('-') and name.endswith(end):
            return how
    if name.startswith('string-from-') or name.startswith('uri-'):
        return 'by hand: store the text as an attribute of type string'
    kind = name.split('-')[0]
    if kind in _STANDARD:
        return f'by hand: {kind} has no such function here; ' + _of_type(kind)
    return IMPOSSIBLE + ': the standard has no such function'


def _of_type(kind):
    for uri, how in MISSING_TYPES.items():
        if uri.endswith(kind):
            return 'values ' + how
    return 'docs/FUNCTIONS.md lists those that it has'


# ---- combining algorithms (appendix C)

RULES, POLICIES = 'rule', 'policy'
_NAMED = [
    'deny-overrides',
    'permit-overrides',
    'ordered-deny-overrides',
    'ordered-permit-overrides',
    'deny-unless-permit',
    'permit-unless-deny',
]
_ALGORITHM = 'urn:oasis:names:tc:xacml:{}:{}-combining-algorithm:{}'
HERE_ALGORITHMS = {
    kind: {_ALGORITHM.format('3.0', kind, one) for one in _NAMED} | {_ALGORITHM.format('1.0', kind, 'first-applicable')}
    for kind in (RULES, POLICIES)
}
HERE_ALGORITHMS[POLICIES].add(_ALGORITHM.format('1.0', POLICIES, 'only-one-applicable'))
ALGORITHMS_BY_WORD = {kind: {last_word(uri): uri for uri in listed} for kind, listed in HERE_ALGORITHMS.items()}
LEGACY_ALGORITHMS = {
    kind: {
        _ALGORITHM.format(version, kind, one): _ALGORITHM.format('3.0', kind, one)
        for version, one in [
            ('1.0', 'deny-overrides'),
            ('1.0', 'permit-overrides'),
            ('1.1', 'ordered-deny-overrides'),
            ('1.1', 'ordered-permit-overrides'),
        ]
    }
    for kind in (RULES, POLICIES)
}

# What a legacy algorithm decides where a child is Indeterminate (C.10 to C.13), and what its newer one makes of that.
_KIND = (
    'its own decision is the same, but an Indeterminate has a kind, which an algorithm above may pass over: there it'
    ' may become Permit or Deny'
)
TURNS = {
    (RULES, 'deny-overrides'): _KIND,
    (RULES, 'permit-overrides'): _KIND,
    (POLICIES, 'deny-overrides'): 'an Indeterminate child made it Deny: that may become Permit, where another child'
    ' permits and this one couldn\'t deny, and else Indeterminate',
    (POLICIES, 'permit-overrides'): 'a Deny beside an Indeterminate child that could permit becomes Indeterminate',
}

# ---- categories and status codes

CATEGORIES = {
    'AccessSubject': 'urn:oasis:names:tc:xacml:1.0:subject-category:access-subject',
    'Action': 'urn:oasis:names:tc:xacml:3.0:attribute-category:action',
    'Resource': 'urn:oasis:names:tc:xacml:3.0:attribute-category:resource',
    'Environment': 'urn:oasis:names:tc:xacml:3.0:attribute-category:environment',
    'RecipientSubject': 'urn:oasis:names:tc:xacml:1.0:subject-category:recipient-subject',
    'IntermediarySubject': 'urn:oasis:names:tc:xacml:1.0:subject-category:intermediary-subject',
    'Codebase': 'urn:oasis:names:tc:xacml:1.0:subject-category:codebase',
    'RequestingMachine': 'urn:oasis:names:tc:xacml:1.0:subject-category:requesting-machine',
}
