"""Wrong forms of what the tool rewrites, each of which a trial has to see: one function or table is changed at a time,
and the trial is run over it."""
import contextlib

from . import driver, literals, names, older, patterns, rewriting, try_older, try_rewriting
from .rewriting import F1, apply


@contextlib.contextmanager
def changed(owner, name, value):
    """What is called so is another thing for a while."""
    kept = owner[name] if isinstance(owner, dict) else vars(owner)[name]
    put = owner.__setitem__ if isinstance(owner, dict) else lambda key, found: setattr(owner, key, found)
    put(name, value)
    try:
        yield
    finally:
        put(name, kept)


def other_word(change):
    """Words of patterns that are taken otherwise."""
    kept = patterns.word_of
    return patterns, 'word_of', lambda symbols, pattern: change(kept(symbols, pattern))


def never_over_midnight(function, arguments, is_bag):
    """A range as if its bounds were in order."""
    time, first, last = arguments
    since, until = (
        rewriting._compared(time, *two) for two in [('greater-than-or-equal', first), ('less-than-or-equal', last)]
    )
    return rewriting.Rewritten(apply(F1('and'), since, until), '')


def first_literal_alone(function, rest):
    """any-of of one literal of several."""
    for at, each in enumerate(rest):
        if values := rewriting.bag_of_literals(each):
            return rewriting.Rewritten(
                apply(names.ANY_OF, function, *[values[0], rest[1]][:: 1 if at == 0 else -1]), ''
            )
    raise rewriting.ByHand('by hand: -')


def other_way_round(function, rest):
    """any-of of the literals at the other side."""
    return KEPT_OVER(function, rest[::-1])


KEPT_OVER = rewriting._over_literals
MODERN = older.Modern
KEPT = {
    name: vars(MODERN)[name]
    for name in ('named', 'designator', 'target', 'all_of', 'condition', 'obligation', 'member')
}


def one_list_alone(self, element):
    """A target of which the first list alone is asked."""
    made = KEPT['target'](self, element)
    for each in list(made)[1:]:
        made.remove(each)
    return made


def one_match_alone(self, element, category):
    """A member of a list of which the first match alone is asked."""
    made = KEPT['all_of'](self, element, category)
    for each in list(made)[1:]:
        made.remove(each)
    return made


def any_subject(self, element, category):
    """A designator whose subject is always the one who asks."""
    made = KEPT['designator'](self, element, category)
    made.set('Category', older.URIS[category])
    return made


def of_any_issuer(self, element, category):
    """A designator without its issuer."""
    made = KEPT['designator'](self, element, category)
    made.attrib.pop('Issuer', None)
    return made


def of_the_other_effect(self, element):
    """An obligation of the other decision."""
    made = KEPT['obligation'](self, element)
    made.set('FulfillOn', 'Deny' if element.get('FulfillOn') == 'Permit' else 'Permit')
    return made


def rewriting_trial(service):
    return try_rewriting.run(service)[1]


def older_trial(service):
    trial = try_older.Trial(service, 25)
    for seed, text in enumerate(try_older.DOCUMENTS):
        trial.document(text, seed)
    return trial.wrong


# What is wrong, the trial that has to see it, and what is changed.
WRONG = [
    (
        '^ counts for nothing',
        rewriting_trial,
        other_word(
            lambda word: word._replace(
                function={'starts-with': 'contains', 'equal': 'ends-with'}.get(word.function, word.function)
            )
        ),
    ),
    (
        '$ counts for nothing',
        rewriting_trial,
        other_word(
            lambda word: word._replace(
                function={'ends-with': 'contains', 'equal': 'starts-with'}.get(word.function, word.function)
            )
        ),
    ),
    ('a pattern has to be the whole text', rewriting_trial, other_word(lambda word: word._replace(function='equal'))),
    ('an escape stands for itself with its sign', rewriting_trial, (patterns.ESCAPED, '.', '\\.')),
    (
        'a group is its first word',
        rewriting_trial,
        (patterns, 'words', lambda pattern, kind='string', kept=patterns.words: kept(pattern, kind)[:1]),
    ),
    (
        'a computed range never goes over midnight',
        rewriting_trial,
        (rewriting.REWRITINGS, names.TIME_IN_RANGE, never_over_midnight),
    ),
    ('one literal of a bag is looked at', rewriting_trial, (rewriting, '_over_literals', first_literal_alone)),
    ('an order over literals is turned', rewriting_trial, (rewriting, '_over_literals', other_way_round)),
    ('any fraction is cut', rewriting_trial, (literals, 'ZEROS', literals.re.compile(r'(:\d\d)\.\d+'))),
    (
        'a fraction of zero takes the second with it',
        rewriting_trial,
        (literals, 'ZEROS', literals.re.compile(r'():\d\d\.0+')),
    ),
    ('one list of a target is asked', older_trial, (MODERN, 'target', one_list_alone)),
    ('one match of a member is asked', older_trial, (MODERN, 'all_of', one_match_alone)),
    ('the category of a subject is lost', older_trial, (MODERN, 'designator', any_subject)),
    ('an issuer is lost', older_trial, (MODERN, 'designator', of_any_issuer)),
    (
        'each attribute has to be present',
        older_trial,
        (MODERN, 'named', staticmethod(lambda element: {**element.attrib, 'MustBePresent': 'true'})),
    ),
    (
        'no attribute has to be present',
        older_trial,
        (MODERN, 'named', staticmethod(lambda element: {**element.attrib, 'MustBePresent': 'false'})),
    ),
    ('an obligation is of the other decision', older_trial, (MODERN, 'obligation', of_the_other_effect)),
    ('a resource is taken for an action', older_trial, (older.URIS, 'Resource', names.CATEGORIES['Action'])),
]


def run(program):
    """How many wrong forms were tried, and which of them no trial saw."""
    unseen = []
    for words, trial, change in WRONG:
        service = driver.Service(program)
        with changed(*change):
            try:
                seen = bool(trial(service))
            except Exception:  # A wrong form may make what can't be read at all: that is seen.
                seen = True
        service.close()
        if not seen:
            unseen.append(f'a wrong form that nothing saw: {words}')
    return len(WRONG), unseen
