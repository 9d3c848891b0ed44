"""Forty policies of XACML 1.0 to 2.0 come over, and decide as an evaluator of these versions does: the same wherever
nothing is Indeterminate, and of one policy's rules everywhere; else as what they became in 3.0 does by an evaluator
of that."""
import collections
import re

from lxml import etree

from . import direct, direct_older, driver, names, older, places, policies
from .older_documents import DOCUMENTS
from .try_mutants import Asked, answer_of, request_of, values_of

NUMBER = 40
MODERN = {old: new for listed in names.LEGACY_ALGORITHMS.values() for old, new in listed.items()}
# Of each a part that is changed, and what is told then, as LINE:COLUMN: and words.
WRONG = [
    ('<Rule ', '<Rules/><Rule ', 'not XACML 2.0: Rules in Policy: what stands there'),
    ('<Target/>', '<Target><Subjects/></Target>', 'not XACML 2.0: Subjects without AnySubject or Subject'),
    ('Effect="Permit"', 'Effect="permit"', 'not XACML 2.0: Effect="permit" of Rule'),
    ('<Condition>', '<Condition><Apply FunctionId="f"/>', 'not XACML 2.0: a Condition of 2 expressions'),
    ('xmlns=', 'xmlns:x="u" x:y="" xmlns=', 'not XACML 2.0: the attribute {u}y of Policy'),
    ('<Condition>', '<Condition><AttributeSelector RequestContextPath="//x" DataType="u"/>', 'Condition of 2'),
    (direct_older.XACML + '1.0:function:string-equal', 'urn:f', 'impossible: the function urn:f'),
    ('<AttributeValue ', '<AttributeValue more="x" ', 'by hand: the attribute more of AttributeValue'),
]


def brought(data, as_modern=True):
    """A policy of an older version: as an element of 3.0, as a document, and what was told."""
    root, where = places.read(data)
    told = places.Told('older')
    root, where = older.modern(root, where, told)
    document = None if root is None else policies.Policies(told, where, as_modern).document(root)
    return root, document, told


def modern_copy(root):
    """An element of 3.0 whose legacy algorithms are the newer ones, read anew."""
    text = etree.tostring(root).decode()
    return direct.root_of(re.sub('|'.join(map(re.escape, MODERN)), lambda found: MODERN[found[0]], text).encode())


def fallen(decision):
    """A decision as a service tells it."""
    return decision.partition('{')[0]


class Trial:
    """Asks documents, and counts."""

    def __init__(self, service, each):
        self.service, self.each, self.count, self.wrong = service, each, collections.Counter(), []

    def document(self, text, seed):
        """One of the forty: its document, asked some requests."""
        root, document, told = brought(text.encode())
        if document is None or told.stops():
            self.wrong.append(f'{text[:120]}: {told.lines()}')
            return
        refused = self.service.root(document)
        if refused:
            self.wrong.append(f'{text[:120]}: {refused}')
            return
        decide, before = direct.document(modern_copy(root)), direct.root_of(text.encode())
        asked = Asked(root, seed).requests(self.each)
        replies = self.service.answers([{'do': 'ask', 'request': request_of(attributes)} for attributes in asked])
        for attributes, reply in zip(asked, replies):
            self.compare(text, attributes, answer_of(reply), decide(values_of(attributes)), before)

    def compare(self, text, attributes, found, newer, before):
        """What is answered beside both evaluators."""
        reading = direct_older.Reading(values_of(attributes))
        decision, given = reading.decide(before)
        self.count['failed' if reading.failed else decision] += 1
        expected = (fallen(newer[0]), *newer[1:])
        if found != expected:
            self.wrong.append(f'{found}, and not {expected} of {attributes}: {text}')
        older_given = [(name, [(key, None, None, *rest) for key, *rest in assigned]) for name, assigned in given]
        if not reading.failed and found != (decision, older_given, []):
            self.wrong.append(f'{found}, and not {decision} {older_given} of {attributes}: {text}')
        # Of rules alone an Indeterminate decides as it did; of sets it has a kind, and may become another decision.
        turned = found[0] != decision and not (
            reading.unsure and (decision, found[0]) == ('Indeterminate', 'NotApplicable')
        )
        if reading.failed and before.tag.endswith('}Policy') and turned:
            self.wrong.append(f'{found}, and not {decision} of {attributes}: {text}')


def told_of_wrong():
    """What is told of files that are none of their version, or that have what isn't here."""
    base = next(each for each in DOCUMENTS if 'PolicyId="own"' in each)
    for old, new, words in WRONG:
        _, _, told = brought(base.replace(old, new, 1).encode())
        if not any(words in line for line in told.lines()):
            yield f'{new}: {told.lines()}'
    _, _, told = brought(base.encode(), as_modern=False)
    if not any('by hand: the legacy algorithm' in line for line in told.lines()):
        yield f'a legacy algorithm: {told.lines()}'


def run(program, number):
    """How many requests were compared, and what was wrong; each document is asked so many."""
    service = driver.Service(program)
    trial = Trial(service, number)
    if len(DOCUMENTS) != NUMBER:
        trial.wrong.append(f'{len(DOCUMENTS)} policies of older versions')
    for seed, text in enumerate(DOCUMENTS):
        trial.document(text, seed)
    service.close()
    return trial.count, trial.wrong + list(told_of_wrong())


def said(count):
    """What was compared, in words."""
    return f'{NUMBER} of older versions asked {sum(count.values())} requests ({count["failed"]} with an Indeterminate)'
