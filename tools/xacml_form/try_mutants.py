"""Files that are nearly valid ones (mutating.py). Either that is told, or what is written decides as an evaluator of
the XML itself does (direct.py); and the table of the schema says of each what xacml.rng says."""
import collections
import random
import time

from lxml import etree

from . import direct, driver, literals, names, places, policies, requests, styles
from .direct_functions import value
from .mutating import Mutator
from .try_grammar import Beside
from .typed import Typed

CORE, XS = direct.CORE, names.XML_SCHEMA
# How many requests each is asked, how many are stored at once, and of how many mutants one is of a random policy's own.
REQUESTS, TOGETHER, TYPED = 6, 5, 30
OTHERS = {
    'string': ['a', 'doctor', ''],
    'boolean': ['true', 'false'],
    'integer': ['0', '3', '-7'],
    'date': ['2026-03-01', '2024-02-29'],
    'anyURI': ['urn:a', 'http://example.org/'],
    'time': ['07:00:00', '23:30:00'],
    'dateTime': ['2026-03-01T12:00:00', '2025-12-31T23:29:59'],
    'yearMonthDuration': ['P1Y', 'P3M'],
}


class Asked:
    """Requests of the attributes that a policy asks for, with values that stand in it and others."""

    def __init__(self, root, seed):
        self.random = random.Random(seed)
        self.texts = collections.defaultdict(list, {XS + kind: list(texts) for kind, texts in OTHERS.items()})
        for each in root.iter(CORE + 'AttributeValue'):
            self.texts[each.get('DataType', '')].append(each.text or '')
        keys = ('Category', 'AttributeId', 'DataType')
        asked = {
            tuple(' '.join(each.get(key, '').split()) for key in keys) + (each.get('Issuer') or '',)
            for each in root.iter(CORE + 'AttributeDesignator')
        }
        self.asked = sorted(each for each in asked if each[2] in names.HERE_TYPES and each[0] and each[1])

    def requests(self, number):
        """Some requests; each is a list of attributes: category, id, type, issuer and texts that are read here."""
        return [[each for each in map(self.attribute, self.asked) if each[4]] for _ in range(number)]

    def attribute(self, key):
        texts = self.random.choices(self.texts[key[2]], k=self.random.choice([0, 1, 1, 1, 2]))
        return (*key, [each for each in texts if in_json(key[2], each) is not None])


def in_json(uri, text):
    """The value that a text of a type is in a request; None where it isn't read."""
    told = places.Told('')
    found = literals.value(uri, text, (1, 1), told, literals.COMPARED)
    return None if told.stops() else found


def request_of(attributes):
    """A request in JSON."""
    categories = {}
    for category, one, kind, issuer, texts in attributes:
        made = {'AttributeId': one, 'DataType': kind, 'Value': [in_json(kind, each) for each in texts]}
        categories.setdefault(category, []).append({**made, **({'Issuer': issuer} if issuer else {})})
    made = [{'CategoryId': category, 'Attribute': listed} for category, listed in categories.items()]
    return {'Request': {'Category': made} if made else {}}


def values_of(attributes):
    """The same for the evaluator: the values with their issuers by category, id and type."""
    found = {}
    for category, one, kind, issuer, texts in attributes:
        found.setdefault((category, one, kind), []).extend((issuer or None, value(kind, each)) for each in texts)
    return found


def answer_of(reply):
    """A reply in the form that the evaluator answers in."""
    if 'Response' not in reply:
        return reply
    [result] = reply['Response']
    return result['Decision'], given(result, 'Obligations'), given(result, 'AssociatedAdvice')


def given(result, key):
    """The obligations or the advice of a result."""
    return [(each['Id'], assigned(each['AttributeAssignment'])) for each in result.get(key, [])]


def assigned(assignments):
    """The ids of assignments, each with its value."""
    return [
        (
            *(each.get(key) for key in ('AttributeId', 'Category', 'Issuer')),
            *value(each['DataType'], literals.text_of(each['DataType'], each['Value'])),
        )
        for each in assignments
    ]


class Trial:
    """Tries mutants, and counts what became of them."""

    def __init__(self, service, file):
        self.service, self.beside = service, Beside(file)
        self.count, self.wrong, self.waiting = collections.Counter(), [], []

    def said(self, root, told):
        """What is told of a mutant: `told` or `written`; the two grammars have to agree."""
        is_told = told.holds(places.INVALID)
        if not self.beside.agree(root, is_told):
            self.wrong.append(f'xacml.rng says otherwise: {shown(root)} {told.lines()}')
        self.count['violations' if is_told else 'told' if told.stops() else 'written'] += 1
        return 'told' if told.stops() else 'written'

    def policy(self, data, how, seed):
        """A mutant of a policy: read by both, and asked some requests later."""
        root, where = places.read(data)
        told = places.Told(how)
        document = policies.Policies(told, where).document(root)
        if self.said(root, told) == 'told':
            return
        asked = Asked(root, seed).requests(REQUESTS)
        self.waiting.append((data, how, document, asked))
        if len(self.waiting) == TOGETHER:
            self.ask()

    def ask(self):
        """Stores the waiting documents, one after the other, and compares what they answer."""
        lines = [line for _, _, document, asked in self.waiting for line in lines_of(document, asked)]
        replies = iter(self.service.answers(lines))
        for data, how, document, asked in self.waiting:
            own = [next(replies) for _ in lines_of(document, asked)]
            if 'refused' in own[0]:
                self.count['refused'] += 1
            else:
                self.compare(data, how, asked, own[2:-1])
        self.waiting = []

    def compare(self, data, how, asked, replies):
        """What the evaluator says of requests, beside the replies."""
        try:
            decide = direct.document(direct.root_of(data))
        except direct.Unread as part:
            self.wrong.append(f'{how}: written, but this was passed over: {part}: {data.decode()}')
            return
        for attributes, reply in zip(asked, replies):
            decision, *lists = decide(values_of(attributes))
            expected = (decision.partition('{')[0], *lists)
            self.count['decisions'] += 1
            self.count[expected[0]] += 1
            if answer_of(reply) != expected:
                self.wrong.append(f'{how}: {answer_of(reply)}, and not {expected} of {attributes}: {data.decode()}')

    def request(self, data, how, decide):
        """A mutant of a request, asked of the policy that is stored."""
        root, where = places.read(data)
        told = places.Told(how)
        made = requests.Requests(told, where).request(root)
        if self.said(root, told) == 'told':
            return
        reply = self.service.answer(do='ask', request=made)
        if 'refused' in reply:
            self.count['refused'] += 1
            return
        decision, *lists = decide(direct.request(direct.root_of(data)))
        self.count['decisions'] += 1
        if answer_of(reply) != (decision.partition('{')[0], *lists):
            self.wrong.append(f'{how}: {answer_of(reply)}, and not {decision} {lists}: {data.decode()}')


def lines_of(document, asked):
    """The lines that store a document, ask and take it away."""
    kind, body = next(iter(document.items()))
    key = {'Id': body[f'{kind}Id'], 'Version': body['Version']}
    return [
        {'do': 'policy.add', 'document': document},
        {'do': 'root.set', 'reference': {f'{kind}IdReference': key}},
        *({'do': 'ask', 'request': request_of(each)} for each in asked),
        {'do': 'policy.withdraw', 'kind': kind, 'id': key['Id'], 'version': key['Version']},
    ]


def shown(root):
    return etree.tostring(root).decode()


def run(program, schema, files, request, number, seconds):
    """Tries mutants of files and of random policies, and of a request to the first file, so many, and no longer than
    some seconds; what became of them, and what was wrong."""
    until, service = time.monotonic() + seconds, driver.Service(program)
    trial = Trial(service, schema)
    bases = [(file.stem, file.read_bytes()) for file in files]
    bases += [(style, text.encode()) for style, text in styles.THREE.items() if style in styles.OVER]
    bases += [(f'typed {seed}', Typed(seed).document().encode()) for seed in range(number // TYPED)]
    bases = [(name, places.read(data)[0]) for name, data in bases]
    seen = set()
    for name, base in bases:
        trial.policy(shown(base).encode(), name, 0)
        for made, how in Mutator(0).of_each_kind(base, seen):
            trial.policy(shown(made).encode(), f'{name}: {how}', 0)
    for seed in range(number * 9 // 10):
        name, base = bases[seed % len(bases)]
        made, how = Mutator(seed).mutant(base)
        trial.policy(shown(made).encode(), f'{name} {seed}: {how}', seed)
        if time.monotonic() > until:
            break
    trial.ask()
    of_requests(trial, files[0], request, number // 10)
    service.close()
    return trial.count, trial.wrong


def said(count):
    """What became of mutants, in words."""
    tried = count['violations'] + count['told'] + count['written']
    return (
        f'{tried} mutants ({count["violations"]} no XACML 3.0, {count["told"]} told otherwise, {count["refused"]}'
        f' refused by the program, {count["decisions"]} decisions of the others compared)'
    )


def of_requests(trial, file, request, number):
    """Mutants of a request, to a policy that is stored."""
    root, where = places.read(file.read_bytes())
    trial.service.root(policies.Policies(places.Told(''), where).document(root))
    decide = direct.document(direct.root_of(file.read_bytes()))
    base, _ = places.read(request.read_bytes())
    for seed in range(number):
        made, how = Mutator(seed).mutant(base)
        trial.request(shown(made).encode(), f'{request.stem} {seed}: {how}', decide)
