"""Random policies: what the program decides of the documents that the tool makes of them is what their trees mean, and
the documents come back from ALFA as they are."""
import random
import time

from xacml_form import names
from xacml_form.driver import Service

from . import back
from .compiling import Compiler
from .told import ERROR
from .try_meaning import Meaning
from .try_worlds import ATTRIBUTES, CATEGORIES, ISSUER, VALUES, Text, Worlds

REQUESTS = 50


def request(chance):
    """A request: for each attribute its values, each with its issuer."""
    found = {}
    for each in ATTRIBUTES:
        values = chance.choices(VALUES[each.kind], k=chance.choice([0, 1, 1, 1, 2]))
        found[each.name] = [(value, chance.choice([None, None, ISSUER])) for value in values]
    return found


def in_json(request):
    """A request as the program takes it, with the values of each issuer in their order."""
    categories = {}
    for each in ATTRIBUTES:
        for issuer in (None, ISSUER):
            values = [value for value, by in request[each.name] if by == issuer]
            if values:
                one = {'AttributeId': each.id, 'DataType': names.XML_SCHEMA + each.kind, 'Value': values}
                one |= {'Issuer': issuer} if issuer else {}
                categories.setdefault(CATEGORIES[each.category], []).append(one)
    listed = [{'CategoryId': category, 'Attribute': each} for category, each in categories.items()]
    return {'Request': {'Category': listed} if listed else {}}


def answer(reply):
    """The decision of a reply, with its obligations and advice."""
    if 'explain' not in reply:
        return reply
    found = reply['explain']['answer']
    lists = [[[given['Id'], [[each['AttributeId'], each.get('Category'),
                              each['DataType'].removeprefix(names.XML_SCHEMA), each['Value']]
                             for each in given['AttributeAssignment']]] for given in found[key]]
             for key in ('obligations', 'advice')]
    return (found['decision'], *lists)


def in_order(request):
    """A request whose values stand in the order in which the program has them: by issuer."""
    return {name: sorted(values, key=lambda each: each[1] is not None) for name, values in request.items()}


class Trial:
    """One service that is asked about world after world."""

    def __init__(self, program, seed):
        self.service, self.seed = Service(program), seed
        self.asked, self.seen, self.wrong, self.stored = 0, {}, [], False

    def world(self):
        """One more world."""
        self.seed += 1
        world, chance = Worlds(self.seed).world(), random.Random(self.seed)
        text = Text(self.seed).world(world)
        compiler = Compiler([('world', text.encode())])
        made = [each.document for each in compiler.made()]
        if compiler.told.holds(ERROR):
            faults = [line for line in compiler.told.lines() if f': {ERROR}: ' in line]
            self.wrong.append(f'world {self.seed}: {faults[0]}\n{text}')
            return
        self.store(made)
        again = back.written(made, 'policies')
        if again.text is None or again.told:
            self.wrong.append(f'world {self.seed} comes back otherwise: {again.told[:1]}')
        requests = [in_order(request(chance)) for _ in range(REQUESTS)]
        replies = self.service.answers([{'do': 'explain', 'request': in_json(each)} for each in requests])
        for each, reply in zip(requests, replies):
            meant, found = Meaning(world, each).result(world['top']), answer(reply)
            self.asked += 1
            self.seen[meant[0]] = self.seen.get(meant[0], 0) + 1
            if tuple(meant) != tuple(found):
                self.wrong.append(f'world {self.seed}: {meant} was meant, and {found} decided\n{each}\n{text}')

    def store(self, documents):
        """Stores documents in place of those of the world before, the set as the root."""
        word = 'policy.replace' if self.stored else 'policy.add'
        lines = [{'do': word, 'document': document} for document in documents]
        lines += [] if self.stored else [{'do': 'root.set', 'reference': {'PolicySetIdReference': {'Id': 'w.p.top'}}}]
        self.wrong += [f'world {self.seed}: {reply}' for reply in self.service.answers(lines) if 'refused' in reply]
        self.stored = True


def run(program, requests, seconds, seed=0):
    """How many requests were asked, what was decided how often, and what was wrong."""
    trial, until = Trial(program, seed), time.process_time() + seconds
    while trial.asked < requests and len(trial.wrong) < 5 and time.process_time() < until:
        trial.world()
    trial.service.close()
    return trial.asked, trial.seen, trial.wrong
