"""Random lines that follow from a seed: edits of every kind (bench/random_lines.py), with questions of every kind
behind each, from several sessions; or edits of people who differ in few values, with the table behind each."""
import json
import pathlib
import sys

sys.path.insert(0, str(pathlib.Path(__file__).resolve().parents[2] / 'bench'))
from random_lines import ATTRIBUTES, CATEGORIES, IDS, NAMES, OF_POLICIES, OF_RULES, Chance, Lines  # noqa: E402
from workloads import ACTION, ACTION_ID, FUNCTION, SUBJECT, SUBJECT_ID  # noqa: E402

MODULES = 2
EDITS = 120
WORDS = ['serve', '--attribute-modules', str(MODULES), '--policy-modules', str(MODULES)]
DECISIONS = ['Permit', 'Deny', 'Indeterminate', 'NotApplicable']


class Session(Lines):
    """Random lines with questions."""

    def names(self):
        """A listed request, or one with a name that isn't there."""
        return {sort: self.one(names) for sort, names in NAMES.items()}

    def request(self):
        """A request that is asked for, with values of its own now and then."""
        body = {}
        for sort, (short, (_, id, _)) in zip(['person', 'resource', 'action'], CATEGORIES.items()):
            told = [{'AttributeId': id, 'Value': self.one(NAMES[sort])}]
            if self.happens(0.4):
                told.append({'AttributeId': self.one(ATTRIBUTES), 'Value': self.one(['a', 'b', 7, True])})
            body[short] = {'Attribute': told}
        return {'Request': body}

    def question(self):
        """A question with its keys."""
        names = self.names()
        person, action, resource = (names[sort] for sort in ['person', 'action', 'resource'])
        category = self.one(list(CATEGORIES))
        choices = [
            {'do': self.one(['table', 'counts', 'work', 'faults', 'notices', 'mark', 'state', 'limits', 'dump'])},
            {'do': 'table'}, {'do': 'notices'},
            {'do': 'cell'} | names, {'do': 'can', 'person': person},
            {'do': 'who', 'action': action, 'resource': resource},
            {'do': 'by_rule', 'policy': self.one([*IDS, 'inner']), 'rule': self.one(['r0', 'r1', None])},
            {'do': 'changes', 'since': self.any.randrange(EDITS)},
            {'do': 'ask', 'request': self.request()},
            {'do': 'explain'} | names | self.maybe(0.4, documents=True),
            {'do': 'explain', 'request': self.request()} | self.maybe(0.4, documents=True),
            {'do': 'cells'} | self.maybe(0.4, person=person) | self.maybe(0.4, action=action)
            | self.maybe(0.4, resource=resource) | self.maybe(0.3, decisions=[self.one(DECISIONS)]),
            {'do': 'attributes', 'category': category, 'entity': self.one(CATEGORIES[category][2])},
            {'do': 'documents'} | self.maybe(0.5, id=self.one(IDS)),
            {'do': 'names', 'list': self.one(['people', 'actions', 'resources'])} | self.maybe(0.5, count=2),
        ]
        return self.one(choices) | self.maybe(0.5, session=self.any.randrange(4))


def lines(seed):
    """The lines of a seed, which end with all that is held."""
    session = Session(seed, MODULES)
    found = [json.dumps({'do': f'{sort}.add', 'name': name}) for sort, names in NAMES.items() for name in names[:3]]
    for _ in range(EDITS):
        found.append(session.line())
        found += [json.dumps(session.question()) for _ in range(session.any.randrange(3))]
    found += [json.dumps({'do': word}) for word in ['table', 'faults', 'counts', 'work', 'dump']]
    return ''.join(line + '\n' for line in found).encode()


PEOPLE, VALUES, TESTED = [f'p{number}' for number in range(150)], ['x', 'y'], ['a', 'b', 'c', 'd']
ALIKE_EDITS, ALIKE_SETS = 80, 2
ALIKE_WORDS = ['serve']


class Alike(Chance):
    """Random lines about many people who differ in few values, under policies and sets that give nothing by themselves:
    so the answer to one of them is often joined of what tests came to of others. Where policies are even, what stands
    at one place is often like what stands at another."""

    def __init__(self, seed):
        super().__init__(seed)
        self.is_even = seed % 2 == 0
        self.refers = 0.1 if self.is_even else 0.6

    def designator(self, name):
        """What looks a value of a person up, which may have to be there."""
        return {'AttributeDesignator': {'Category': SUBJECT, 'AttributeId': name, 'DataType': 'string'}
                | self.maybe(0.3, MustBePresent=True)}

    def test(self):
        """A condition over one or two attributes."""
        name, value = self.one(TESTED), {'AttributeValue': {'Value': self.one(VALUES)}}
        apply = [f'{FUNCTION}string-is-in', [value, self.designator(name)]]
        if self.happens(0.3):
            only = {'Apply': {'FunctionId': f'{FUNCTION}string-one-and-only', 'Arguments': [self.designator(name)]}}
            apply = [f'{FUNCTION}string-equal', [only, value]]
        found = {'Apply': {'FunctionId': apply[0], 'Arguments': apply[1]}}
        if self.happens(0.2):
            word = self.one(['and', 'or'])
            return {'Apply': {'FunctionId': FUNCTION + word, 'Arguments': [found, self.test()]}}
        return found

    def target(self):
        """A target over one attribute, or over the id of the person or of the action."""
        ids = [(SUBJECT, SUBJECT_ID, PEOPLE[3]), (ACTION, ACTION_ID, 'read')]
        category, id, value = self.one(ids)
        about = {'AttributeDesignator': {'Category': category, 'AttributeId': id, 'DataType': 'string'}}
        if self.happens(0.8):
            value, about = self.one(VALUES), self.designator(self.one(TESTED))
        match = {'MatchId': f'{FUNCTION}string-equal', 'AttributeValue': {'Value': value}} | about
        return {'AnyOf': [{'AllOf': [{'Match': [match]}]}]}

    def told(self):
        """Obligations of a rule, now and then."""
        assignment = {'AttributeId': 'told', 'Expression': self.designator(self.one(TESTED))}
        return self.maybe(0.3, ObligationExpressions=[
            {'ObligationId': 'log', 'FulfillOn': self.one(['Permit', 'Deny'])}
            | self.maybe(0.5, AttributeAssignmentExpression=[assignment])])

    def rule(self, number):
        """A rule with a condition, a target, both or none."""
        found = {'RuleId': f'r{number}', 'Effect': self.one(['Permit', 'Deny'])}
        return found | self.maybe(0.8, Condition=self.test()) | self.maybe(0.4, Target=self.target()) | self.told()

    def policy(self, id):
        """A policy of some rules."""
        rules = [self.rule(number) for number in range(2 if self.is_even else self.any.randrange(2, 5))]
        return {'Policy': {'PolicyId': id, 'Version': '1', 'RuleCombiningAlgId': self.one(OF_RULES), 'Rule': rules}
                | self.maybe(0.3, Target=self.target())}

    def policy_set(self, id, depth):
        """A set of policies, of references to them, and of sets."""
        def child():
            if depth and self.happens(0.4):
                return self.policy_set('inner', depth - 1)
            return {'PolicyIdReference': {'Id': self.one(IDS)}} if self.happens(self.refers) else self.policy('inner')
        children = [child() for _ in range(self.any.randrange(2, 5))]
        keys = {'PolicySetId': id, 'Version': '1', 'PolicyCombiningAlgId': self.one(OF_POLICIES), 'Children': children}
        return {'PolicySet': keys | self.maybe(0.3 if id == 'inner' else 0, Target=self.target())}

    def row(self, person):
        """Values of an attribute of a person."""
        keys = {'do': 'attr.set', 'category': 'AccessSubject', 'entity': person, 'attribute': self.one(TESTED)}
        return keys | {'type': 'string', 'values': self.several(2, lambda: self.one(VALUES))}


def alike_lines(seed):
    """The lines about people who differ in few values, of a seed."""
    session = Alike(seed)
    found = [{'do': 'policy.add', 'document': session.policy(id)} for id in IDS]
    found += [{'do': 'policy.add', 'document': session.policy_set('root', 2)}]
    found += [{'do': 'root.set', 'reference': {'PolicySetIdReference': {'Id': 'root'}}}]
    found += [{'do': 'action.add', 'name': 'read'}, {'do': 'resource.add', 'name': 'plan'}]
    for person in PEOPLE:
        found += [session.row(person) for _ in range(3)] + [{'do': 'person.add', 'name': person}]
    for _ in range(ALIKE_SETS):
        for _ in range(ALIKE_EDITS):
            person = session.one(PEOPLE)
            found += [session.row(person), {'do': 'cells', 'person': person}]
        found += [{'do': word} for word in ['table', 'faults', 'work']]
        found += [{'do': 'policy.withdraw', 'kind': 'Policy', 'id': IDS[0], 'version': '1'}]
        found += [{'do': 'policy.replace', 'document': session.policy_set('root', 2)} for _ in range(9)]
    found += [session.row(PEOPLE[0]), {'do': 'explain', 'person': PEOPLE[0], 'action': 'read', 'resource': 'plan'}]
    return ''.join(json.dumps(line) + '\n' for line in found).encode()
