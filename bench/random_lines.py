"""Random lines of a session, which follow from its seed: edits of every kind over some modules, of which some are refused, with documents, rows, roots, days
and moments in many spellings."""
import json, random
from edits import ENVIRONMENT
from workloads import ACTION, ACTION_ID, RESOURCE, RESOURCE_ID, SUBJECT, SUBJECT_ID
from workloads import FIRST_APPLICABLE, FUNCTION, ONLY_ONE, POLICY_ALGORITHM, RULE_ALGORITHM

XML = 'http://www.w3.org/2001/XMLSchema#'
CLOCK = {name: f'urn:oasis:names:tc:xacml:1.0:environment:current-{name}' for name in ['date', 'time', 'dateTime']}
NAMES = {
    'person': ['ann', 'bob', 'o\'"neil\\', 'zoë', 'n' * 256],
    'action': ['read', 'write', 'sign\toff'],
    'resource': ['plan', 'room 7', '\u2028\x7f', 'a/b'],
}
# Of each short name of a category its URI, the id of its entities, and their names.
CATEGORIES = {
    'AccessSubject': (SUBJECT, SUBJECT_ID, NAMES['person']),
    'Resource': (RESOURCE, RESOURCE_ID, NAMES['resource']),
    'Action': (ACTION, ACTION_ID, NAMES['action']),
}
# Of each type what is read as its values, in several spellings.
VALUES = {
    'string': ['', 'a', 'b', 'é"\\\n\x01\x7f\u2028', 'x' * 300],
    'anyURI': ['', 'urn:a b', 'http://x/?q="'],
    'boolean': ['true', 'false', '1', '0', True, False],
    'integer': ['+007', '-0', '-9223372036854775808', 9223372036854775807, -1, 0, 7],
    'date': ['2024-02-29', '2024-02-29Z', '0001-01-01', '9999-12-31', '2026-01-01'],
    'time': ['00:00:00', '18:00:00Z', '23:59:59'],
    'dateTime': ['2024-02-29T18:00:00', '0001-01-01T00:00:00Z', '2026-01-01T09:30:00'],
    'yearMonthDuration': ['P1Y', 'P14M', '-P0Y1M', 'P0Y', 'P999999999Y11M', '-P1Y2M'],
}
COMPARED = [name for name in VALUES if name != 'yearMonthDuration']
VERSIONS = ['1', '01', '1.2', '1.10', '1.9', '2.0.0', '1.2.3.4.5.6.7.999999999', '0']
PATTERNS = ['1', '*', '+', '1.*', '1.+', '01.2', '*.*', '2.0.+', '1.2.3.4.5.6.7.*']
SHARED = ['deny-overrides', 'permit-overrides', 'ordered-deny-overrides', 'ordered-permit-overrides', 'deny-unless-permit', 'permit-unless-deny']
OF_RULES = [RULE_ALGORITHM + name for name in SHARED] + [FIRST_APPLICABLE]
OF_POLICIES = [POLICY_ALGORITHM + name for name in SHARED] + [ONLY_ONE]
IDS, ISSUERS, ATTRIBUTES = ['p', 'q"', 'é'], ['x', 'y"'], ['a', 'b']
OTHERS = ['', '{"do":"table"', '{"do":"mark","session":3}', '{"do":"format","version":1}', '{"do":"dump","version":1}', '{"do":"day.set","day":"2025-02-29"}']


class Chance:
    """What a seed chooses."""

    def __init__(self, seed):
        self.any = random.Random(seed)

    def one(self, members):
        return self.any.choice(members)

    def happens(self, chance):
        return self.any.random() < chance

    def maybe(self, chance, **keys):
        """These keys, or none."""
        return keys if self.happens(chance) else {}

    def several(self, most, make):
        return [make() for _ in range(self.any.randrange(most + 1))]

    def shuffled(self, keys):
        """An object with its keys in any order."""
        pairs = list(keys.items())
        self.any.shuffle(pairs)
        return dict(pairs)


class Documents(Chance):
    """Random documents and references."""

    def datatype(self, name):
        return self.one(['', XML]) + name

    def literal(self, name):
        value = self.one(VALUES[name])
        plain = name == {bool: 'boolean', int: 'integer', str: 'string'}[type(value)] and self.happens(0.5)
        return {'AttributeValue': {'Value': value} if plain else self.shuffled({'Value': value, 'DataType': self.datatype(name)})}

    def designator(self, name):
        if name in CLOCK and self.happens(0.5):
            keys = {'Category': ENVIRONMENT, 'AttributeId': CLOCK[name]}
        else:
            keys = {'Category': self.one([SUBJECT, RESOURCE, ACTION]), 'AttributeId': self.one(ATTRIBUTES)} | self.maybe(0.3, Issuer=self.one(ISSUERS))
        return {'AttributeDesignator': self.shuffled(keys | {'DataType': self.datatype(name)} | self.maybe(0.4, MustBePresent=self.happens(0.3)))}

    def apply(self, function, *arguments):
        return {'Apply': self.shuffled({'FunctionId': FUNCTION + function, 'Arguments': list(arguments)})}

    def condition(self, deep=2):
        name = self.one(COMPARED)
        choices = [
            lambda: self.apply(f'{name}-is-in', self.literal(name), self.designator(name)),
            lambda: self.apply(f'{name}-equal', self.apply(f'{name}-one-and-only', self.designator(name)), self.literal(name)),
            lambda: self.one([{'VariableReference': {'VariableId': 'v'}}, self.literal('boolean')]),
        ]
        if deep:
            choices.append(lambda: self.apply(self.one(['and', 'or']), *self.several(3, lambda: self.condition(deep - 1))))
            choices.append(lambda: self.apply('not', self.condition(deep - 1)))
        return self.one(choices)()

    def match(self):
        category, id, names = self.one(list(CATEGORIES.values()))
        designator = {'Category': category, 'AttributeId': id, 'DataType': 'string'}
        return {'MatchId': FUNCTION + 'string-equal', 'AttributeValue': {'Value': self.one(names)}, 'AttributeDesignator': designator}

    def target(self):
        return {'AnyOf': self.several(1, lambda: {'AllOf': [{'Match': [self.match()]} for _ in range(self.any.randrange(1, 4))]})}

    def assignment(self):
        expression = self.one([self.literal, self.designator])(self.one(list(VALUES)))
        return {'AttributeId': 'told', 'Expression': expression} | self.maybe(0.3, Category='c', Issuer='i')

    def given(self, list_name, id, when):
        """Obligations or advice, or none."""
        def each():
            return {id: 'log', when: self.one(['Permit', 'Deny'])} | self.maybe(0.7, AttributeAssignmentExpression=self.several(2, self.assignment))
        return {list_name: self.several(2, each)} if self.happens(0.2) else {}

    def parts(self):
        """What a policy, a set and a rule may have."""
        found = self.maybe(0.4, Target=self.target()) | self.maybe(0.2, Description='said "so"')
        return found | self.given('ObligationExpressions', 'ObligationId', 'FulfillOn') | self.given('AdviceExpressions', 'AdviceId', 'AppliesTo')

    def rule(self, number):
        return self.shuffled({'RuleId': f'r{number}', 'Effect': self.one(['Permit', 'Deny'])} | self.maybe(0.7, Condition=self.condition()) | self.parts())

    def policy(self, id):
        rules = [self.rule(number) for number in range(self.any.randrange(4))]
        keys = {'PolicyId': id, 'Version': self.one(VERSIONS), 'RuleCombiningAlgId': self.one(OF_RULES), 'Rule': rules}
        variables = [{'VariableId': 'v', 'Expression': self.literal('boolean')}]
        return {'Policy': self.shuffled(keys | self.maybe(0.9, VariableDefinition=variables) | self.parts())}

    def reference(self):
        earliest, latest = self.maybe(0.2, EarliestVersion=self.one(PATTERNS)), self.maybe(0.2, LatestVersion=self.one(PATTERNS))
        keys = {'Id': self.one(IDS)} | self.maybe(0.3, Version=self.one(PATTERNS)) | earliest | latest
        return {self.one(['PolicyIdReference', 'PolicySetIdReference']): self.shuffled(keys)}

    def policy_set(self, id):
        children = self.several(4, lambda: self.reference() if self.happens(0.7) else self.policy('inner'))
        keys = {'PolicySetId': id, 'Version': self.one(VERSIONS), 'PolicyCombiningAlgId': self.one(OF_POLICIES), 'Children': children}
        return {'PolicySet': self.shuffled(keys | self.parts())}


class Lines(Documents):
    """Random lines of one session, over so many modules of each sort."""

    def __init__(self, seed, modules):
        super().__init__(seed)
        self.modules, self.added = modules, []

    def module(self):
        """A module that is there, mostly."""
        return self.maybe(0.8, module=self.any.randrange(self.modules + self.happens(0.05)))

    def document(self):
        """A document, and the module that it goes to."""
        found = {'document': self.one([self.policy, self.policy_set])(self.one(IDS))} | self.module()
        self.added.append(found)
        return found

    def again(self):
        """A document of the kind, id and version of one that was added, in its module."""
        module = dict(self.one(self.added or [self.document()]))
        ((kind, old),) = module.pop('document').items()
        ((_, new),) = (self.policy if kind == 'Policy' else self.policy_set)(old[f'{kind}Id']).items()
        return {'document': {kind: new | {'Version': old['Version']}}} | module

    def withdrawn(self):
        """What names a document that was added."""
        module = self.again()
        ((kind, body),) = module.pop('document').items()
        return {'kind': kind, 'id': body[f'{kind}Id'], 'version': body['Version']} | module

    def row(self):
        category = self.one(list(CATEGORIES))
        uri, _, names = CATEGORIES[category]
        name = self.one(list(VALUES))
        keys = {'category': self.one([category, uri]), 'entity': self.one(names + ['nobody']), 'attribute': self.one(ATTRIBUTES), 'type': self.datatype(name)}
        return keys | {'values': self.several(3, lambda: self.one(VALUES[name]))} | self.maybe(0.3, issuer=self.one(ISSUERS)) | self.module()

    def command(self):
        """A random edit with its keys."""
        sort = self.one(list(NAMES))

        def name():
            return {'name': self.one(NAMES[sort])}

        day = ('day.set', lambda: {'day': self.one(VALUES['date'] + [None])})
        moment = ('moment.set', lambda: {'moment': self.one(VALUES['dateTime'] + [None])})
        root = ('root.set', lambda: {'reference': self.reference() if self.happens(0.8) else None})
        documents = [('policy.add', self.document)] * 4 + [('policy.replace', self.again), ('policy.withdraw', self.withdrawn)]
        names = [(f'{sort}.add', name)] * 3 + [(f'{sort}.drop', name)]
        command, keys = self.one(names + [('attr.set', self.row)] * 5 + documents + [root, self.one([day, moment])])
        return self.shuffled({'do': command} | keys())

    def line(self):
        """The text of a random edit, or of something else now and then."""
        return self.one(OTHERS) if self.happens(0.02) else json.dumps(self.command(), separators=(',', ':'), ensure_ascii=self.happens(0.5))
