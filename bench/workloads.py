"""The workloads of `run.py`: each a generator of lines."""
import json

RULE_ALGORITHM = 'urn:oasis:names:tc:xacml:3.0:rule-combining-algorithm:'
FUNCTION = 'urn:oasis:names:tc:xacml:1.0:function:'
ACTION = 'urn:oasis:names:tc:xacml:3.0:attribute-category:action'
ACTION_ID = 'urn:oasis:names:tc:xacml:1.0:action:action-id'

PEOPLE = [f'person-{i:03}' for i in range(256)]
ACTIONS = ['read', 'write', 'approve', 'delete']
RESOURCES = [f'resource-{i:02}' for i in range(64)]


def line(command, **keys):
    return json.dumps({'do': command, **keys}, separators=(',', ':'))


def lists(people=PEOPLE):
    """The names: actions and resources first, so that the table is built person by person."""
    yield from (line('action.add', name=name) for name in ACTIONS)
    yield from (line('resource.add', name=name) for name in RESOURCES)
    yield from (line('person.add', name=name) for name in people)


def action_is(name):
    """A target of requests with that action."""
    return {'AnyOf': [{'AllOf': [{'Match': [{
        'MatchId': FUNCTION + 'string-equal',
        'AttributeValue': {'Value': name},
        'AttributeDesignator': {'Category': ACTION, 'AttributeId': ACTION_ID, 'DataType': 'string'}}]}]}]}


def policy(id, rules, algorithm='deny-overrides', **parts):
    return {'Policy': {'PolicyId': id, 'Version': '1', 'RuleCombiningAlgId': RULE_ALGORITHM + algorithm, 'Rule': rules, **parts}}


def stored(document, id):
    """A document stored and made root."""
    yield line('policy.add', document=document)
    yield line('root.set', reference={'PolicyIdReference': {'Id': id}})


def one_policy():
    """65,536 cells under one policy, built person by person, and then 100,000 looks at single cells."""
    rules = [{'RuleId': name, 'Effect': 'Permit', 'Target': action_is(name)} for name in ['read', 'write']]
    yield from stored(policy('p', rules), 'p')
    yield from lists()
    for i in range(100_000):
        yield line('cell', person=PEOPLE[i * 7 % 256], action=ACTIONS[i % 4], resource=RESOURCES[i * 5 % 64])


SUBJECT = 'urn:oasis:names:tc:xacml:1.0:subject-category:access-subject'
SUBJECT_ID = 'urn:oasis:names:tc:xacml:1.0:subject:subject-id'
RESOURCE = 'urn:oasis:names:tc:xacml:3.0:attribute-category:resource'
RESOURCE_ID = 'urn:oasis:names:tc:xacml:1.0:resource:resource-id'
POLICY_ALGORITHM = 'urn:oasis:names:tc:xacml:3.0:policy-combining-algorithm:'
FIRST_APPLICABLE = 'urn:oasis:names:tc:xacml:1.0:rule-combining-algorithm:first-applicable'
FIRST_APPLICABLE_OF_POLICIES = 'urn:oasis:names:tc:xacml:1.0:policy-combining-algorithm:first-applicable'
ONLY_ONE = 'urn:oasis:names:tc:xacml:1.0:policy-combining-algorithm:only-one-applicable'


def value(x):
    return {'AttributeValue': {'Value': x}}


def bag(category, id):
    return {'AttributeDesignator': {'Category': category, 'AttributeId': id, 'DataType': 'string'}}


def apply(function, *arguments):
    return {'Apply': {'FunctionId': FUNCTION + function, 'Arguments': list(arguments)}}


def hundred_conditions():
    """65,536 cells under 100 rules whose conditions use five functions each, evaluated ten times."""
    def condition(i):
        somebody = apply('string-equal', apply('string-one-and-only', bag(SUBJECT, SUBJECT_ID)), value(PEOPLE[i]))
        return apply('and', apply('string-is-in', value(RESOURCES[i % 64]), bag(RESOURCE, RESOURCE_ID)), apply('not', somebody))
    rules = [{'RuleId': f'r{i}', 'Effect': 'Permit', 'Condition': condition(i)} for i in range(100)]
    yield line('policy.add', document=policy('p', rules))
    yield from lists()
    for _ in range(10):
        yield line('root.set', reference={'PolicyIdReference': {'Id': 'p'}})


def checked_nodes():
    """A document of 65,536 expression nodes, stored under 40 names."""
    literals = [value(True)] * 62
    variables = [{'VariableId': 'v', 'Expression': apply('or', *literals)}]
    reference = {'VariableReference': {'VariableId': 'v'}}
    # A definition of 63 nodes, and rules that refer to it: each reference adds 63 nodes and its own.
    rules = [{'RuleId': f'r{i}', 'Effect': 'Permit', 'Condition': apply('or', *[reference] * 4)} for i in range(254)]
    rules.append({'RuleId': 'rest', 'Effect': 'Permit', 'Condition': apply('or', *[value(True)] * (65_536 - 63 - 254 * 257 - 1))})
    for i in range(40):
        yield line('policy.add', document=policy(f'p{i}', rules, VariableDefinition=variables))


def checked_bytes():
    """A document of as many nodes, of which a line takes as many as it can, stored under 4 names."""
    variables = [{'VariableId': 'v', 'Expression': apply('or', *[value(True)] * 62)}]
    reference = {'VariableReference': {'VariableId': 'v'}}
    # 111 nodes a rule are written out, and 580 references of 64 nodes add the rest.
    rules = [{'RuleId': f'r{i}', 'Effect': 'Permit',
              'Condition': apply('or', *[value(True)] * 110, *[reference] * (3 if i < 70 else 2))} for i in range(255)]
    for i in range(4):
        yield line('policy.add', document=policy(f'p{i}', rules, VariableDefinition=variables))


def resource_is(name):
    return {'AnyOf': [{'AllOf': [{'Match': [{
        'MatchId': FUNCTION + 'string-equal',
        'AttributeValue': {'Value': name},
        'AttributeDesignator': {'Category': RESOURCE, 'AttributeId': RESOURCE_ID, 'DataType': 'string'}}]}]}]}


def combined_sets():
    """65,536 cells under a set of 20 policies of 5 rules, in each algorithm."""
    shared = ['deny-overrides', 'permit-overrides', 'ordered-deny-overrides', 'ordered-permit-overrides',
              'deny-unless-permit', 'permit-unless-deny']
    algorithms = [(RULE_ALGORITHM + a, POLICY_ALGORITHM + a) for a in shared]
    algorithms += [(FIRST_APPLICABLE, FIRST_APPLICABLE_OF_POLICIES), (FIRST_APPLICABLE, ONLY_ONE)]
    for number, (of_rules, of_policies) in enumerate(algorithms):
        children = []
        for k in range(20):
            rules = [{'RuleId': f'r{i}', 'Effect': 'Deny' if (k + i) % 7 == 0 else 'Permit',
                      'Target': action_is(ACTIONS[(k + i) % 4])} for i in range(5)]
            child = policy(f'p{k}', rules, Target=resource_is(RESOURCES[k * 3]))
            child['Policy']['RuleCombiningAlgId'] = of_rules
            children.append(child)
        yield line('policy.add', document={'PolicySet': {
            'PolicySetId': f's{number}', 'Version': '1', 'PolicyCombiningAlgId': of_policies, 'Children': children}})
    yield from lists()
    for number in range(len(algorithms)):
        yield line('root.set', reference={'PolicySetIdReference': {'Id': f's{number}'}})


def decided(others):
    """65,536 cells under a set whose first child decides, before so many others, evaluated ten times."""
    children = [policy('first', [{'RuleId': 'ok', 'Effect': 'Permit'}])]
    for k in range(others):
        rules = [{'RuleId': f'r{i}', 'Effect': 'Deny', 'Target': action_is(ACTIONS[i % 4])} for i in range(5)]
        children.append(policy(f'p{k}', rules))
    yield line('policy.add', document={'PolicySet': {
        'PolicySetId': 's', 'Version': '1', 'PolicyCombiningAlgId': FIRST_APPLICABLE_OF_POLICIES, 'Children': children}})
    yield from lists()
    for _ in range(10):
        yield line('root.set', reference={'PolicySetIdReference': {'Id': 's'}})


def decided_alone():
    yield from decided(0)


def decided_before_many():
    yield from decided(200)


def version_of(number, version, effect='Permit'):
    """A policy of one resource in one of its versions."""
    rules = [{'RuleId': f'r{i}', 'Effect': effect, 'Target': action_is(ACTIONS[(number + i) % 4])} for i in range(2)]
    document = policy(f'p{number}', rules, Target=resource_is(RESOURCES[number * 2]))
    document['Policy']['Version'] = f'1.{version}'
    return document


def references():
    """65,536 cells under a set of 32 references to policies of 8 versions each, and then 200 replaced policies that the table uses."""
    for number in range(32):
        for version in range(8):
            yield line('policy.add', document=version_of(number, version))
    children = [{'PolicyIdReference': {'Id': f'p{number}', 'Version': '1.+'}} for number in range(32)]
    yield line('policy.add', document={'PolicySet': {
        'PolicySetId': 's', 'Version': '1', 'PolicyCombiningAlgId': POLICY_ALGORITHM + 'deny-overrides', 'Children': children}})
    yield line('root.set', reference={'PolicySetIdReference': {'Id': 's'}})
    yield from lists()
    for i in range(200):
        yield line('policy.replace', document=version_of(i % 32, 7, 'Deny' if i // 32 % 2 == 0 else 'Permit'))


def stored_many():
    """1,024 documents of one rule each, stored in no order of their ids, without a table."""
    for number in range(1024):
        yield line('policy.add', document=policy(f'p{number * 7919 % 1024}', [{'RuleId': 'r', 'Effect': 'Permit'}]))


def row(entity, attribute, values, category='AccessSubject', **keys):
    return line('attr.set', category=category, entity=entity, attribute=attribute, type='string', values=values, **keys)


def attributes():
    """65,536 cells under 20 rules with conditions over three attributes each, of 1,000 rows; then 200 rows set anew, and 20 names dropped and added."""
    def has(category, attribute, text):
        return apply('string-is-in', value(text), bag(category, attribute))
    for i, person in enumerate(PEOPLE):
        yield row(person, 'department', [f'd{i % 20}'])
        yield row(person, 'level', [f'l{i % 5}'])
    for i, resource in enumerate(RESOURCES):
        yield row(resource, 'owner', [f'd{i % 20}'], 'Resource', module=i % 2)
    for i in range(424):
        yield row(f'somebody-{i}', 'department', ['d0'])
    rules = [{'RuleId': f'r{i}', 'Effect': 'Permit', 'Condition': apply(
        'and', has(SUBJECT, 'department', f'd{i}'), has(SUBJECT, 'level', f'l{i % 5}'), has(RESOURCE, 'owner', f'd{i}'))} for i in range(20)]
    yield from stored(policy('p', rules), 'p')
    yield from lists()
    for i in range(200):
        yield row(PEOPLE[i], 'department', [f'd{(i + 1) % 20}'])
    for i in range(20):
        yield line('person.drop', name=PEOPLE[i])
        yield line('person.add', name=PEOPLE[i])


def rows(count):
    """So many rows set in two modules, in no order of their entities, without a table."""
    for i in range(count):
        yield row(f'entity-{i * 7919 % 50_000}', f'a{i // 50_000}', ['x'], module=i % 2)


def rows_half():
    yield from rows(50_000)


def rows_many():
    yield from rows(100_000)


def policy_set(id, children, algorithm='permit-overrides'):
    return {'PolicySet': {'PolicySetId': id, 'Version': '1', 'PolicyCombiningAlgId': POLICY_ALGORITHM + algorithm, 'Children': children}}


def resource_among(names):
    """A target of requests with one of those resources."""
    return {'AnyOf': [{'AllOf': [all_of for name in names for all_of in resource_is(name)['AnyOf'][0]['AllOf']]}]}


def obliged(id, effect, target):
    """A rule with an obligation of two assignments, both over attributes."""
    assignments = [{'AttributeId': 'who', 'Expression': bag(SUBJECT, SUBJECT_ID)}, {'AttributeId': 'department', 'Expression': bag(SUBJECT, 'department')}]
    return {'RuleId': id, 'Effect': effect, 'Target': target, 'ObligationExpressions': [
        {'ObligationId': f'log-{id}', 'FulfillOn': effect, 'AttributeAssignmentExpression': assignments}]}


def obligations():
    """65,536 cells under 50 rules with an obligation each, in 10 policies, each in a set of its own in the root: each why entry has a path of three. Then 1,000 looks at single cells."""
    for i, person in enumerate(PEOPLE):
        yield row(person, 'department', [f'd{i % 20}'])
    children = []
    for k in range(10):
        rules = [obliged(f'r{i}', 'Deny' if (k + i) % 7 == 0 else 'Permit', action_is(ACTIONS[(k + i) % 4])) for i in range(5)]
        children.append(policy_set(f's{k}', [policy(f'p{k}', rules, Target=resource_among(RESOURCES[k::10]))]))
    yield line('policy.add', document=policy_set('s', children, 'deny-overrides'))
    yield from lists()
    for _ in range(5):
        yield line('root.set', reference={'PolicySetIdReference': {'Id': 's'}})
    for i in range(1_000):
        yield line('cell', person=PEOPLE[i * 7 % 256], action=ACTIONS[i % 4], resource=RESOURCES[i * 5 % 64])


def department_rules(count):
    """Rules by department and action."""
    return [{'RuleId': f'r{i}', 'Effect': 'Deny' if i % 9 == 8 else 'Permit', 'Target': action_is(ACTIONS[i % 4]),
             'Condition': apply('string-is-in', value(f'd{i}'), bag(SUBJECT, 'department'))} for i in range(count)]


def asks():
    """20,000 requests under a policy of 50 rules, half of them with departments of their own, a fifth with attributes for the result."""
    for i, person in enumerate(PEOPLE):
        yield row(person, 'department', [f'd{i % 50}'])
    yield from stored(policy('p', department_rules(50), 'permit-overrides'), 'p')
    for i in range(20_000):
        subject = [{'AttributeId': SUBJECT_ID, 'Value': PEOPLE[i * 7 % 256], 'IncludeInResult': i % 5 == 0}]
        if i % 2:
            subject.append({'AttributeId': 'department', 'Value': [f'd{i % 50}', f'd{i * 3 % 50}']})
        yield line('ask', request={'Request': {
            'AccessSubject': {'Attribute': subject},
            'Action': {'Attribute': [{'AttributeId': ACTION_ID, 'Value': ACTIONS[i % 4]}]},
            'Resource': {'Attribute': [{'AttributeId': RESOURCE_ID, 'Value': RESOURCES[i * 5 % 64]}]}}})


def department_table():
    """65,536 cells under 50 rules by department and action."""
    for i, person in enumerate(PEOPLE):
        yield row(person, 'department', [f'd{i % 50}'])
    yield from stored(policy('p', department_rules(50), 'permit-overrides'), 'p')
    yield from lists()


def marks():
    """16 sessions mark a table of 65,536 cells; 200 rows are set anew, and in 16 rounds among them each session asks for its notices."""
    yield from department_table()
    for session in range(16):
        yield line('mark', session=session)
    for i in range(200):
        yield row(PEOPLE[i], 'department', [f'd{(i + 1) % 50}'])
        if i * 16 // 200 != (i + 1) * 16 // 200:
            yield from (line('notices', session=session) for session in range(16))


def reports():
    """Reports on 65,536 cells: counts, what each person can, who can each action on each resource, the cells of each rule; each five times."""
    yield from department_table()
    for _ in range(5):
        yield from (line('counts') for _ in range(200))
        yield from (line('can', person=person) for person in PEOPLE)
        yield from (line('who', action=action, resource=resource) for action in ACTIONS for resource in RESOURCES)
        yield from (line('by_rule', policy='p', rule=f'r{i}') for i in range(50))


ALL = {
    'one-policy': one_policy,
    'hundred-conditions': hundred_conditions,
    'checked-nodes': checked_nodes,
    'checked-bytes': checked_bytes,
    'combined-sets': combined_sets,
    'decided-alone': decided_alone,
    'decided-before-many': decided_before_many,
    'references': references,
    'stored-many': stored_many,
    'attributes': attributes,
    'rows-half': rows_half,
    'rows-many': rows_many,
    'obligations': obligations,
    'asks': asks,
    'marks': marks,
    'reports': reports,
}
