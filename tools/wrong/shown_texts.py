"""Lines and files that the program is run over, where a session or a document can't show it: what becomes of cells, of
allocations that are refused, and of tests that fail or can't be read."""
import json

# Edits that touch cells, and what is told of them then: for where one of them wants memory.
EDITED = b"""{"do":"person.add","name":"ann"}
{"do":"action.add","name":"read"}
{"do":"resource.add","name":"plan"}
{"do":"root.set","reference":{"PolicyIdReference":{"Id":"p"}}}
{"do":"policy.add","document":{"Policy":{"PolicyId":"p","Version":"1","RuleCombiningAlgId":\
"urn:oasis:names:tc:xacml:3.0:rule-combining-algorithm:deny-overrides","Rule":[{"RuleId":"r","Effect":"Permit",\
"Condition":{"Apply":{"FunctionId":"urn:oasis:names:tc:xacml:1.0:function:boolean-is-in","Arguments":[\
{"AttributeValue":{"Value":true}},{"AttributeDesignator":{"Category":\
"urn:oasis:names:tc:xacml:1.0:subject-category:access-subject","AttributeId":"on","DataType":"boolean"}}]}}}]}}}
{"do":"person.add","name":"bob"}
{"do":"attr.set","category":"AccessSubject","entity":"ann","attribute":"since","type":"date","values":["2026-01-01"]}
{"do":"attr.set","category":"AccessSubject","entity":"ann","attribute":"on","type":"boolean","values":["true"]}
{"do":"cells","person":"bob"}
{"do":"cells","person":"ann"}
{"do":"attributes","category":"AccessSubject","entity":"ann"}
""".replace(b'\\\n', b'')
STATE = b''.join(b'{"do":"%s.add","name":"%s%d"}\n' % (sort, sort[:1], number)
                 for number in range(2) for sort in [b'action', b'resource', b'person'])
MANY = STATE + b"""{"do":"root.set","reference":{"PolicyIdReference":{"Id":"p"}}}
{"do":"resource.add","name":"r2"}
{"do":"person.add","name":"p2"}
{"do":"cells","person":"p0","resource":"r0"}
{"do":"cells","person":"p2"}
{"do":"cells","action":"a0","resource":"r2"}
{"do":"who","action":"a0","resource":"r0"}
{"do":"counts"}
"""
# A policy that reads what is held of an action; one more person, and another value of that action.
OF_ACTIONS = b'\n'.join(json.dumps(line).encode() for line in [
    {'do': 'policy.add', 'document': {'Policy': {
        'PolicyId': 'p', 'Version': '1',
        'RuleCombiningAlgId': 'urn:oasis:names:tc:xacml:3.0:rule-combining-algorithm:deny-overrides',
        'Rule': [{'RuleId': 'r', 'Effect': 'Permit', 'Condition': {'Apply': {
            'FunctionId': 'urn:oasis:names:tc:xacml:1.0:function:boolean-is-in',
            'Arguments': [{'AttributeValue': {'Value': True}}, {'AttributeDesignator': {
                'Category': 'urn:oasis:names:tc:xacml:3.0:attribute-category:action',
                'AttributeId': 'on', 'DataType': 'boolean'}}]}}}]}}},
    {'do': 'root.set', 'reference': {'PolicyIdReference': {'Id': 'p'}}},
    {'do': 'action.add', 'name': 'read'}, {'do': 'resource.add', 'name': 'plan'},
    *[{'do': 'person.add', 'name': f'p{number}'} for number in range(6)],
    {'do': 'attr.set', 'category': 'Action', 'entity': 'read', 'attribute': 'on', 'type': 'boolean', 'values': [True]},
    {'do': 'who', 'action': 'read', 'resource': 'plan'}]) + b'\n'
# Most of many people leave, and one of those who stay gets another answer.
LEAVING = EDITED.split(b'{"do":"person.add","name":"bob"}')[0] + b''.join(
    b'{"do":"person.%s","name":"p%d"}\n' % (word, number) for word, count in [(b'add', 250), (b'drop', 230)]
    for number in range(count)) + b"""{"do":"action.add","name":"write"}
{"do":"attr.set","category":"AccessSubject","entity":"p240","attribute":"on","type":"boolean","values":[true]}
{"do":"action.drop","name":"read"}
{"do":"attr.set","category":"AccessSubject","entity":"p241","attribute":"on","type":"boolean","values":[true]}
{"do":"table"}
{"do":"day.set","day":"2026-01-01"}
{"do":"root.set","reference":null}
{"do":"counts"}
{"do":"work"}
"""
def asking(action, numbers):
    """A rule that asks for many attributes of a person, of one action."""
    subject = 'urn:oasis:names:tc:xacml:1.0:subject-category:access-subject'
    function = 'urn:oasis:names:tc:xacml:1.0:function:'
    asked = [{'AttributeDesignator': {'Category': subject, 'AttributeId': f'a{number}', 'DataType': 'boolean'}}
             for number in numbers]
    arguments = [{'Apply': {'FunctionId': f'{function}boolean-is-in', 'Arguments': [
        {'AttributeValue': {'Value': True}}, one]}} for one in asked]
    match = {'MatchId': f'{function}string-equal', 'AttributeValue': {'Value': action}, 'AttributeDesignator': {
        'Category': 'urn:oasis:names:tc:xacml:3.0:attribute-category:action',
        'AttributeId': 'urn:oasis:names:tc:xacml:1.0:action:action-id', 'DataType': 'string'}}
    return {'RuleId': action, 'Effect': 'Permit', 'Target': {'AnyOf': [{'AllOf': [{'Match': [match]}]}]},
            'Condition': {'Apply': {'FunctionId': f'{function}or', 'Arguments': arguments}}}


# So many questions that their numbers go beyond those of one word.
QUESTIONS = [{'do': 'policy.add', 'document': {'Policy': {
    'PolicyId': 'p', 'Version': '1',
    'RuleCombiningAlgId': 'urn:oasis:names:tc:xacml:3.0:rule-combining-algorithm:deny-overrides',
    'Rule': [asking('read', range(40)), asking('write', range(40, 80))]}}},
    {'do': 'root.set', 'reference': {'PolicyIdReference': {'Id': 'p'}}}]
QUESTIONS += [{'do': f'{sort}.add', 'name': name} for sort, name in [
    ('resource', 'plan'), ('action', 'read'), ('action', 'write'), ('person', 'ann')]]
for attribute in ['a79', 'a10']:
    QUESTIONS += [{'do': 'attr.set', 'category': 'AccessSubject', 'entity': 'ann', 'attribute': attribute,
                   'type': 'boolean', 'values': [True]}, {'do': 'can', 'person': 'ann'}]


def held(category, attribute, value):
    """Whether a value is among those of an attribute of a category, by its last words."""
    return {'Apply': {'FunctionId': 'urn:oasis:names:tc:xacml:1.0:function:string-is-in', 'Arguments': [
        {'AttributeValue': {'Value': value}},
        {'AttributeDesignator': {'Category': category, 'AttributeId': attribute, 'DataType': 'string'}}]}}


def permitting(*conditions):
    """A policy that permits where one of some conditions is so, which are looked at in their order."""
    either = {'Apply': {'FunctionId': 'urn:oasis:names:tc:xacml:1.0:function:or', 'Arguments': list(conditions)}}
    return {'Policy': {'PolicyId': 'p', 'Version': '1', 'RuleCombiningAlgId':
                       'urn:oasis:names:tc:xacml:3.0:rule-combining-algorithm:deny-overrides',
                       'Rule': [{'RuleId': 'r', 'Effect': 'Permit', 'Condition': either}]}}


def valued(category, entity, attribute, *values):
    """The line that sets values of an attribute."""
    return {'do': 'attr.set', 'category': category, 'entity': entity, 'attribute': attribute, 'type': 'string',
            'values': list(values)}


PERSON = 'urn:oasis:names:tc:xacml:1.0:subject-category:access-subject'
ROLE = held(PERSON, 'role', 'doctor')
BEGUN = [{'do': 'root.set', 'reference': {'PolicyIdReference': {'Id': 'p'}}}, {'do': 'action.add', 'name': 'read'}]
# Six cells come with one name, each of which reads other values, and then those of another name.
SIX = [{'do': 'policy.add', 'document': permitting(
    ROLE, held('urn:oasis:names:tc:xacml:3.0:attribute-category:resource', 'label', 'open'))}, *BEGUN]
for number in range(6):
    SIX += [valued('Resource', f'r{number}', 'label', f'label {number}'), {'do': 'resource.add', 'name': f'r{number}'}]
for person, role in [('ann', 'doctor'), ('bob', 'nurse'), ('cat', 'doctor')]:
    SIX += [valued('AccessSubject', person, 'role', role), {'do': 'person.add', 'name': person}]
SIX += [{'do': 'can', 'person': 'cat'}, {'do': 'counts'}]
# A policy that reads more moves the cells of four people, and another one gives them another answer then.
MORE = [{'do': 'policy.add', 'document': permitting(ROLE)}, *BEGUN, {'do': 'resource.add', 'name': 'plan'}]
for number in range(4):
    MORE += [valued('AccessSubject', f'p{number}', 'role', 'doctor', f'role {number}'),
             {'do': 'person.add', 'name': f'p{number}'}]
MORE += [{'do': 'policy.replace', 'document': permitting(*conditions)} for conditions in [
    [held(PERSON, 'clearance', 'high'), ROLE], [held(PERSON, 'role', 'surgeon')]]]
MORE += [{'do': 'who', 'action': 'read', 'resource': 'plan'}]
# Tests that fail, each in a way of its own.
FAILING = 'tools/wrong/failing.txt'
# A test that asks, and one that tells how many evaluations there were.
COUNTING = b'# asks\n> {"do":"ask","request":{"Request":{}}}\n~ {}\n# counts\n> {"do":"work"}\n= {"evaluations":0}\n'
# What is run by these names: the words of the program, and what it reads, as FILE or as its input.
TEXTS = {
    'failing tests': ('test FILE', None),
    'failing tests as JUnit': ('test --junit /dev/stdout FILE', None),
    'failing tests listed': ('test --list FILE', None),
    'reply before a line': ('test FILE', b'# one\n< {}\n'),
    'reply before a heading': ('test FILE', b'< {}\n# one\n> {"do":"counts"}\n< {}\n'),
    'heading over nine modules': ('test FILE', b'# one 9\n> {"do":"work"}\n< {"evaluations":0}\n'),
    'line in no form': ('test FILE', b'# one\n> {"do":"work"}\n< {"evaluations":0}\nno\n'),
    'line without an end': ('serve', b'{"do":"work"}\n{"do":"work"}'),
    'more people than may be': ('serve --people 1', b'{"do":"person.add","name":"ann"}\n'
                                                    b'{"do":"person.add","name":"bob"}\n'),
    'edits': ('serve', EDITED),
    'edits of many cells': ('serve', MANY),
    'people who leave': ('serve', LEAVING),
    'values of an action': ('serve', OF_ACTIONS),
    'a name with six cells': ('serve', b'\n'.join(json.dumps(line).encode() for line in SIX) + b'\n'),
    'cells that read more': ('serve', b'\n'.join(json.dumps(line).encode() for line in MORE) + b'\n'),
    'many questions': ('serve', b'\n'.join(json.dumps(line).encode() for line in QUESTIONS) + b'\n'),
    'a state compared with itself': ('compare FILE /dev/null', STATE),
    'one test listed': ('test --list --run one FILE', b'# one\n> {"do":"work"}\n< {"evaluations":0}\n'),
    'one line': ('serve', b'{"do":"work"}\n'),
    'no JSON checked': ('check --all FILE', b'no\n'),
    'no dump': ('lines', b'{"dump":["a","b\\nc"]}\n'),
    'front of a dump': ('lines', b'{"dump":["a","b"]'),
    'file that is no state': ('compare FILE FILE', b'no\n'),
}


RULES = 'urn:oasis:names:tc:xacml:3.0:rule-combining-algorithm:deny-overrides'
POLICIES = 'urn:oasis:names:tc:xacml:3.0:policy-combining-algorithm:'


def testing(name, attribute, effect):
    """A policy that tests one attribute of a person."""
    return {'Policy': {'PolicyId': name, 'Version': '1', 'RuleCombiningAlgId': RULES, 'Rule': [{
        'RuleId': 'r', 'Effect': effect, 'Condition': {'Apply': {
            'FunctionId': 'urn:oasis:names:tc:xacml:1.0:function:string-is-in',
            'Arguments': [{'AttributeValue': {'Value': 'x'}}, {'AttributeDesignator': {
                'Category': 'urn:oasis:names:tc:xacml:1.0:subject-category:access-subject',
                'AttributeId': attribute, 'DataType': 'string'}}]}}}]}}


def set_of(name, algorithm, *children):
    """A set of policies."""
    return {'PolicySet': {'PolicySetId': name, 'Version': '1', 'PolicyCombiningAlgId': POLICIES + algorithm,
                          'Children': list(children)}}


def row(person, attribute, *values):
    """The line that gives a person values of an attribute."""
    return {'do': 'attr.set', 'category': 'AccessSubject', 'entity': person, 'attribute': attribute, 'type': 'string',
            'values': list(values)}


def joined(*children, before=()):
    """Lines after which answers are joined: no two people have the same values, the first 70 fail all tests, and behind
    them come those who pass some, each in a way of its own. Then they get other values that pass no test."""
    passed = set_of('passed', 'deny-overrides', testing('c', 'c', 'Permit'))
    decided = set_of('decided', 'deny-overrides', testing('a', 'a', 'Deny'), passed)
    root = set_of('root', 'permit-overrides', *before, decided, testing('d', 'd', 'Permit'), *children)
    found = [{'do': 'policy.add', 'document': root}]
    found += [{'do': 'policy.add', 'document': testing(name, 'e', 'Deny')} for name in ['first', 'second']]
    found += [{'do': 'root.set', 'reference': {'PolicySetIdReference': {'Id': 'root'}}}]
    found += [{'do': 'action.add', 'name': 'read'}, {'do': 'resource.add', 'name': 'plan'}]
    for number in range(86):
        ways = [attribute for at, attribute in enumerate('acde') if max(number - 70, 0) >> at & 1]
        found += [row(f'p{number}', attribute, f'v{number}', *(['x'] if attribute in ways else []))
                  for attribute in 'acde']
        found += [{'do': 'person.add', 'name': f'p{number}'}]
    found += [{'do': 'table'}, {'do': 'faults'}]
    return found + [row(f'p{number}', 'c', 'z') for number in range(70, 86)] + [{'do': 'work'}]


def refers(name):
    """A reference to a policy."""
    return {'PolicyIdReference': {'Id': name}}


def exchanged():
    """The same, and then again under another set, whose reference finds another policy; that one is replaced."""
    found = joined(refers('first'))
    root = found[0]['document']['PolicySet']
    for number in range(12):
        children = [*root['Children'][:2], refers('second' if number % 2 else 'first')]
        other = {**root, 'Description': str(number), 'Children': children}
        found += [{'do': 'policy.replace', 'document': {'PolicySet': other}}]
    found += [row(f'p{number}', attribute, f'w{number}', 'x') for number in range(16) for attribute in 'acde'
              if number >> 'acde'.index(attribute) & 1]
    found += [{'do': 'table'}, {'do': 'policy.replace', 'document': testing('second', 'e', 'Permit')}]
    return [*found, {'do': 'table'}]


def failing():
    """The same with a test that comes to false, and that fails of those who lack a value and comes to false too."""
    function = 'urn:oasis:names:tc:xacml:1.0:function:'
    both = testing('both', 'e', 'Permit')
    rule = both['Policy']['Rule'][0]
    held = {'AttributeDesignator': {'Category': 'urn:oasis:names:tc:xacml:1.0:subject-category:access-subject',
                                    'AttributeId': 'b', 'DataType': 'string'}}
    only = {'Apply': {'FunctionId': f'{function}string-one-and-only', 'Arguments': [held]}}
    equal = {'Apply': {'FunctionId': f'{function}string-equal',
                       'Arguments': [only, {'AttributeValue': {'Value': 'x'}}]}}
    rule['Condition'] = {'Apply': {'FunctionId': f'{function}and', 'Arguments': [equal, rule['Condition']]}}
    return [*(row(f'p{number}', 'b', 'x') for number in range(70)), *joined(both)]


def one_alone():
    """The same under a set of which one policy alone may apply, over which no answer is joined."""
    found = joined()
    root = found[0]['document']['PolicySet']
    root['PolicyCombiningAlgId'] = 'urn:oasis:names:tc:xacml:1.0:policy-combining-algorithm:only-one-applicable'
    root['Children'] = [testing('a', 'a', 'Permit')]
    root['Children'][0]['Policy']['Target'] = asking('read', [])['Target']
    return found


def as_text(lines):
    """Lines as the program reads them."""
    return ''.join(json.dumps(line) + '\n' for line in lines).encode()


TEXTS |= {
    'joined answers': ('serve', as_text(joined())),
    'joined answers of a reference': ('serve', as_text(joined(refers('first')))),
    'joined answers behind nothing found': ('serve', as_text(joined(before=[refers('none')]))),
    'joined answers of nothing found': ('serve', as_text(joined(refers('none')))),
    'joined answers of a test that fails': ('serve', as_text(failing())),
    'answers under a set of one alone': ('serve', as_text(one_alone())),
    'joined answers under another set': ('serve', as_text(exchanged())),
}
