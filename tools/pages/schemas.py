#!/usr/bin/env python3
"""Writes JSON Schemas (2020-12) of what people write: documents, requests, lines, and what tests expect. Editors
complete and mark by them as one types. They are made of the tables that the reader itself goes by: which keys a part
has (lint_places), which it must have (lint_messages), which functions, algorithms and types there are (ent_functions,
ent_combine, ent_values), and which keys a command has (ent_command).

    schemas.py             writes tools/schemas/
    schemas.py --check     says whether they are up to date, and whether tools/xacml_form/names.py has the reader's
                           functions and types; fails if not

A schema knows the form alone. What the reader refuses besides stands in REASONS, and tools/try_schemas.py sees that
there is nothing else."""
import itertools
import json
import pathlib
import re
import sys

sys.dont_write_bytecode = True
ROOT = pathlib.Path(__file__).resolve().parents[2]
sys.path.append(str(ROOT / 'tools'))
import commands  # noqa: E402
from xacml_form import names  # noqa: E402

CRATES = ROOT / 'crates'
SCHEMAS = ROOT / 'tools' / 'schemas'

# By sub-code: what of a document no schema can tell. Sub-codes that aren't here (9 form, 3 algorithm, 1 function) are
# told by the schema, but for FORM.
REASONS = {
    8: 'an identifier is counted in bytes, and a schema counts characters; two rules have one id',
    4: 'variables are defined and used in different places',
    6: 'nodes and references are counted over the whole document',
    5: 'levels are counted over the whole document',
    2: 'types of arguments follow from the functions; a date has its calendar',
}
FORM = 'a whole number is written without point, exponent and, where it counts something, sign; to a schema 1.0 is one'
REQUEST = 'a category stands twice, a value is none of its type, or a name has too many bytes'


def source(crate, name):
    return (CRATES / crate / 'src' / f'{name}.rt').read_text()


def parted(pattern, text, of):
    """All that a pattern finds there; that nothing is found means that the table has another shape than is known."""
    found = re.findall(pattern, text, re.S)
    if not found:
        sys.exit(f'{of} has another shape than this script knows')
    return found


# ---- the tables of the reader

def key_value(text):
    """The rows of a table of keys: of each the key and the part that stands there."""
    return re.findall(r'\("(\w+)", Part::(\w+)\)', text)


def parts():
    """Of each part that is an object its keys with their parts, and of each that is a list the part of a member."""
    text = source('lint_places', 'part')
    named = {name: key_value(rows) for name, rows in parted(r'const (\w+): [^=]+= &\[(.*?)\];', text, 'part.rt')}
    objects, lists = {}, {}
    rows, items = text.split('pub fn rows', 1)[1].split('pub fn item', 1)
    for names, to in parted(r'(Part::[\w:| \n]+?) => (\w+|&\[.*?\]),', rows, 'Part::rows'):
        for name in re.findall(r'Part::(\w+)', names):
            objects[name] = named[to] if to in named else key_value(to)
    for name, member in parted(r'Part::(\w+) => Some\(Part::(\w+)\)', items, 'Part::item'):
        lists[name] = member
    return objects, lists


def described():
    """What each part is for, as editors show it."""
    enum = source('lint_places', 'part').split('pub enum Part {', 1)[1].split('\n}', 1)[0]
    return {name: told for told, name in parted(r'/// ([^\n]+)\.\n    (\w+),', enum, 'Part')}


def required():
    """Of each part the keys that it must have."""
    text = source('lint_messages', 'form').split('fn required_keys', 1)[1].split('\n}', 1)[0]
    keys = {}
    for names, listed in parted(r'(Part::[\w:| ]+?) => &\[(.*?)\]', text, 'required_keys'):
        for name in re.findall(r'Part::(\w+)', names):
            keys[name] = re.findall(r'"(\w+)"', listed)
    return keys


def functions():
    """The URIs of all functions."""
    text = source('ent_functions', 'identifiers')
    element = re.findall(r'Element::\w+ => "(\w+)"', text)
    ordered = re.findall(r'Ordered::\w+ => "(\w+)"', text)
    compared = re.findall(r'Comparison::\w+ => "([\w-]+)"', text)
    prefixes = {}
    body = text.split('fn prefix', 1)[1].split('fn type_word', 1)[0]
    for names, prefix in parted(r'((?:Function::\w+[\s|]*)+|_) => "([^"]+)"', body, 'Function::prefix'):
        for name in re.findall(r'Function::(\w+)', names) or ['_']:
            prefixes[name] = prefix
    found = []
    body = text.split('fn operation', 1)[1].split('\n    }\n', 1)[0]
    for name, given, word in re.findall(r'Function::(\w+)(\([^)]*\))? => (?:"([\w-]+)"|comparison)', body):
        words = [word] if word else compared
        types = [''] if not given else ordered if name == 'Compare' else element
        found += [prefixes.get(name, prefixes['_']) + kind + end for kind, end in itertools.product(types, words)]
    if len(found) != len(set(found)):
        sys.exit('identifiers.rt names a function twice')
    return found


def algorithms(kind):
    """The URIs of the algorithms that combine rules, or policies."""
    found = re.findall(rf'"(urn:[^"]+:{kind}-combining-algorithm:[^"]+)"', source('ent_combine', 'identifiers'))
    return list(dict.fromkeys(found))


def types():
    """The short names of the types, and their URIs."""
    uris = parted(r'DataType::\w+ => "([^"]+#\w+)"', source('ent_values', 'datatype'), 'datatype.rt')
    return [uri.rsplit('#', 1)[1] for uri in uris] + uris


# ---- the schemas

def text(**more):
    return {'type': 'string', **more}


def listed(member, most=256, least=0):
    return {'type': 'array', 'items': member, 'maxItems': most} | ({'minItems': least} if least else {})


def closed(properties, needed=(), **more):
    """An object with those keys and no other."""
    shape = {'type': 'object', 'properties': properties, 'additionalProperties': False}
    return shape | ({'required': list(needed)} if needed else {}) | more


def part(name):
    return {'$ref': f'#/$defs/{name}'}


# 5.12, 5.13: eight numbers of nine digits each; in a pattern `*` is any number, and a `+` at its end what follows.
NUMBER = '[0-9]{1,9}'
VERSION = f'^{NUMBER}([.]{NUMBER}){{0,7}}$'
PATTERN = f'^(([*]|{NUMBER})[.]){{0,7}}([*]|[+]|{NUMBER})$'
WHOLE = {'type': 'integer', 'minimum': -(2**63), 'maximum': 2**63 - 1}
NAME = text(minLength=1, maxLength=256)
LEAVES = {
    'Name': NAME,
    'Description': text(),
    'Version': text(pattern=VERSION),
    'Pattern': text(pattern=PATTERN),
    'Literal': {'anyOf': [text(), {'type': 'boolean'}, WHOLE]},
    'Effect': {'enum': ['Permit', 'Deny']},
    'Flag': {'type': 'boolean'},
}
# An object of which exactly one key is there.
ONE_KEY = ('Document', 'Child', 'Condition', 'Expression', 'Argument')
# Lists that have a member, where they stand.
NOT_EMPTY = ('AllOfs', 'Matches')


def leaves():
    return LEAVES | {
        'RuleAlgorithm': {'enum': algorithms('rule')},
        'PolicyAlgorithm': {'enum': algorithms('policy')},
        'Function': {'enum': functions()},
        'DataType': {'enum': types()},
    }


def definitions():
    """The parts of a document, each as a definition of its own."""
    objects, lists = parts()
    needed = required()
    found = leaves()
    for name, rows in objects.items():
        more = {'minProperties': 1, 'maxProperties': 1} if name in ONE_KEY else {}
        found[name] = closed({key: part(at) for key, at in rows}, needed.get(name, ()), **more)
    for name, member in lists.items():
        found[name] = listed(part(member), least=int(name in NOT_EMPTY))
    missing = {at for rows in objects.values() for _, at in rows} | set(lists.values())
    if missing - set(found):
        sys.exit(f'no schema is known of {sorted(missing - set(found))}')
    told = described()
    return {name: {'description': told[name]} | shape for name, shape in found.items()}


CATEGORIES = ('AccessSubject', 'Action', 'Resource', 'Environment', 'RecipientSubject', 'IntermediarySubject')
CATEGORIES += ('Codebase', 'RequestingMachine')


def of_one_kind():
    """The values of an attribute without a type: all texts, all booleans or all whole numbers, one or a list."""
    kinds = [text(), {'type': 'boolean'}, WHOLE]
    return {'anyOf': [part('Literal')] + [listed(kind) for kind in kinds]}


def one_or_list(member, most=256):
    return {'anyOf': [member, listed(member, most)]}


def request_definitions():
    """The parts of a request of the JSON profile, as docs/REQUESTS.md has it."""
    attribute = closed(
        {
            'AttributeId': NAME,
            'Value': {'anyOf': [part('Literal'), listed(part('Literal'))]},
            'DataType': part('DataType'),
            'Issuer': NAME,
            'IncludeInResult': {'type': 'boolean'},
        },
        ['AttributeId', 'Value'],
    )
    attribute['if'] = {'not': {'required': ['DataType']}}
    attribute['then'] = {'properties': {'Value': part('OfOneKind')}}
    body = {'Id': text(), 'Attribute': one_or_list(part('Attribute'))}
    keys = {name: one_or_list(part('Named'), 1) for name in CATEGORIES}
    keys['Category'] = one_or_list(part('Category'))
    keys |= {'ReturnPolicyIdList': {'const': False}, 'CombinedDecision': {'const': False}, 'XPathVersion': text()}
    return {
        'Request': closed({'Request': closed(keys)}, ['Request']),
        'Named': closed(body),
        'Category': closed({'CategoryId': NAME} | body, ['CategoryId']),
        'Attribute': attribute,
        'OfOneKind': of_one_kind(),
    }


REFERENCE = {'PolicyIdReference': part('PolicyReference'), 'PolicySetIdReference': part('SetReference')}
URIS = {
    'AccessSubject': 'urn:oasis:names:tc:xacml:1.0:subject-category:access-subject',
    'Action': 'urn:oasis:names:tc:xacml:3.0:attribute-category:action',
    'Resource': 'urn:oasis:names:tc:xacml:3.0:attribute-category:resource',
}
NUMBER_FROM_0 = {'type': 'integer', 'minimum': 0, 'maximum': 2**64 - 1}
DECISIONS = ['Permit', 'Deny', 'NotApplicable', 'Indeterminate{P}', 'Indeterminate{D}', 'Indeterminate{DP}']
# What stands at a key of a line, whichever command has it; the formal part is the program's.
AT_KEY = {
    'session': NUMBER_FROM_0 | {'maximum': 15},
    'module': NUMBER_FROM_0,
    'category': {'enum': [word for pair in URIS.items() for word in pair]},
    'type': part('DataType'),
    'values': listed(part('Literal')),
    'day': {'type': ['string', 'null']},
    'moment': {'type': ['string', 'null']},
    'rule': {'type': ['string', 'null']},
    'document': part('Document'),
    'documents': {'type': 'boolean'},
    'kind': {'enum': ['Policy', 'PolicySet']},
    'reference': {'anyOf': [closed(REFERENCE, minProperties=1, maxProperties=1), {'type': 'null'}]},
    'request': part('Request'),
    'decisions': {'type': 'array', 'items': {'enum': DECISIONS}},
    'version': NUMBER_FROM_0,
    'since': NUMBER_FROM_0,
    'list': {'enum': ['people', 'actions', 'resources']},
    'from': NUMBER_FROM_0,
    'count': NUMBER_FROM_0,
}
# The keys that may be absent, by the command.
MAY_BE_ABSENT = {
    'attr.set': ['module', 'issuer'],
    'policy.add': ['module'],
    'policy.replace': ['module'],
    'policy.withdraw': ['module'],
    'dump': ['version'],
    'cells': ['person', 'action', 'resource', 'decisions'],
    'documents': ['id'],
    'names': ['from', 'count'],
}


def command(form):
    """A line of that command: `do`, `session` and its keys."""
    word, keys = form['word'], form['keys']
    at = {key: AT_KEY.get(key, text()) for key in keys}
    if word == 'policy.withdraw':
        at['version'] = text()
    properties = {'do': {'const': word}, 'session': AT_KEY['session']} | at
    if word == 'explain':
        # Of a listed request, or of one that is told.
        told = [key for key in keys if key in ('person', 'action', 'resource')]
        ways = [{'required': told, 'not': {'required': ['request']}}]
        ways += [{'required': ['request']} | {'not': {'anyOf': [{'required': [key]} for key in told]}}]
        return closed(properties, ['do'], oneOf=ways)
    needed = ['do'] + [key for key in keys if key not in MAY_BE_ABSENT.get(word, ())]
    return closed(properties, needed)


def lines():
    return [command(form) for form in commands.commands(commands.ASKED.read_text())]


ANSWERS = ['Response', 'attributes', 'by_rule', 'can', 'cell', 'cells', 'counts', 'documents', 'dump', 'evaluations']
ANSWERS += ['explain', 'faults', 'format', 'limits', 'mark', 'names', 'notices', 'state', 'table', 'who']


def reply():
    """A reply as a test expects it, whole or a part of one."""
    refusal = {'refused': {'type': 'integer', 'minimum': 1, 'maximum': 15}}
    refusal |= {'sub': {'type': 'integer', 'minimum': 1, 'maximum': 9}}
    answer = {'type': 'object', 'propertyNames': {'enum': ANSWERS}, 'maxProperties': 1}
    # How many requests have another answer, or which.
    counted = {'changes': NUMBER_FROM_0 | {'type': ['integer', 'array']}, 'serial': NUMBER_FROM_0}
    return {'anyOf': [closed(refusal, ['refused']), closed(counted), answer]}


def schema(title, shape, known):
    """A schema that stands by itself: with those definitions that it leads to."""
    kept, left = {}, [shape]
    while left:
        for name in re.findall(r'#/\$defs/(\w+)', json.dumps(left.pop())):
            if name not in kept:
                kept[name] = known[name]
                left.append(known[name])
    order = {name: kept[name] for name in known if name in kept}
    head = {'$schema': 'https://json-schema.org/draft/2020-12/schema', 'title': title}
    if 'Document' in order or 'Request' in order:
        head['$comment'] = 'What is refused besides: ' + '; '.join(besides(order))
    return head | shape | {'$defs': order}


def besides(known):
    """What of these parts no schema can tell."""
    if 'Document' in known:
        yield from REASONS.values()
    if 'Request' in known:
        yield REQUEST
    yield FORM


def written():
    """Each file's name with its schema."""
    known = definitions() | request_definitions()
    return {
        'document': schema('A policy or a policy set', part('Document'), known),
        'request': schema('A request', part('Request'), known),
        'line': schema('A line', {'type': 'object', 'required': ['do'], 'oneOf': lines()}, known),
        'reply': schema('What a test expects', reply(), known),
    }


def other_names():
    """What the XML tool's own lists have that the reader hasn't, or lack."""
    for told, ours, theirs in [('functions', functions(), names.HERE_FUNCTIONS),
                               ('types', types(), [*names.HERE_TYPES, *names.HERE_TYPES.values()])]:
        other = sorted(set(ours) ^ set(theirs))
        if other:
            yield f'tools/xacml_form/names.py has other {told} than the reader: {", ".join(other)}'


def main():
    wrong = list(other_names()) if sys.argv[1:] == ['--check'] else []
    for name, shape in written().items():
        path = SCHEMAS / f'{name}.json'
        said = json.dumps(shape, indent=1) + '\n'
        if sys.argv[1:] == ['--check']:
            if not path.exists() or path.read_text() != said:
                wrong.append(f'{path.relative_to(ROOT)} is not up to date: tools/pages/schemas.py writes it')
        else:
            SCHEMAS.mkdir(exist_ok=True)
            path.write_text(said)
    print('\n'.join(wrong), end='\n' if wrong else '')
    return 1 if wrong else 0


if __name__ == '__main__':
    sys.exit(main())
