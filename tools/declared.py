#!/usr/bin/env python3
"""declared.py [--values N] [STATE]: writes a list of attributes, as `review check --attributes` reads it, from a dump.

Each attribute of an `attr.set` line is declared once, with its values where there are at most N of them (32 without the
option); so are the names of actions and resources, as the values of their ids. Values of which others are to come
aren't listed: days and moments, and names of people. Without STATE the lines stand on standard input. The list says
what the state has, so read it before policies are compared with it: what is misspelled there stands in it too."""
import argparse
import json
import sys

CATEGORIES = {
    'AccessSubject': 'urn:oasis:names:tc:xacml:1.0:subject-category:access-subject',
    'Action': 'urn:oasis:names:tc:xacml:3.0:attribute-category:action',
    'Resource': 'urn:oasis:names:tc:xacml:3.0:attribute-category:resource',
}

IDS = {
    'person.add': ('AccessSubject', 'urn:oasis:names:tc:xacml:1.0:subject:subject-id'),
    'action.add': ('Action', 'urn:oasis:names:tc:xacml:1.0:action:action-id'),
    'resource.add': ('Resource', 'urn:oasis:names:tc:xacml:1.0:resource:resource-id'),
}

PEOPLE = (CATEGORIES['AccessSubject'], IDS['person.add'][1], 'string', None)

MOMENTS = ['date', 'time', 'dateTime']


def attribute_of(line):
    """The attribute of which a line has values, as category, id, type and issuer, and these; None where it has none."""
    command = line.get('do')
    if command in IDS:
        category, attribute = IDS[command]
        return (CATEGORIES[category], attribute, 'string', None), [line['name']]
    if command == 'attr.set':
        category = CATEGORIES.get(line['category'], line['category'])
        datatype = line['type'].rpartition('#')[2]
        return (category, line['attribute'], datatype, line.get('issuer')), line['values']
    return None


def values_of(lines):
    """The values of each attribute, in the order in which they first stand."""
    found = {}
    for number, text in enumerate(lines, 1):
        if not text.strip():
            continue
        try:
            one = attribute_of(json.loads(text))
        except (ValueError, KeyError, TypeError, AttributeError):
            sys.exit(f'declared.py: line {number} is none of a dump')
        if one is not None:
            key, values = one
            known = found.setdefault(key, {})
            for value in values:
                known[json.dumps(value, ensure_ascii=False)] = value
    return found


def is_open(key, values, people):
    """Whether others will come: days and moments, and names of people."""
    return key[2] in MOMENTS or all(text in people for text in values)


def declaration(key, values, people, most):
    """The declaration of an attribute, with its values where they are few and no others will come."""
    category, attribute, datatype, issuer = key
    said = {'Category': category, 'AttributeId': attribute, 'DataType': datatype}
    if issuer is not None:
        said['Issuer'] = issuer
    if len(values) <= most and not is_open(key, values, people):
        said['Values'] = [values[text] for text in sorted(values)]
    return said


def main():
    parser = argparse.ArgumentParser(description=__doc__.split('\n\n')[0])
    parser.add_argument('--values', type=int, default=32, metavar='N',
                        help='list the values of an attribute that has at most N (32)')
    parser.add_argument('state', nargs='?', help='the lines of a dump')
    asked = parser.parse_args()
    with (open(asked.state, encoding='utf-8') if asked.state else sys.stdin) as lines:
        found = values_of(lines)
    order = sorted(found, key=lambda key: (key[0], key[1], key[2], key[3] or ''))
    people = found.get(PEOPLE, {})
    members = [json.dumps(declaration(key, found[key], people, asked.values), ensure_ascii=False) for key in order]
    print('{"Attributes": [')
    print(',\n'.join('  ' + member for member in members))
    print(']}')


if __name__ == '__main__':
    main()
