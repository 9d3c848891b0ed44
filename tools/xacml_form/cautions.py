"""What is brought over and may not do what was meant: attributes that no cell has, attributes and values that aren't
declared, and a first-applicable whose Indeterminate may be decided otherwise above it."""
from . import literals, names
from .places import WARNING

IDS = {
    (names.CATEGORIES['AccessSubject'], 'urn:oasis:names:tc:xacml:1.0:subject:subject-id'),
    (names.CATEGORIES['Action'], 'urn:oasis:names:tc:xacml:1.0:action:action-id'),
    (names.CATEGORIES['Resource'], 'urn:oasis:names:tc:xacml:1.0:resource:resource-id'),
}
NOW = {
    (names.CATEGORIES['Environment'], f'urn:oasis:names:tc:xacml:1.0:environment:current-{one}'): names.XML_SCHEMA + one
    for one in ('date', 'time', 'dateTime')
}
HELD = [names.CATEGORIES[one] for one in ('AccessSubject', 'Action', 'Resource')]
IN_TABLE = 'the table has it as string without an issuer: a cell finds no value, where `ask` may find one'
NOWHERE = 'no listed request has it, and no module holds it: a cell finds no value, where `ask` may find one'
UNDECLARED = 'no such attribute is in the list of --attributes'


def tell(brought, declared):
    """Tells all of it, of documents that were brought together."""
    for each in brought:
        for designator in at_key(each.document, 'AttributeDesignator'):
            attribute(designator, each.told)
            if declared is not None and not declared.has(designator) and not is_always_there(designator):
                each.told.tell(WARNING, designator.place, named(designator), UNDECLARED)
        if declared is not None:
            for value, designator in compared(each.document):
                literal(value, designator, declared, each.told)
    first_applicable(brought)


def at_key(value, key):
    """What stands at a key, in a document and all below it."""
    if isinstance(value, list):
        for each in value:
            yield from at_key(each, key)
    elif isinstance(value, dict):
        for name, each in value.items():
            if name == key:
                yield each
            yield from at_key(each, key)


def named(designator):
    """An attribute in words: its id, type and category, and its issuer."""
    kind = designator['DataType'].rpartition('#')[2]
    issuer = f' of the issuer {designator["Issuer"]}' if 'Issuer' in designator else ''
    return f'the attribute {designator["AttributeId"]} ({kind}) of {designator["Category"]}{issuer}'


def is_always_there(designator):
    """Whether each request of the table has it: the three ids, and what the day or the moment says."""
    key = designator['Category'], designator['AttributeId']
    kind = NOW.get(key, names.XML_SCHEMA + 'string' if key in IDS else None)
    return 'Issuer' not in designator and designator['DataType'] == kind


def attribute(designator, told):
    """An attribute that no cell has."""
    if is_always_there(designator):
        return
    if (designator['Category'], designator['AttributeId']) in IDS:
        told.tell(WARNING, designator.place, named(designator), IN_TABLE)
    elif designator['Category'] not in HELD:
        told.tell(WARNING, designator.place, named(designator), NOWHERE)


# ---- declared attributes and values


class Declared:
    """A list of declared attributes, as `review check --attributes` reads it."""

    def __init__(self, members):
        self.members = [(key_in(each), values_in(each)) for each in members]

    def of(self, designator):
        """What the members that give a designator values have as such: texts, or None for any."""
        *key, issuer = key_in(designator)
        return [values for (*own, by), values in self.members if own == key and issuer in (None, by)]

    def has(self, designator):
        """Whether an attribute is declared."""
        return bool(self.of(designator))

    def values(self, designator):
        """The values that a designator may have; None where any may come."""
        found = self.of(designator)
        return None if not found or None in found else set().union(*found)


def key_in(one):
    """The category, the id, the type in full and the issuer of a designator or a declaration."""
    kind = names.XML_SCHEMA + one['DataType'].removeprefix(names.XML_SCHEMA)
    return one['Category'], one['AttributeId'], kind, one.get('Issuer')


def values_in(declaration):
    """The texts of the values that an attribute may have; None where it may have any."""
    if 'Values' not in declaration:
        return None
    return {literals.text_of(declaration['DataType'], value) for value in declaration['Values']}


COMPARING = ('-equal', '-is-in', '-at-least-one-member-of', '-subset', '-set-equals', '-intersection')


def compared(document):
    """Each literal with the designator that it is compared with for equality."""
    for match in (each for listed in at_key(document, 'Match') for each in listed):
        yield from pairs(match['MatchId'], [{key: match[key]} for key in match if key != 'MatchId'])
    for each in at_key(document, 'Apply'):
        function, arguments = each['FunctionId'], each.get('Arguments', [])
        if function in names.HIGHER_ORDER and arguments and 'Function' in arguments[0]:
            function, arguments = arguments[0]['Function']['FunctionId'], arguments[1:]
        yield from pairs(function, arguments)


def pairs(function, arguments):
    """The literals and the designators among the arguments of a function that compares for equality."""
    if function.endswith(COMPARING):
        designators = [found for each in arguments for found in inner(each, 'AttributeDesignator', '-one-and-only')]
        for each in arguments:
            for value in inner(each, 'AttributeValue', '-bag'):
                for designator in designators:
                    yield value, designator


def inner(argument, key, function):
    """What stands at a key in an argument, or within one of its functions."""
    if key in argument:
        yield argument[key]
    elif 'Apply' in argument and argument['Apply']['FunctionId'].endswith(function):
        for each in argument['Apply'].get('Arguments', []):
            yield from inner(each, key, function)


def literal(value, designator, declared, told):
    """A literal that is none of the values that its attribute may have."""
    allowed = declared.values(designator)
    text = literals.text_of(value['DataType'], value['Value'])
    if allowed is not None and text not in allowed:
        what = f'the value {text} of {named(designator)}'
        told.tell(WARNING, value.place, what, 'it is none of those in the list of --attributes')


# ---- first-applicable below an overrides algorithm

OVERRIDES = ('deny-overrides', 'permit-overrides')
KEPT = (
    'where a child is Indeterminate it stops with that child\'s kind, which the algorithm above it may pass over; by'
    ' 7.10 of the standard the whole may be Indeterminate there'
)


def first_applicable(brought):
    """Tells each first-applicable that has both effects below it and stands under an overrides algorithm, in its own
    file or by references of the others."""
    stored = {key_of(each.document): each for each in brought}
    waiting, seen = [(key, False) for key in stored], set()
    while waiting:
        key, is_under = waiting.pop()
        if key in stored and (key, is_under) not in seen:
            seen.add((key, is_under))
            waiting += list(under(stored[key].document, is_under, stored[key].told, stored))


def key_of(document):
    """The kind and the id of a document."""
    kind, body = next(iter(document.items()))
    return kind, body[f'{kind}Id']


def under(document, is_under, told, stored):
    """Goes through an element and those in it; gives the references, each with whether it stands under an overrides
    algorithm."""
    kind, body = next(iter(document.items()))
    if kind.endswith('IdReference'):
        yield (kind.removesuffix('IdReference'), body['Id']), is_under
        return
    algorithm = body.get('RuleCombiningAlgId', body.get('PolicyCombiningAlgId', ''))
    if is_under and algorithm.endswith(':first-applicable') and effects(document, stored, ()) == {'Permit', 'Deny'}:
        told.tell(WARNING, body.place, 'a first-applicable of both effects under an overrides algorithm', KEPT)
    for each in body.get('Children', []):
        yield from under(each, is_under or algorithm.endswith(OVERRIDES), told, stored)


def effects(document, stored, within):
    """The effects of the rules below an element, and of a default; of a reference to what wasn't brought, both."""
    kind, body = next(iter(document.items()))
    if kind.endswith('IdReference'):
        key = kind.removesuffix('IdReference'), body['Id']
        if key not in stored:
            return {'Permit', 'Deny'}
        return effects(stored[key].document, stored, (*within, key)) if key not in within else set()
    algorithm = body.get('RuleCombiningAlgId', body.get('PolicyCombiningAlgId', ''))
    found = {'Deny'} if algorithm.endswith(':deny-unless-permit') else set()
    found |= {'Permit'} if algorithm.endswith(':permit-unless-deny') else set()
    found |= {each['Effect'] for each in body.get('Rule', [])}
    return found.union(*(effects(each, stored, within) for each in body.get('Children', [])))
