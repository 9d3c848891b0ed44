"""The cases of `worst.py` whose many references, designators and rows have the same id.

Each is a function of the share of its full size, and gives the lines that go before, and the line or lines that are
measured.
"""
from worst_cases import added, designator, one_cell, root, rule
from workloads import SUBJECT, apply, line, lists, policy, policy_set, row, value


def referring(id, version=None, kind='PolicyIdReference'):
    """A reference to an id, to its versions that match a pattern."""
    return {kind: {'Id': id, 'Version': version} if version else {'Id': id}}


def referring_set(id):
    return referring(id, kind='PolicySetIdReference')


def set_root(id):
    return line('root.set', reference=referring_set(id))


def wide(children):
    """Documents, the last with the id `top`, that lead to all of these children, each 32 of them or fewer."""
    level, documents = 0, []
    while len(children) > 32:
        groups = [children[i:i + 32] for i in range(0, len(children), 32)]
        names = [f'{level}-{i}' for i in range(len(groups))]
        documents += [policy_set(name, group, 'deny-overrides') for name, group in zip(names, groups)]
        children, level = [referring_set(name) for name in names], level + 1
    return [*documents, policy_set('top', children, 'deny-overrides')]


def stored_all(documents):
    return [line('policy.add', document=document) for document in documents]


def versions(share, full=16_384):
    """References to one id, no two to the same version."""
    return [referring('p', f'1.{i}') for i in range(int(full * share))]


# Causes and reads of an explain.

def referring_to_itself(count, condition=None):
    """One cell under a set that refers to itself, and maybe to a policy with a condition."""
    also = [policy('p', [rule(condition)])] if condition else []
    children = [referring_set('s')] * count
    document = policy_set('s', [referring('p'), *children] if condition else children, 'deny-overrides')
    return [*stored_all(also), line('policy.add', document=document), *one_cell(), set_root('s')]


def explained():
    return line('explain', person='ann', action='read', resource='plan')


def own_references(share):
    """How many references to itself a set has: with one less it is about half as large, as these multiply."""
    return {0.125: 5, 0.25: 6, 0.5: 7}.get(share, 8)


def explain_references(share):
    """The explanation of a cell under a set with 8 references to itself."""
    return referring_to_itself(own_references(share)), explained()


def explain_missing(share):
    """The same over a policy that has to find an attribute which nobody has."""
    asked = designator(SUBJECT, 'a', 'string')
    asked['AttributeDesignator']['MustBePresent'] = True
    return referring_to_itself(own_references(share), apply('string-is-in', value('x'), asked)), explained()


# References that differ by their patterns alone.

def root_of_versions(share):
    """A root with 16,384 references to one id, no two with the same pattern, of which nothing is stored."""
    return [*stored_all(wide(versions(share))), *one_cell()], set_root('top')


def version_added(share):
    """A policy added to which such a root has 16,384 references."""
    lines = [*stored_all(wide(versions(share))), *one_cell(), set_root('top')]
    return lines, line('policy.add', document=policy('p', []))


def documents_of_many(share):
    """The documents of an id that nobody has, where the root leads to 1,000 versions of a set by 32 references each:
    all but the first 32 have three patterns, which the first versions alone match."""
    count = int(1_000 * share)

    def version(i):
        numbers = range(32 * i + 1, 32 * i + 33) if i < 32 else [k % 3 for k in range(32)]
        children = [referring('s', f'{number}.*', 'PolicySetIdReference') for number in numbers]
        document = policy_set('s', children, 'deny-overrides')
        document['PolicySet']['Version'] = f'{i}.0'
        return document
    lines = stored_all(version(i) for i in range(count))
    lines.append(line('root.set', reference=referring('s', '0.*', 'PolicySetIdReference')))
    return lines, line('documents', id='nobody')


# Attributes that differ by their issuers alone.

def issued(issuer):
    found = designator(SUBJECT, 'a', 'string')
    found['AttributeDesignator']['Issuer'] = issuer
    return found


def policy_of_issuers(id, issuers):
    """A policy that asks for one attribute by each of these issuers."""
    tests = [apply('string-is-in', value('x'), issued(issuer)) for issuer in issuers]
    groups = [tests[i:i + 250] for i in range(0, len(tests), 250)]
    return policy(id, [rule(apply('or', *group), f'r{i}') for i, group in enumerate(groups)])


def root_of_issuers(share):
    """A policy that asks for one attribute by 3,000 issuers."""
    return [*stored_all([policy_of_issuers('p', [f'i{i}' for i in range(int(3_000 * share))])]), *one_cell()], root()


def root_of_many_issuers(share):
    """Eight policies that ask for one attribute by 1,400 issuers each, no two by the same."""
    count = int(1_400 * share)
    policies = [policy_of_issuers(f'p{k}', [f'i{k}-{i}' for i in range(count)]) for k in range(8)]
    top = policy_set('top', [referring(f'p{k}') for k in range(8)], 'deny-overrides')
    return [*stored_all([*policies, top]), *one_cell()], set_root('top')


def rows_of_issuers(share):
    """10,000 rows of one attribute of one entity, by as many issuers, behind a policy that asks for it by none."""
    count = int(10_000 * share)
    lines = [row('ann', 'a', ['y'], issuer=f'i{i}') for i in range(count)]
    asks = added([rule(apply('string-is-in', value('x'), designator(SUBJECT, 'a', 'string')))])
    return [asks, root(), *one_cell()], lines


def table_of_references(share):
    """A full table under a root with 23,552 references to one id, no two of one pattern: each cell follows all."""
    return [*stored_all(wide(versions(share, 23_552))), *lists()], set_root('top')


KEYS = {
    'explain-refs': explain_references,
    'explain-missing': explain_missing,
    'root-versions': root_of_versions,
    'add-version': version_added,
    'documents-versions': documents_of_many,
    'root-issuers': root_of_issuers,
    'root-issuers-8': root_of_many_issuers,
    'rows-issuers': rows_of_issuers,
    'table-references': table_of_references,
}
