"""The cases of `worst.py`: what costs most within the limits.

Each is a function of the share of its full size. A case of `LINES` gives the lines that go before, and the line that is
measured; one of `CHECKS` gives a document for `review check`.
"""
from workloads import RESOURCE, SUBJECT, apply, line, policy, policy_set, row, stored, value


def designator(category, id, datatype):
    return {'AttributeDesignator': {'Category': category, 'AttributeId': id, 'DataType': datatype}}


def variable(id):
    return {'VariableReference': {'VariableId': id}}


def definition(id, expression):
    return {'VariableId': id, 'Expression': expression}


def rule(condition, id='r'):
    return {'RuleId': id, 'Effect': 'Permit', 'Condition': condition}


def joined(expressions):
    """The texts of some expressions one after the other."""
    concatenate = 'urn:oasis:names:tc:xacml:2.0:function:string-concatenate'
    return {'Apply': {'FunctionId': concatenate, 'Arguments': expressions}}


def added(rules, definitions=()):
    """A policy `p` stored."""
    parts = {'VariableDefinition': list(definitions)} if definitions else {}
    return line('policy.add', document=policy('p', rules, **parts))


def one_cell():
    return [line('action.add', name='read'), line('resource.add', name='plan'), line('person.add', name='ann')]


def root():
    return line('root.set', reference={'PolicyIdReference': {'Id': 'p'}})


def words(count, first='a'):
    """Texts of three letters behind the first, no two the same."""
    letters = 'abcdefghijklmnopqrstuvwxyz0123456789'
    return [first + letters[i // 1296 % 36] + letters[i // 36 % 36] + letters[i % 36] for i in range(count)]


# Of two bags in an ask.

def asked(first, second):
    """An ask whose subject has values as `a` and whose resource has some as `b`, in attributes of 256 values."""
    def attributes(id, values):
        return {'Attribute': [{'AttributeId': id, 'Value': values[i:i + 256]} for i in range(0, len(values), 256)]}
    categories = {'AccessSubject': attributes('a', first), 'Resource': attributes('b', second)}
    return line('ask', request={'Request': categories})


def of_two_bags(function, first, second, datatype='string', inside=lambda expression: expression):
    """A policy of one harmless rule, which asks a function of two bags, and an ask that brings these."""
    bags = [designator(SUBJECT, 'a', datatype), designator(RESOURCE, 'b', datatype)]
    condition = inside(apply(f'{datatype}-{function}', *bags))
    return list(stored(policy('p', [rule(condition)]), 'p')), asked(first, second)


def has_more_than(count):
    """Whether a bag of strings has more values than so many."""
    return lambda bag: apply('integer-greater-than', apply('string-bag-size', bag), value(count))


def ask_common(share):
    """at-least-one-member-of two attributes that share no value, each standing 256 times with 256 values."""
    count = int(65_536 * share)
    return of_two_bags('at-least-one-member-of', words(count, 'a'), words(count, 'b'))


def ask_intersection(share):
    """How many values two attributes of 32,768 strings share, which is all."""
    count = int(32_768 * share)
    return of_two_bags('intersection', words(count), words(count)[::-1], inside=has_more_than(count))


def ask_union(share):
    """How many values two attributes of 65,536 strings have together."""
    count = int(65_536 * share)
    return of_two_bags('union', words(count, 'a'), words(count, 'b'), inside=has_more_than(count))


def ask_subset(share):
    """Whether 32,768 strings are among as many, which all are."""
    count = int(32_768 * share)
    return of_two_bags('subset', words(count), words(count)[::-1])


def ask_prefixes(share):
    """Whether two attributes of 2,000 strings share one: 230 bytes each, of which only the last four differ."""
    def long(first):
        return ['a' * 226 + word for word in words(int(2_000 * share), first)]
    return of_two_bags('at-least-one-member-of', long('a'), long('b'))


def ask_set_equals(share):
    """Whether 65,536 integers are as many others, which they are in another order."""
    numbers = list(range(int(65_536 * share)))
    return of_two_bags('set-equals', numbers, numbers[::-1], 'integer')


def ask_every_node(share):
    """16,065 tests whether a text is among 65,536: nodes of a document by values of an ask, so four times for twice."""
    absent = apply('string-is-in', value('none'), designator(SUBJECT, 'a', 'string'))
    rules = [rule(apply('or', *[variable('v')] * 255), f'r{i}') for i in range(int(63 * share))]
    return [added(rules, [definition('v', absent)]), root()], asked(words(int(65_536 * share)), [])


# Of a root, over one cell or many.

def union_of(datatype, bags, literals):
    """One cell under set-equals of a union with itself, whose bags of 255 literals a document spells out."""
    parts = [apply(f'{datatype}-bag', *literals[i * 255:(i + 1) * 255]) for i in range(bags)]
    compared = apply(f'{datatype}-set-equals', variable('u'), variable('u'))
    return [added([rule(compared)], [definition('u', apply(f'{datatype}-union', *parts))]), *one_cell()], root()


def cell_integers(share):
    """One cell under integer-set-equals of a union of 20,400 values with itself."""
    return union_of('integer', int(80 * share), [value(n) for n in range(20_400)])


def cell_strings(share):
    """One cell under string-set-equals of a union of 15,300 values with itself."""
    return union_of('string', int(60 * share), [value(word) for word in words(15_300)])


def full_table(share):
    """A rule that compares groups of 256 people, 256 values each, with those of 256 resources: 65,536 cells, of which
    no two find the same."""
    count = int(256 * share)
    lines = [line('action.add', name='read')]
    for i in range(256):
        lines += [line('person.add', name=f'p{i}'), row(f'p{i}', 'groups', words(count, f'a{i}-'))]
        lines += [line('resource.add', name=f'r{i}'), row(f'r{i}', 'groups', words(count, f'b{i}-'), 'Resource')]
    groups = [designator(category, 'groups', 'string') for category in (SUBJECT, RESOURCE)]
    return [*lines, added([rule(apply('string-at-least-one-member-of', *groups))])], root()


def many_nodes(share):
    """A document of 64,500 expression nodes, over 1,024 cells, of which no two find the same."""
    definitions = [definition('v', apply('and', *[value(True)] * 254))]
    rules = [rule(apply('not', apply('not', variable('v'))), f'r{i}') for i in range(int(250 * share))]
    lines = [line('action.add', name='read')]
    for i in range(32):
        lines += [line('person.add', name=f'p{i}'), row(f'p{i}', 'mark', [f'p{i}'])]
        lines += [line('resource.add', name=f'r{i}'), row(f'r{i}', 'mark', [f'r{i}'], 'Resource')]
    asked = [designator(category, 'mark', 'string') for category in (SUBJECT, RESOURCE)]
    marks = [apply('string-is-in', value('x'), found) for found in asked]
    return [*lines, added([rule(apply('or', *marks), 'marked'), *rules], definitions)], root()


def text_parts(share):
    """50 rules that look for a part in a text of 54 MB, which they join of 60 copies."""
    definitions = [definition('v', value('a' * int(900_000 * share))), definition('w', joined([variable('v')] * 60))]
    arguments = [value('a' * 1000 + 'b'), variable('w')]
    contains = {'FunctionId': 'urn:oasis:names:tc:xacml:3.0:function:string-contains', 'Arguments': arguments}
    return [added([rule({'Apply': contains}, f'r{i}') for i in range(50)], definitions), *one_cell()], root()


def long_texts(share):
    """A text of 890 kB joined 32,256 times, which asks for 28 GB: want of memory, here under a bound of 2 GB."""
    definitions = [definition('v', value('a' * int(890_000 * share))), definition('w', joined([variable('v')] * 128))]
    condition = apply('string-equal', joined([variable('w')] * 252), value(''))
    return [added([rule(condition)], definitions), *one_cell()], root()


def long_reply(share):
    """The reply of one cell whose obligation gives a text of 280 kB 240 times: 67 MB."""
    assignments = [{'AttributeId': f'{i:0200}', 'Expression': variable('v')} for i in range(240)]
    obligation = {'ObligationId': 'o', 'FulfillOn': 'Permit', 'AttributeAssignmentExpression': assignments}
    rules = [{'RuleId': 'r', 'Effect': 'Permit', 'ObligationExpressions': [obligation]}]
    lines = [added(rules, [definition('v', value('a' * int(280_000 * share)))]), root(), *one_cell()]
    return lines, line('cell', person='ann', action='read', resource='plan')


def multiplied(share):
    """One cell under a set that refers to itself 12 times, six deep, and half as large 10 times: still multiplied."""
    count = {0.125: 6, 0.25: 8, 0.5: 10}.get(share, 12)
    children = [{'PolicySetIdReference': {'Id': 's'}}] * count
    lines = [line('policy.add', document=policy_set('s', children, 'deny-overrides')), *one_cell()]
    return lines, line('root.set', reference={'PolicySetIdReference': {'Id': 's'}})


# Of documents for `review check`.

def chain(share):
    """A chain of 255 variables, the fault at its end, and as many rules that begin it."""
    count = int(255 * share)
    definitions = [definition(f'v{i}', variable(f'v{i + 1}')) for i in range(count - 1)]
    definitions.append(definition(f'v{count - 1}', variable('nowhere')))
    return policy('p', [rule(variable('v0'), f'r{i}') for i in range(count)], VariableDefinition=definitions)


def those_that_name(count, others, last):
    """So many variables, each of which names so many of those behind it, and the last that is that."""
    def expression(i):
        return apply('and', *[variable(f'v{min(i + 1 + k, count)}') for k in range(others)])
    return [*[definition(f'v{i}', expression(i)) for i in range(count)], definition(f'v{count}', last)]


def over(definitions):
    """A policy of definitions and a rule that begins with the first."""
    return policy('p', [rule(variable('v0'))], VariableDefinition=definitions)


def named(count, others):
    """So many variables, each of which names so many of those behind it, and the last a fault."""
    return over(those_that_name(count, others, variable('nowhere')))


def wide_variables(share):
    """128 variables that each name ten others."""
    return named(int(128 * share), 10)


def many_literals(share):
    """255 definitions of 90 literals, and a condition of 15 levels whose fault is deepest."""
    definitions = [definition(f'v{i}', apply('and', *[value(True)] * 90)) for i in range(int(255 * share))]
    condition = apply('no-such-function', value(True))
    for _ in range(13):
        condition = apply('not', condition)
    return policy('p', [rule(condition)], VariableDefinition=definitions)


def many_names(share):
    """254 variables that each name 80 others."""
    return named(int(254 * share), 80)


def many_names_first(share):
    """The same, but the fault in the last argument of the first."""
    definitions = those_that_name(int(254 * share), 80, value(True))
    definitions[0]['Expression']['Apply']['Arguments'][-1] = variable('nowhere')
    return over(definitions)


def deep_among(share, argument, fault, count=120):
    """So many definitions of 90 literals and a small one, and a condition of 15 levels of 250 such arguments, in the
    deepest this one last."""
    definitions = [definition(f'v{i}', apply('and', *[value(True)] * 90)) for i in range(int(count * share))]
    definitions.append(definition('w', value(True)))
    condition = fault
    for _ in range(14):
        condition = apply('and', *[argument] * int(250 * share), condition)
    return policy('p', [rule(condition)], VariableDefinition=definitions)


def many_arguments(share):
    """120 definitions of 90 literals, and a condition of 15 levels of 250 arguments whose fault is deepest and last."""
    return deep_among(share, variable('v1'), variable('nowhere'))


def many_types(share, definitions=120):
    """The same, of literals, the last of another type."""
    return deep_among(share, value(True), value('x'), definitions)


def all_faulty(share):
    """254 variables that each name 80 others, each of which has the fault: so none has it but for others, and the
    last."""
    definitions = those_that_name(int(254 * share), 80, variable('nowhere'))
    for each in definitions[:-1]:
        each['Expression']['Apply']['Arguments'].append(variable('nowhere'))
    return over(definitions)


def in_a_ring(share):
    """254 variables that each name 80 others, all of which lead to themselves."""
    count = int(254 * share)
    return over([definition(f'v{i}', apply('and', *[variable(f'v{(i + 1 + k) % count}') for k in range(80)]))
                 for i in range(count)])


def too_many_nodes(share):
    """254 variables that each name 80 others, together too many nodes."""
    return over(those_that_name(int(254 * share), 80, value(True)))


# What is measured by the reply to a line, behind other lines.
LINES = {
    'ask-common': ask_common,
    'ask-intersection': ask_intersection,
    'ask-union': ask_union,
    'ask-subset': ask_subset,
    'ask-prefixes': ask_prefixes,
    'ask-set-equals': ask_set_equals,
    'ask-every-node': ask_every_node,
    'cell-integers': cell_integers,
    'cell-strings': cell_strings,
    'full-table': full_table,
    'many-nodes': many_nodes,
    'text-parts': text_parts,
    'long-texts': long_texts,
    'long-reply': long_reply,
    'multiplied': multiplied,
}

# What is measured by `review check`.
CHECKS = {
    'check-chain': chain,
    'check-wide': wide_variables,
    'check-literals': many_literals,
    'check-names': many_names,
    'check-first': many_names_first,
    'check-arguments': many_arguments,
    'check-types': many_types,
    'check-all': all_faulty,
    'check-ring': in_a_ring,
    'check-nodes': too_many_nodes,
}
