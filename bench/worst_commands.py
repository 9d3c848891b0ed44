"""The cases of `worst.py` that are whole commands: of `review check`, `review compare` and `review test`.

Each is a function of the share of its full size. It gives the files of a folder, by their names, and the words behind
`review`.
"""
import json
from worst_cases import added, all_faulty, deep_among, designator, many_types, root, rule, variable
from workloads import ACTIONS, SUBJECT, apply, line, lists, policy, row, value

DECLARED = 'declared.json'
DOCUMENT = 'document.json'
STATE = 'state.jsonl'


def compact(data):
    return json.dumps(data, separators=(',', ':'))


def text_of(lines):
    return ''.join(text + '\n' for text in lines)


def declared(id, values):
    """A list of declared attributes: one of the subject, with these values."""
    attribute = {'Category': SUBJECT, 'AttributeId': id, 'DataType': 'string', 'Values': values}
    return compact({'Attributes': [attribute]})


def long_literal(share):
    """A literal of 100 kB beside the one declared value of as many, of which the last byte differs."""
    text = 'a' * int(100_000 * share)
    compared = apply('string-is-in', value(text + 'c'), designator(SUBJECT, 'a', 'string'))
    files = {DECLARED: declared('a', [text + 'b']), DOCUMENT: compact(policy('p', [rule(compared)]))}
    return files, ['check', '--attributes', DECLARED, DOCUMENT]


def set_by_lines(share, misspelled):
    """60,000 declared values, and 500 lines that set 256 of the last of them each; of some the last is none."""
    values = [f'v{i:05}' for i in range(int(60_000 * share))]
    lines = [line('person.add', name='ann')]
    for i in range(int(500 * share)):
        given = values[-256 - i:len(values) - i]
        lines.append(row('ann', 'a', [*given[1:], given[0] + 'x'] if i < misspelled else given))
    files = {DECLARED: declared('a', values), DOCUMENT: compact(policy('p', [])), 'lines.jsonl': text_of(lines)}
    return files, ['check', '--attributes', DECLARED, '--lines', 'lines.jsonl', DOCUMENT]


def many_values(share):
    """60,000 declared values, and 500 lines that set 256 of the last of them each."""
    return set_by_lines(share, 0)


def many_misspelled(share):
    """The same, where each line has a value that is none of them: for the first hundred the nearest is looked for."""
    return set_by_lines(share, 500)


def deep_types(share):
    """A fault of types at the deepest place: 200 definitions of 90 literals, and 15 levels of 250 arguments."""
    return {DOCUMENT: compact(many_types(share, definitions=200))}, ['check', DOCUMENT]


def deep_variables(share):
    """The same, where each other argument is a variable."""
    return {DOCUMENT: compact(deep_among(share, variable('w'), value('x'), 200))}, ['check', DOCUMENT]


def all_told(share):
    """254 variables that each name 80 others and one that isn't defined: all that is wrong."""
    return {DOCUMENT: compact(all_faulty(share))}, ['check', '--all', DOCUMENT]


def full_of(effect, parts):
    """The lines of a policy and root by which each cell has an effect, by one rule with these parts."""
    return [added([{'RuleId': effect, 'Effect': effect, **parts}]), root()]


def compared(share, parts):
    """The comparison of a table whose cells all permit with one whose cells all deny, by a rule with such parts."""
    names = list(lists())
    people = names[-256:]
    kept = [*names[:-256], *people[:int(256 * share)]]
    def state(effect):
        return text_of([line('format', version=2), *full_of(effect, parts(effect)), *kept])
    return {effect: state(effect) for effect in ['Permit', 'Deny']}, ['compare', 'Permit', 'Deny']


def all_differ(share):
    """A full table of which each cell differs."""
    return compared(share, lambda effect: {})


def all_differ_with_obligation(share):
    """The same, with an obligation in each."""
    return compared(share, lambda effect: {'ObligationExpressions': [{'ObligationId': 'log', 'FulfillOn': effect}]})


def expected_among(cells):
    """A test of a full table by a list of cells that have to be among its 65,536."""
    lines = [*full_of('Permit', {}), *lists()]
    test = ['# among_all', '> {"do":"table"}', '~ ' + compact({'table': cells})]
    return {STATE: text_of(lines), 'test.txt': text_of(test)}, ['test', '--state', STATE, 'test.txt']


def long_expected(share):
    """A test of a full table by a list of 1,000 cells in the reverse of its order."""
    count = int(1_000 * share)
    cells = [{'person': f'person-{i % 256:03}', 'resource': f'resource-{i // 256 * 16:02}'} for i in range(count)]
    return expected_among(cells[::-1])


def unordered_expected(share):
    """The same, of cells in no order."""
    places = [i * 40_503 % 65_536 for i in range(int(1_000 * share))]
    return expected_among([{'person': f'person-{i // 256:03}', 'action': ACTIONS[i // 64 % 4],
                            'resource': f'resource-{i % 64:02}'} for i in places])


COMMANDS = {
    'check-literal': long_literal,
    'check-values': many_values,
    'check-misspelled': many_misspelled,
    'check-deep-types': deep_types,
    'check-deep-names': deep_variables,
    'check-all-told': all_told,
    'compare-all': all_differ,
    'compare-given': all_differ_with_obligation,
    'test-long-list': long_expected,
    'test-any-order': unordered_expected,
}
