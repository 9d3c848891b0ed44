"""Decisions that were written by hand beside a target or a condition, before the program was asked."""
from xacml_form.driver import Service, request_of

from .compiling import Compiler
from .told import ERROR

SUBJECT = 'urn:oasis:names:tc:xacml:1.0:subject-category:access-subject'
RESOURCE = 'urn:oasis:names:tc:xacml:3.0:attribute-category:resource'
# The attributes: their categories, ids and types.
NAMES = {'role': (SUBJECT, 'role', 'string'), 'dept': (SUBJECT, 'dept', 'string'),
         'level': (SUBJECT, 'level', 'integer'), 'active': (SUBJECT, 'active', 'boolean'),
         'since': (SUBJECT, 'since', 'date'),
         'owner': (RESOURCE, 'owner', 'string'), 'rdept': (RESOURCE, 'dept', 'string'),
         'secrecy': (RESOURCE, 'secrecy', 'integer'), 'opens': (RESOURCE, 'opens', 'time')}
YES, NO, FAULT = 'Permit', 'NotApplicable', 'Indeterminate'
# What a rule says beside `permit`, the values, and the decision.
ROWS = [
    # a target turns its comparison, wherever the attribute stands
    ('target clause level > 3', {'level': [4]}, YES), ('target clause level > 3', {'level': [3]}, NO),
    ('target clause level >= 3', {'level': [3]}, YES), ('target clause level < 3', {'level': [2]}, YES),
    ('target clause level < 3', {'level': [3]}, NO), ('target clause level <= 3', {'level': [4]}, NO),
    ('target clause 3 < level', {'level': [4]}, YES), ('target clause 3 < level', {'level': [2]}, NO),
    ('target clause 3 >= level', {'level': [2]}, YES), ('target clause since < "2026-01-01":date',
                                                       {'since': ['2025-12-31']}, YES),
    ('target clause level > 3', {'level': [1, 9]}, YES), ('target clause stringStartsWith("a", role)',
                                                         {'role': ['ab']}, YES),
    ('target clause stringStartsWith("ab", role)', {'role': ['a']}, NO),
    # clauses, `or`, `and`
    ('target clause role == "a" clause dept == "b"', {'role': ['a']}, NO),
    ('target clause role == "a" or dept == "b"', {'dept': ['b']}, YES),
    ('target clause role == "a" and level > 1 or dept == "b"', {'role': ['a'], 'level': [1]}, NO),
    ('target clause role == "a" or dept == "b" and level > 1', {'role': ['a'], 'level': [1]}, YES),
    ('target clause role == "a" target clause dept == "b"', {'role': ['a'], 'dept': ['c']}, NO),
    # what is missing
    ('target clause role == "a"', {}, NO), ('target clause role[mustbepresent] == "a"', {}, FAULT),
    ('condition role == "a"', {}, NO), ('condition role[mustbepresent] == "a"', {}, FAULT),
    ('condition stringOneAndOnly(role) == "a"', {}, FAULT), ('condition not(role == "a")', {}, YES),
    # bags: some value, in the order in which they stand
    ('condition level > 3', {'level': [1, 4]}, YES), ('condition 3 > level', {'level': [4]}, NO),
    ('condition 3 > level', {'level': [2, 4]}, YES),
    ('condition dept == rdept', {'dept': ['a', 'b'], 'rdept': ['b', 'c']}, YES),
    ('condition dept == rdept', {'dept': ['a'], 'rdept': ['b']}, NO), ('condition dept == rdept', {'rdept': ['b']}, NO),
    ('condition stringSubset(dept, rdept)', {'dept': ['a', 'b'], 'rdept': ['b', 'c']}, NO),
    ('condition allOf(function[integerLessThan], 0, level)', {'level': [1, 2]}, YES),
    ('condition anyOf(function[stringContains], "b", role)', {'role': ['abc']}, YES),
    # ranks of operators
    ('condition true || false && false', {}, YES), ('condition (true || false) && false', {}, NO),
    ('condition 2 + 3 * 4 == 14', {}, YES), ('condition (2 + 3) * 4 == 20', {}, YES),
    ('condition 10 - 4 - 3 == 3', {}, YES), ('condition 10 - (4 - 3) == 9', {}, YES),
    ('condition 7 / 2 * 2 == 6', {}, YES), ('condition -7 % 3 == -1', {}, YES), ('condition 1 / 0 == 1', {}, FAULT),
    ('condition 1 + 1 < 3 && 2 * 2 > 3', {}, YES), ('condition "a" + "b" + "c" == "abc"', {}, YES),
    ('condition integerOneAndOnly(level) * 2 >= integerOneAndOnly(secrecy) + 1', {'level': [2], 'secrecy': [3]}, YES),
    # days and times
    ('condition dateOneAndOnly(since) + "P1M":yearMonthDuration == "2026-02-28":date', {'since': ['2026-01-31']}, YES),
    ('condition timeInRange(timeOneAndOnly(opens), "22:00:00":time, "06:00:00":time)', {'opens': ['05:00:00']}, YES),
    ('condition opens >= "22:00:00":time || opens < "06:00:00":time', {'opens': ['06:00:00']}, NO),
    # sets of values, numbers of them
    ('condition stringBagSize(role) > 1', {'role': ['a', 'b']}, YES),
    ('condition nOf(2, role == "a", dept == "b", level == 1)', {'role': ['a'], 'level': [1]}, YES),
    ('condition nOf(2, role == "a", dept == "b", level == 1)', {'role': ['a']}, NO),
    ('condition booleanOneAndOnly(active) == false', {'active': [False]}, YES), ('condition active == true',
                                                                               {'active': [True, False]}, YES),
]
SHORT = {SUBJECT: 'subjectCat', RESOURCE: 'resourceCat'}
HEAD = 'namespace h { ' + ' '.join(
    f'attribute {name} {{ category = {SHORT[category]} id = "{one}" type = {kind} }}'
    for name, (category, one, kind) in NAMES.items()) + '\n'


def run(program):
    """How many decisions were asked, and which are another."""
    service, wrong = Service(program), []
    for number, (rule, values, decision) in enumerate(ROWS):
        compiler = Compiler([('h', f'{HEAD}policy p {{ apply denyOverrides rule r {{ permit {rule} }} }} }}'.encode())])
        made = [each.document for each in compiler.made()]
        if compiler.told.holds(ERROR):
            wrong.append(f'{rule}: {compiler.told.lines()}')
            continue
        service.answer(do='policy.replace' if number else 'policy.add', document=made[0])
        service.answer(do='root.set', reference={'PolicyIdReference': {'Id': 'h.p'}})
        attributes = [(*NAMES[name], listed) for name, listed in values.items()]
        reply = service.answer(do='ask', request=request_of(attributes))
        found = reply['Response'][0]['Decision'] if 'Response' in reply else reply
        wrong += [f'{rule} with {values} decided {found}, and not {decision}'] if found != decision else []
    service.close()
    return len(ROWS), wrong
