"""The sections of OASIS XACML 3.0 core and their titles, and which of them a text cites."""
import re

TITLES = {
    '5.1': 'PolicySet', '5.6': 'Target', '5.7': 'AnyOf', '5.8': 'AllOf', '5.9': 'Match',
    '5.10': 'PolicySetIdReference', '5.11': 'PolicyIdReference', '5.12': 'versions',
    '5.13': 'version patterns', '5.14': 'Policy', '5.21': 'Rule', '5.22': 'Effect',
    '5.23': 'VariableDefinition', '5.24': 'VariableReference', '5.25': 'Expression', '5.26': 'Condition',
    '5.27': 'Apply', '5.28': 'Function', '5.29': 'AttributeDesignator', '5.31': 'AttributeValue',
    '5.34': 'Obligation', '5.35': 'Advice', '5.36': 'AttributeAssignment', '5.37': 'ObligationExpressions',
    '5.38': 'AdviceExpressions', '5.39': 'ObligationExpression', '5.40': 'AdviceExpression',
    '5.41': 'AttributeAssignmentExpression', '5.42': 'Request', '5.43': 'RequestDefaults',
    '5.44': 'Attributes', '5.45': 'Content', '5.46': 'Attribute', '5.47': 'Response', '5.48': 'Result',
    '5.53': 'Decision', '5.54': 'Status', '5.55': 'StatusCode', '7': 'functional requirements',
    '7.3.4': 'attributes that match', '7.3.5': 'values of attributes', '7.4': 'expressions', '7.6': 'matches',
    '7.7': 'targets', '7.8': 'variables', '7.9': 'conditions', '7.10': 'extended Indeterminate',
    '7.11': 'rules', '7.12': 'policies', '7.13': 'policy sets', '7.14': 'an Indeterminate target',
    '7.15': 'references', '7.17': 'decisions', '7.18': 'obligations and advice',
    '10.2.5': 'attributes of the environment', '10.2.8': 'all functions', 'A.2': 'data types',
    'A.3': 'functions', 'A.3.1': 'equality', 'A.3.2': 'arithmetic', 'A.3.5': 'logic',
    'A.3.6': 'numbers compared', 'A.3.7': 'dates and durations', 'A.3.8': 'other comparisons',
    'A.3.9': 'strings', 'A.3.10': 'bags', 'A.3.11': 'sets', 'A.3.12': 'functions of higher order',
    'B': 'identifiers', 'B.2': 'categories', 'B.3': 'data types', 'B.4': 'attributes of subjects',
    'B.5': 'of resources', 'B.6': 'of actions', 'B.7': 'of the environment', 'B.8': 'status codes',
    'C': 'combining algorithms', 'C.2': 'deny-overrides', 'C.3': 'ordered-deny-overrides',
    'C.4': 'permit-overrides', 'C.5': 'ordered-permit-overrides', 'C.6': 'deny-unless-permit',
    'C.7': 'permit-unless-deny', 'C.8': 'first-applicable', 'C.9': 'only-one-applicable',
    'JSON': 'the JSON Profile',
}
NUMBER = r'(?:[ABC](?:\.\d+)*|\d+(?:\.\d+)*)'
CITED = re.compile(rf'\b(?:sections?|appendix|appendices) ({NUMBER}(?:(?:,| and| to|, and) (?:appendix )?{NUMBER})*)')


def title(section):
    """What a section is about, in a word or a few."""
    return TITLES[section]


def order(section):
    """The place of a section in the standard; the profile comes last."""
    parts = [part for part in section.split('.') if part != 'JSON']
    return section == 'JSON', section[0].isalpha(), [ord(part) if part.isalpha() else int(part) for part in parts]


def between(first, last):
    """The sections from one to another of the same chapter."""
    chapter, _, begin = first.rpartition('.')
    return [f'{chapter}.{number}' for number in range(int(begin), int(last.rpartition('.')[2]) + 1)]


def citations(text):
    """The sections that the comments of a module cite."""
    found = set()
    for comment in re.findall(r'--(.*)', text):
        if 'JSON Profile' in comment:
            found.add('JSON')
        for cited in CITED.findall(comment):
            words = re.findall(rf'{NUMBER}|to', cited)
            for place, word in enumerate(words):
                if word == 'to':
                    found.update(between(words[place - 1], words[place + 1]))
                else:
                    found.add(word)
    return found
