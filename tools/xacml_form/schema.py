"""The schema of XACML 3.0 core for policies and requests (section 5) as a table: of each element its attributes with
their forms, and its children in order with their counts."""
import re
import typing

SPACE = ' \t\r\n'


class Form(typing.NamedTuple):
    """What the text of an attribute has to be, in words too, and whether the white space in it is no part of it."""

    pattern: str
    words: str
    is_collapsed: bool


FORMS = {
    'string': Form('.*', 'a text', False),
    'uri': Form('.*', 'a URI', True),
    'boolean': Form('true|false|1|0', 'true or false', True),
    'integer': Form('[+-]?[0-9]+', 'a whole number', True),
    'version': Form(r'([0-9]+\.)*[0-9]+', 'numbers with dots between them, as 1.0', False),
    'versions': Form(
        r'(([0-9]+|\*)\.)*([0-9]+|\*|\+)', 'numbers or * with dots between them, at the end also +', False
    ),
    'effect': Form('Permit|Deny', 'Permit or Deny', False),
    'name': Form(r'[^\W\d][\w.-]*', 'a name', True),
}


class Attribute(typing.NamedTuple):
    """An attribute of an element: the name of its form, and whether it has to be there."""

    form: str
    is_required: bool


class Particle(typing.NamedTuple):
    """What stands at a place among the children: elements of these names, so many at least and at most."""

    names: tuple
    least: int
    most: float


class Kind(typing.NamedTuple):
    """An element: its attributes by name, and what it holds: particles, TEXT alone, or ANY with attributes of
    anybody. Of particles also which of them a child of a name stands at."""

    attributes: dict
    holds: typing.Any
    place_of: dict


TEXT, ANY = 'text', 'anything'
_COUNTS = {'': (1, 1), '?': (0, 1), '*': (0, float('inf')), '+': (1, float('inf'))}


def _attributes(text):
    """Attributes as `Name:form`, with a question mark where one may be absent."""
    found = {}
    for word in text.split():
        name, _, form = word.rstrip('?').rpartition(':')
        found[name] = Attribute(form, not word.endswith('?'))
    return found


def kind(attributes, holds=''):
    """An element; its children are written as `Name`, `Name?`, `Name*` or `Name+`, and `A|B` where one of these
    stands."""
    if holds in (TEXT, ANY):
        return Kind(_attributes(attributes), holds, {})
    words = [re.fullmatch(r'([\w|]+)([?*+]?)', word) for word in holds.split()]
    particles = tuple(Particle(tuple(word[1].split('|')), *_COUNTS[word[2]]) for word in words)
    return Kind(
        _attributes(attributes), particles, {name: at for at, each in enumerate(particles) for name in each.names}
    )


EXPRESSION = 'AttributeValue|AttributeDesignator|AttributeSelector|VariableReference|Function|Apply'
_GIVEN = 'ObligationExpressions? AdviceExpressions?'
_MEMBERS = 'PolicySet|Policy|PolicySetIdReference|PolicyIdReference'
_OF_SETS = 'CombinerParameters|PolicyCombinerParameters|PolicySetCombinerParameters'
_OF_POLICIES = 'CombinerParameters|RuleCombinerParameters|VariableDefinition|Rule'
_VERSIONS = 'Version:versions? EarliestVersion:versions? LatestVersion:versions?'

ELEMENTS = {
    # Policy sets and policies (5.1 to 5.24)
    'PolicySet': kind(
        'PolicySetId:uri Version:version PolicyCombiningAlgId:uri MaxDelegationDepth:integer?',
        f'Description? PolicyIssuer? PolicySetDefaults? Target {_MEMBERS}|{_OF_SETS}* {_GIVEN}',
    ),
    'Policy': kind(
        'PolicyId:uri Version:version RuleCombiningAlgId:uri MaxDelegationDepth:integer?',
        f'Description? PolicyIssuer? PolicyDefaults? Target {_OF_POLICIES}* {_GIVEN}',
    ),
    'Description': kind('', TEXT),
    'PolicyIssuer': kind('', 'Content? Attribute*'),
    'PolicySetDefaults': kind('', 'XPathVersion'),
    'PolicyDefaults': kind('', 'XPathVersion'),
    'XPathVersion': kind('', TEXT),
    'PolicySetIdReference': kind(_VERSIONS, TEXT),
    'PolicyIdReference': kind(_VERSIONS, TEXT),
    'CombinerParameters': kind('', 'CombinerParameter*'),
    'RuleCombinerParameters': kind('RuleIdRef:string', 'CombinerParameter*'),
    'PolicyCombinerParameters': kind('PolicyIdRef:uri', 'CombinerParameter*'),
    'PolicySetCombinerParameters': kind('PolicySetIdRef:uri', 'CombinerParameter*'),
    'CombinerParameter': kind('ParameterName:string', 'AttributeValue'),
    'Target': kind('', 'AnyOf*'),
    'AnyOf': kind('', 'AllOf+'),
    'AllOf': kind('', 'Match+'),
    'Match': kind('MatchId:uri', 'AttributeValue AttributeDesignator|AttributeSelector'),
    'VariableDefinition': kind('VariableId:string', EXPRESSION),
    'Rule': kind('RuleId:string Effect:effect', f'Description? Target? Condition? {_GIVEN}'),
    # Expressions (5.25 to 5.31)
    'Condition': kind('', EXPRESSION),
    'VariableReference': kind('VariableId:string'),
    'Apply': kind('FunctionId:uri', f'Description? {EXPRESSION}*'),
    'Function': kind('FunctionId:uri'),
    'AttributeDesignator': kind('Category:uri AttributeId:uri DataType:uri Issuer:string? MustBePresent:boolean'),
    'AttributeSelector': kind('Category:uri ContextSelectorId:uri? Path:string DataType:uri MustBePresent:boolean'),
    'AttributeValue': kind('DataType:uri', ANY),
    # Obligations and advice (5.37 to 5.41)
    'ObligationExpressions': kind('', 'ObligationExpression+'),
    'AdviceExpressions': kind('', 'AdviceExpression+'),
    'ObligationExpression': kind('ObligationId:uri FulfillOn:effect', 'AttributeAssignmentExpression*'),
    'AdviceExpression': kind('AdviceId:uri AppliesTo:effect', 'AttributeAssignmentExpression*'),
    'AttributeAssignmentExpression': kind('AttributeId:uri Category:uri? Issuer:string?', EXPRESSION),
    # Requests (5.42 to 5.46, 5.58 to 5.60)
    'Request': kind(
        'ReturnPolicyIdList:boolean CombinedDecision:boolean', 'RequestDefaults? Attributes+ MultiRequests?'
    ),
    'RequestDefaults': kind('', 'XPathVersion'),
    'Attributes': kind('Category:uri {http://www.w3.org/XML/1998/namespace}id:name?', 'Content? Attribute*'),
    'Content': kind('', ANY),
    'Attribute': kind('AttributeId:uri Issuer:string? IncludeInResult:boolean', 'AttributeValue+'),
    'MultiRequests': kind('', 'RequestReference+'),
    'RequestReference': kind('', 'AttributesReference+'),
    'AttributesReference': kind('ReferenceId:name'),
}


def collapsed(text):
    """A text without white space around it, and with one space where it has more inside."""
    return ' '.join(each for each in re.split(f'[{SPACE}]+', text) if each)


def value(attribute, text):
    """What the text of an attribute says: true or false for a boolean, else a text."""
    form = FORMS[attribute.form]
    found = collapsed(text) if form.is_collapsed else text
    return found in ('true', '1') if attribute.form == 'boolean' else found


def fits(attribute, text):
    """Whether the text of an attribute has its form."""
    form = FORMS[attribute.form]
    return re.fullmatch(form.pattern, collapsed(text) if form.is_collapsed else text, re.DOTALL) is not None
