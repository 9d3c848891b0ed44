"""The schemas of XACML 1.0, 1.1 and 2.0 for policies as one table, in the form of schema.py: what one of these versions
has and the others haven't means the same wherever it stands."""
from .schema import ANY, TEXT, kind

_CATEGORIES = ('Subject', 'Resource', 'Action', 'Environment')
_DESIGNATORS = '|'.join(f'{one}AttributeDesignator' for one in _CATEGORIES)
EXPRESSION = f'AttributeValue|{_DESIGNATORS}|AttributeSelector|VariableReference|Function|Apply'
_MEMBERS = 'PolicySet|Policy|PolicySetIdReference|PolicyIdReference'
_OF_SETS = 'CombinerParameters|PolicyCombinerParameters|PolicySetCombinerParameters'
_OF_POLICIES = 'CombinerParameters|RuleCombinerParameters|VariableDefinition|Rule'
_VERSIONS = 'Version:versions? EarliestVersion:versions? LatestVersion:versions?'
_NAMES = 'AttributeId:uri DataType:uri Issuer:string? MustBePresent:boolean?'


def _of_category(one):
    """The elements of a target for one category of attributes."""
    return {
        f'{one}s': kind('', f'Any{one}|{one}+'),
        f'Any{one}': kind(''),
        one: kind('', f'{one}Match+'),
        f'{one}Match': kind('MatchId:uri', f'AttributeValue {one}AttributeDesignator|AttributeSelector'),
        f'{one}AttributeDesignator': kind(_NAMES + (' SubjectCategory:uri?' if one == 'Subject' else '')),
    }


ELEMENTS = {
    'PolicySet': kind(
        'PolicySetId:uri Version:version? PolicyCombiningAlgId:uri',
        f'Description? PolicySetDefaults? Target {_MEMBERS}|{_OF_SETS}* Obligations?',
    ),
    'Policy': kind(
        'PolicyId:uri Version:version? RuleCombiningAlgId:uri',
        f'Description? PolicyDefaults? CombinerParameters? Target {_OF_POLICIES}* Obligations?',
    ),
    'Description': kind('', TEXT),
    'PolicySetDefaults': kind('', 'XPathVersion'),
    'PolicyDefaults': kind('', 'XPathVersion'),
    'XPathVersion': kind('', TEXT),
    'PolicySetIdReference': kind(_VERSIONS, TEXT),
    'PolicyIdReference': kind(_VERSIONS, TEXT),
    'CombinerParameters': kind('', 'CombinerParameter*'),
    'RuleCombinerParameters': kind('RuleIdRef:string', 'CombinerParameter*'),
    'PolicyCombinerParameters': kind('PolicyIdRef:uri', 'CombinerParameter*'),
    'PolicySetCombinerParameters': kind('PolicySetIdRef:uri', 'CombinerParameter*'),
    'CombinerParameter': kind('ParameterName:string', 'AttributeValue'),
    'Target': kind('', ' '.join(f'{one}s?' for one in _CATEGORIES)),
    **{name: each for one in _CATEGORIES for name, each in _of_category(one).items()},
    'VariableDefinition': kind('VariableId:string', EXPRESSION),
    'Rule': kind('RuleId:string Effect:effect', 'Description? Target? Condition?'),
    'Condition': kind('FunctionId:uri?', f'{EXPRESSION}*'),
    'VariableReference': kind('VariableId:string'),
    'Apply': kind('FunctionId:uri', f'{EXPRESSION}*'),
    'Function': kind('FunctionId:uri'),
    'AttributeSelector': kind('RequestContextPath:string DataType:uri MustBePresent:boolean?'),
    'AttributeValue': kind('DataType:uri', ANY),
    'Obligations': kind('', 'Obligation+'),
    'Obligation': kind('ObligationId:uri FulfillOn:effect', 'AttributeAssignment*'),
    'AttributeAssignment': kind('AttributeId:uri DataType:uri', ANY),
}
