"""Documents of the service, from JSON to XML whose elements stand in the order of the standard's schema."""
from . import literals, requests, schema
from .normal import full_literal, full_type, normal  # noqa: F401
from .requests import Unwritten


class NoDocument(Exception):
    """JSON that isn't a document, with the pointer of the part where that shows."""


def document(json):
    """The Policy or PolicySet element of a document; a document that `review check` passes always has one, unless a
    text of it stands in no XML, or in no URI there."""
    return _child(None, json, '')


def element(parent, name, text=None, **attributes):
    """A new element; a URI, as the id of a policy, has no white space at its ends and none that is doubled."""
    for key, value in attributes.items():
        known = schema.ELEMENTS[name].attributes[key]
        if known.form == 'uri' and value is not None and schema.value(known, value) != value:
            raise Unwritten(f'{name}: the white space of {value[:40]!r} stands in no URI')
    return requests.element(parent, name, text, **attributes)


def _only(json, pointer, allowed):
    """The one member of an object."""
    if not isinstance(json, dict) or len(json) != 1 or next(iter(json)) not in allowed:
        raise NoDocument(f'{pointer or "/"}: an object with one of {", ".join(allowed)}')
    return next(iter(json.items()))


def _part(json, key, pointer, kind=str):
    if not isinstance(json, dict) or not isinstance(json.get(key), kind):
        raise NoDocument(f'{pointer}/{key}: it is missing, or of another kind')
    return json[key]


def _each(json, key, pointer):
    return [
        (each, f'{pointer}/{key}/{number}') for number, each in enumerate(_part({key: [], **json}, key, pointer, list))
    ]


def _child(parent, json, pointer):
    name, body = _only(
        json,
        pointer,
        ['Policy', 'PolicySet', 'PolicyIdReference', 'PolicySetIdReference']
        if parent is not None
        else ['Policy', 'PolicySet'],
    )
    inner = f'{pointer}/{name}'
    if name.endswith('IdReference'):
        found = _part(body, 'Id', inner)
        if schema.collapsed(found) != found:
            raise Unwritten(f'{name}: the white space of {found[:40]!r} stands in no URI')
        return element(
            parent, name, found, **{key: body.get(key) for key in ('Version', 'EarliestVersion', 'LatestVersion')}
        )
    algorithm = 'RuleCombiningAlgId' if name == 'Policy' else 'PolicyCombiningAlgId'
    made = element(parent, name, **{key: _part(body, key, inner) for key in (f'{name}Id', 'Version', algorithm)})
    _description(made, body, inner)
    _target(element(made, 'Target'), body.get('Target', {}), f'{inner}/Target')
    for each, place in _each(body, 'Children', inner):
        _child(made, each, place)
    for each, place in _each(body, 'VariableDefinition', inner):
        _expression(
            element(made, 'VariableDefinition', VariableId=_part(each, 'VariableId', place)),
            _part(each, 'Expression', place, dict),
            f'{place}/Expression',
        )
    for each, place in _each(body, 'Rule', inner):
        _rule(made, each, place)
    _given(made, body, inner)
    return made


def _description(made, body, pointer):
    if 'Description' in body:
        element(made, 'Description', _part(body, 'Description', pointer))


def _rule(parent, json, pointer):
    made = element(parent, 'Rule', RuleId=_part(json, 'RuleId', pointer), Effect=_part(json, 'Effect', pointer))
    _description(made, json, pointer)
    if json.get('Target', {}).get('AnyOf'):
        _target(element(made, 'Target'), json['Target'], f'{pointer}/Target')
    if 'Condition' in json:
        _expression(element(made, 'Condition'), json['Condition'], f'{pointer}/Condition')
    _given(made, json, pointer)


def _target(made, json, pointer):
    for any_of, place in _each(json, 'AnyOf', pointer):
        alternative = element(made, 'AnyOf')
        for all_of, inner in _each(any_of, 'AllOf', place):
            matches = element(alternative, 'AllOf')
            for match, innermost in _each(all_of, 'Match', inner):
                one = element(matches, 'Match', MatchId=_part(match, 'MatchId', innermost))
                for name in ('AttributeValue', 'AttributeDesignator'):
                    _expression(one, {name: _part(match, name, innermost, dict)}, innermost)


def _given(made, json, pointer):
    for name, keys in [
        ('ObligationExpressions', ('ObligationId', 'FulfillOn')),
        ('AdviceExpressions', ('AdviceId', 'AppliesTo')),
    ]:
        listed = _each(json, name, pointer)
        outer = element(made, name) if listed else None
        for each, place in listed:
            one = element(outer, name.removesuffix('s'), **{key: _part(each, key, place) for key in keys})
            for part, inner in _each(each, 'AttributeAssignmentExpression', place):
                assignment = element(
                    one,
                    'AttributeAssignmentExpression',
                    AttributeId=_part(part, 'AttributeId', inner),
                    Category=part.get('Category'),
                    Issuer=part.get('Issuer'),
                )
                _expression(assignment, _part(part, 'Expression', inner, dict), f'{inner}/Expression')


def _expression(parent, json, pointer):
    name, body = _only(
        json, pointer, ['AttributeValue', 'AttributeDesignator', 'VariableReference', 'Apply', 'Function']
    )
    inner = f'{pointer}/{name}'
    if name == 'AttributeValue':
        if not isinstance(body, dict) or not isinstance(body.get('Value'), (str, bool, int)):
            raise NoDocument(f'{inner}/Value: a text, true, false or a whole number')
        found = full_literal(body)
        element(parent, name, literals.text_of(found['DataType'], found['Value']), DataType=found['DataType'])
    elif name == 'AttributeDesignator':
        element(
            parent,
            name,
            Category=_part(body, 'Category', inner),
            AttributeId=_part(body, 'AttributeId', inner),
            DataType=full_type(_part(body, 'DataType', inner)),
            Issuer=body.get('Issuer'),
            MustBePresent='true' if body.get('MustBePresent') else 'false',
        )
    elif name == 'VariableReference':
        element(parent, name, VariableId=_part(body, 'VariableId', inner))
    else:
        made = element(parent, name, FunctionId=_part(body, 'FunctionId', inner))
        for each, place in _each(body, 'Arguments', inner):
            _expression(made, each, place)


__all__ = ['NoDocument', 'Unwritten', 'document', 'normal']
