"""Words to write policies in XML with, as their authors would, and to ask them."""
import datetime
import re
from typing import NamedTuple

from . import names

URIS = {
    uri.rpartition(':')[2]: uri
    for uri in names.HERE_FUNCTIONS | {names.TIME_IN_RANGE, names.N_OF, names.ANY_OF_ANY, names.ALL_OF_ANY}
}
KINDS = {
    bool: 'boolean',
    int: 'integer',
    str: 'string',
    datetime.date: 'date',
    datetime.time: 'time',
    datetime.datetime: 'dateTime',
}
IDS = {one: f'urn:oasis:names:tc:xacml:1.0:{one[:-3]}:{one}' for one in ('subject-id', 'resource-id', 'action-id')} | {
    f'current-{one}': f'urn:oasis:names:tc:xacml:1.0:environment:current-{one}' for one in ('date', 'time', 'dateTime')
}
VERSIONS = {'first-applicable': '1.0', 'only-one-applicable': '1.0'}

# How different programs begin a file, and the prefix that they give to the elements.
HEADS = {
    'plain': ('', f'xmlns="{names.NAMESPACE}"'),
    'located': (
        '',
        f'xmlns="{names.NAMESPACE}" xmlns:xsi="http://www.w3.org/2001/XMLSchema-instance"'
        f' xsi:schemaLocation="{names.NAMESPACE} http://docs.oasis-open.org/xacml/3.0/xacml-core-v3-schema-wd-17.xsd"',
    ),
    'prefixed': ('xacml3:', f'xmlns:xacml3="{names.NAMESPACE}"'),
}


class Attribute(NamedTuple):
    """An attribute that is asked for."""

    category: str
    name: str
    kind: str = 'string'
    must: bool = False


class Written(NamedTuple):
    """A policy in XML, and requests with the decision that its author meant: values by attribute."""

    name: str
    text: str
    asked: list


def subject(name, kind='string', **more):
    return Attribute('AccessSubject', name, kind, **more)


def resource(name, kind='string', **more):
    return Attribute('Resource', name, kind, **more)


def around(name, kind='string', **more):
    """An attribute of the environment."""
    return Attribute('Environment', name, kind, **more)


USER, ITEM, ACTION = subject('subject-id'), resource('resource-id'), Attribute('Action', 'action-id')
TODAY, TIME, NOW = (around(f'current-{kind}', kind) for kind in ('date', 'time', 'dateTime'))


def element(name, *inside, **attributes):
    """An element of XML, with its attributes and what stands inside."""
    keys = ''.join(f' {key}="{value}"' for key, value in attributes.items() if value)
    return f'<{name}{keys}>' + '\n'.join(inside) + f'</{name}>'


# ---- expressions


def literal(value, kind=''):
    kind = kind or KINDS[type(value)]
    text = str(value).lower() if kind == 'boolean' else value.isoformat() if hasattr(value, 'isoformat') else value
    return element('AttributeValue', str(text), DataType=names.XML_SCHEMA + kind)


def bag(attribute):
    """All values of an attribute."""
    return element(
        'AttributeDesignator',
        Category=names.CATEGORIES[attribute.category],
        AttributeId=IDS.get(attribute.name, attribute.name),
        DataType=names.XML_SCHEMA + attribute.kind,
        MustBePresent=str(attribute.must).lower(),
    )


def said(argument):
    """An argument: an expression, an attribute with one value, or a literal."""
    if isinstance(argument, Attribute):
        return apply(f'{argument.kind}-one-and-only', bag(argument))
    return argument if isinstance(argument, str) and argument.startswith('<') else literal(argument)


def apply(function, *arguments):
    return element('Apply', *map(said, arguments), FunctionId=URIS[function])


def function(name):
    return element('Function', FunctionId=URIS[name])


def variable(name):
    return element('VariableReference', VariableId=name)


def both(*arguments):
    return apply('and', *arguments)


def either(*arguments):
    return apply('or', *arguments)


def compared(attribute, how, other):
    """An attribute's one value compared with a literal or with another's."""
    return apply(f'{attribute.kind}-{how}', attribute, other)


def has(attribute, value):
    """A value among those of an attribute."""
    return apply(f'{attribute.kind}-is-in', value, bag(attribute))


def listed(attribute, *values):
    """An attribute's one value among some literals."""
    return apply(f'{attribute.kind}-is-in', attribute, apply(f'{attribute.kind}-bag', *values))


# ---- targets


def match(attribute, value, how='equal'):
    return element('Match', literal(value, attribute.kind), bag(attribute), MatchId=URIS[f'{attribute.kind}-{how}'])


def target(*groups):
    """A target that has for each group one of its members, each of which is one match or some that have to hold."""
    lists = [[one if isinstance(one, list) else [one] for one in group] for group in groups]
    return element(
        'Target', *(element('AnyOf', *(element('AllOf', *matches) for matches in group)) for group in lists)
    )


def about(attribute, *values):
    """A target that asks an attribute for one of some values."""
    return target([match(attribute, value) for value in values])


# ---- rules, policies and sets


def assigned(assignments):
    return [
        element('AttributeAssignmentExpression', said(value), AttributeId=name) for name, value in assignments.items()
    ]


def duty(name, effect, **assignments):
    return element('ObligationExpression', *assigned(assignments), ObligationId=name, FulfillOn=effect)


def hint(name, effect, **assignments):
    return element('AdviceExpression', *assigned(assignments), AdviceId=name, AppliesTo=effect)


def duties(obligations, advice):
    """Obligations and advice, as far as there are any."""
    kinds = [('ObligationExpressions', obligations), ('AdviceExpressions', advice)]
    return [element(name, *inside) for name, inside in kinds if inside]


def rule(name, effect, *conditions, about='', obligations=(), advice=()):
    return element(
        'Rule',
        *([about] if about else []),
        *(element('Condition', said(condition)) for condition in conditions),
        *duties(obligations, advice),
        RuleId=name,
        Effect=effect,
    )


def permit(*conditions, name='permit', **more):
    return rule(name, 'Permit', *conditions, **more)


def deny(*conditions, name='deny', **more):
    return rule(name, 'Deny', *conditions, **more)


def combined(kind, one, name, algorithm, inside, about, obligations, advice):
    """A policy or a set."""
    uri = f'urn:oasis:names:tc:xacml:{VERSIONS.get(algorithm, "3.0")}:{one}-combining-algorithm:{algorithm}'
    return element(
        kind,
        element('Description', f'{name}, as it was agreed'),
        about or element('Target'),
        *inside,
        *duties(obligations, advice),
        **{f'{kind}Id': name, 'Version': '1.0', f'{one.title()}CombiningAlgId': uri},
    )


def policy(name, algorithm, *rules, about='', obligations=(), advice=()):
    return combined('Policy', 'rule', name, algorithm, rules, about, obligations, advice)


def policy_set(name, algorithm, *children, about='', obligations=(), advice=()):
    return combined('PolicySet', 'policy', name, algorithm, children, about, obligations, advice)


def reference(kind, name, version=''):
    return element(f'{kind}IdReference', name, Version=version)


def written(text, *asked, head='plain'):
    """A file as one of the programs writes it, with what it is asked."""
    prefix, namespace = HEADS[head]
    kind, name = re.match(r'<(PolicySet|Policy) \w+Id="([^"]*)"', text).groups()
    defaults = element(f'{kind}Defaults', element('XPathVersion', 'http://www.w3.org/TR/1999/REC-xpath-19991116'))
    text = text.replace('</Description>', f'</Description>\n{defaults}', 1) if prefix else text
    tagged = re.sub(r'<(/?)(?=[A-Z])', rf'<\1{prefix}', text).replace(' ', f' {namespace} ', 1)
    return Written(name, f'<?xml version="1.0" encoding="UTF-8"?>\n{tagged}\n', list(asked))


def request(values):
    """A request as the driver takes it."""
    return [
        (
            names.CATEGORIES[one.category],
            IDS.get(one.name, one.name),
            one.kind,
            [value.isoformat() if hasattr(value, 'isoformat') else value for value in found],
        )
        for one, found in values.items()
    ]
