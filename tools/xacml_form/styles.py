"""Policies in the styles that people have, each by its style and a word: what comes over of them, and what stops the
others. Those of XACML 1.0 to 2.0 stand in older_documents.py."""
import re

from . import names, older_documents
from .driver import F1, SUBJECT, apply, bag, function, literal, policy, single

F2, F3 = (names.FUNCTION.format(version, '{}').format for version in ('2.0', '3.0'))
RESOURCE, ENVIRONMENT = names.CATEGORIES['Resource'], names.CATEGORIES['Environment']
RESOURCE_ID = 'urn:oasis:names:tc:xacml:1.0:resource:resource-id'
NOW = 'urn:oasis:names:tc:xacml:1.0:environment:current-'
DOUBLE, DAYS = names.XML_SCHEMA + 'double', names.XML_SCHEMA + 'dayTimeDuration'


def typed(uri, text):
    return f'<AttributeValue DataType="{uri}">{text}</AttributeValue>'


def asked(category, name, kind='string'):
    """A designator."""
    uri = kind if ':' in kind else names.XML_SCHEMA + kind
    return f'<AttributeDesignator Category="{category}" AttributeId="{name}" DataType="{uri}" MustBePresent="false"/>'


def one(category, name, kind='string'):
    return apply(F1(f'{kind}-one-and-only'), asked(category, name, kind))


def about(match):
    """A policy of one rule whose target has a Match."""
    text = policy(literal('boolean', 'true')).decode()
    return text.replace('<Target/>', f'<Target><AnyOf><AllOf>{match}</AllOf></AnyOf></Target>', 1)


def matched(function_, text, attribute, kind='string'):
    return f'<Match MatchId="{function_}">{literal(kind, text)}{attribute}</Match>'


def under(algorithm, text):
    """A policy under another algorithm."""
    return re.sub('RuleCombiningAlgId="[^"]*"', f'RuleCombiningAlgId="{algorithm}"', text)


def condition(inside):
    return policy(inside).decode()


PATH, ROLE = asked(RESOURCE, RESOURCE_ID), bag('role', 'string')
SELECTED = (
    f'<AttributeSelector Category="{RESOURCE}" Path="//patient/id/text()" DataType="{names.XML_SCHEMA}string"'
    ' MustBePresent="false"/>'
)
EQUAL = F1('string-equal')
CLOCK = one(ENVIRONMENT, NOW + 'time', 'time')
PLAIN = about(matched(EQUAL, 'doctor', ROLE))
INSIDE = (
    f'<PolicySet xmlns="{names.NAMESPACE}" PolicySetId="all" Version="1"'
    ' PolicyCombiningAlgId="urn:oasis:names:tc:xacml:3.0:policy-combining-algorithm:permit-overrides"><Target/>'
    + PLAIN.replace(f' xmlns="{names.NAMESPACE}"', '')
    + '<PolicyIdReference>p</PolicyIdReference></PolicySet>'
)
THREE = {
    'plain-role': PLAIN,
    'plain-order': condition(apply(F1('integer-greater-than'), single('level', 'integer'), literal('integer', '3'))),
    'plain-set': INSIDE,
    'gateway-prefix': about(matched(names.REGEXP_MATCH, '^/accounts/.*', PATH)),
    'gateway-methods': about(matched(names.REGEXP_MATCH, '^(GET|HEAD|OPTIONS)$', asked(RESOURCE, 'method'))),
    'gateway-suffix': about(matched(names.REGEXP_MATCH, r'\.(png|jpg|css)$', PATH)),
    'gateway-numbers': about(matched(names.REGEXP_MATCH, r'^/accounts/\d+$', PATH)),
    'gateway-uri': about(matched(F2('anyURI-regexp-match'), '^http://a/.*$', asked(RESOURCE, 'page', 'anyURI'))),
    'gateway-whole-uri': about(
        matched(F2('anyURI-regexp-match'), '^http://a/(b|c)$', asked(RESOURCE, 'page', 'anyURI'))
    ),
    'mail-domain': condition(apply(names.ANY_OF, function(names.REGEXP_MATCH), literal('string', r'@a\.org$'), ROLE)),
    'mail-name': about(
        matched(EQUAL, 'a@a.org', asked(SUBJECT, 'mail', 'urn:oasis:names:tc:xacml:1.0:data-type:rfc822Name'))
    ),
    'records-selector': condition(apply(F1('string-is-in'), literal('string', 'p1'), SELECTED)),
    'records-count': condition(
        apply(F3('xpath-node-count'), typed(names.XPATH_TYPE, '//a').replace('>', ' XPathCategory="urn:x">', 1))
    ),
    'case-lower': condition(
        apply(EQUAL, apply(F1('string-normalize-to-lower-case'), single('role', 'string')), literal('string', 'a'))
    ),
    'case-ignored': about(matched(F3('string-equal-ignore-case'), 'doctor', ROLE)),
    'money-double': condition(
        apply(
            F1('double-less-than'),
            apply(F1('double-one-and-only'), asked(RESOURCE, 'sum', DOUBLE)),
            typed(DOUBLE, '9.5'),
        )
    ),
    'money-limits': condition(
        apply(
            names.ANY_OF_ANY,
            function(F1('integer-less-than')),
            bag('sum', 'integer'),
            apply(F1('integer-bag'), literal('integer', '10'), literal('integer', '99')),
        )
    ),
    'money-two-bags': condition(
        apply(names.ANY_OF_ANY, function(F1('integer-less-than')), bag('sum', 'integer'), bag('limit', 'integer'))
    ),
    'time-office': condition(
        apply(names.TIME_IN_RANGE, CLOCK, literal('time', '08:00:00.000'), literal('time', '18:00:00.000'))
    ),
    'time-shift': condition(apply(names.TIME_IN_RANGE, CLOCK, single('begins', 'time'), single('ends', 'time'))),
    'time-moment': condition(
        apply(
            F1('dateTime-less-than'),
            one(ENVIRONMENT, NOW + 'dateTime', 'dateTime'),
            literal('dateTime', '2026-01-01T00:00:00.000Z'),
        )
    ),
    'time-half': condition(apply(F1('time-less-than'), CLOCK, literal('time', '08:00:00.500'))),
    'time-days': condition(
        apply(
            F1('dateTime-less-than'),
            one(ENVIRONMENT, NOW + 'dateTime', 'dateTime'),
            apply(F3('dateTime-add-dayTimeDuration'), single('since', 'dateTime'), typed(DAYS, 'P30D')),
        )
    ),
    'names-version': condition(apply(F3('string-equal'), single('role', 'string'), literal('string', 'a'))),
    'names-first': under('urn:oasis:names:tc:xacml:3.0:rule-combining-algorithm:first-applicable', PLAIN),
    'names-legacy': under('urn:oasis:names:tc:xacml:1.0:rule-combining-algorithm:permit-overrides', PLAIN),
    'own-function': condition(apply('urn:acme:within', single('place', 'string'), literal('string', 'a'))),
    'own-algorithm': under('urn:acme:last-applicable', PLAIN),
    'net-address': about(
        matched(
            F2('ipAddress-regexp-match'),
            '^10[.]',
            asked(SUBJECT, 'address', names.DATA_TYPE.format('2.0', 'ipAddress')),
        )
    ),
}


def older_style(text):
    """What a policy of an older version is called: the version and its own name."""
    version = '1.0' if ':1.0:policy"' in text else '2.0'
    return f'sun-{version}-' + re.search('Policy(?:Set)?Id="([^"]*)"', text)[1].removesuffix('-1.0')


def named(style, text):
    """A policy whose id is its style."""
    return re.sub(r'(PolicyId="|IdReference>)p(?=["<])', rf'\1{style}', text)


THREE = {style: named(style, text) for style, text in THREE.items()}
COLLECTION = {**THREE, **{older_style(text): text for text in older_documents.DOCUMENTS}}
# Those of 3.0 that come over.
OVER = (
    'gateway-methods gateway-prefix gateway-suffix gateway-whole-uri mail-domain money-limits plain-order plain-role'
    ' plain-set time-moment time-office time-shift'
).split()
