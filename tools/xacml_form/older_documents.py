"""Forty policies of XACML 1.0, 1.1 and 2.0 in the styles in which such are written, each by its name."""
NAMESPACES = {
    '1.0': 'urn:oasis:names:tc:xacml:1.0:policy',
    '2.0': 'urn:oasis:names:tc:xacml:2.0:policy:schema:os',
}
XS = 'http://www.w3.org/2001/XMLSchema#'
F1, F2 = ('urn:oasis:names:tc:xacml:1.0:function:', 'urn:oasis:names:tc:xacml:2.0:function:')
IDS = {
    'Subject': 'urn:oasis:names:tc:xacml:1.0:subject:subject-id',
    'Resource': 'urn:oasis:names:tc:xacml:1.0:resource:resource-id',
    'Action': 'urn:oasis:names:tc:xacml:1.0:action:action-id',
}
NOW = 'urn:oasis:names:tc:xacml:1.0:environment:current-'
ALGORITHMS = {
    'deny': '1.0:{}-combining-algorithm:deny-overrides',
    'permit': '1.0:{}-combining-algorithm:permit-overrides',
    'ordered-deny': '1.1:{}-combining-algorithm:ordered-deny-overrides',
    'ordered-permit': '1.1:{}-combining-algorithm:ordered-permit-overrides',
    'first': '1.0:{}-combining-algorithm:first-applicable',
    'only': '1.0:{}-combining-algorithm:only-one-applicable',
}


def algorithm(word, of):
    return 'urn:oasis:names:tc:xacml:' + ALGORITHMS[word].format(of)


def literal(text, kind='string'):
    return f'<AttributeValue DataType="{XS}{kind}">{text}</AttributeValue>'


def attribute(category, name='', kind='string', more=''):
    """A designator; without a name the id of its category."""
    return (
        f'<{category}AttributeDesignator AttributeId="{name or IDS[category]}" DataType="{XS}{kind}"'
        f'{" " if more else ""}{more}/>'
    )


MUST = 'MustBePresent="true"'


def apply(function, *arguments):
    """An application; a function without a version is one of 1.0."""
    return f'<Apply FunctionId="{function if ":" in function else F1 + function}">{"".join(arguments)}</Apply>'


def one(category, name='', kind='string', more=''):
    return apply(f'{kind}-one-and-only', attribute(category, name, kind, more))


def match(category, text, name='', function='string-equal', kind='string', more=''):
    return (
        f'<{category}Match MatchId="{function if ":" in function else F1 + function}">{literal(text, kind)}'
        f'{attribute(category, name, kind, more)}</{category}Match>'
    )


def lists(**members):
    """A target: of each category its members, each some matches; None for any."""
    found = ''
    for category, listed in members.items():
        inner = (
            f'<Any{category}/>' if listed is None else ''.join(f'<{category}>{each}</{category}>' for each in listed)
        )
        found += f'<{category}s>{inner}</{category}s>'
    return f'<Target>{found}</Target>'


ANY = lists(Subject=None, Resource=None, Action=None)


def rule(name, effect='Permit', condition='', target='', function=''):
    """A rule; with a function its condition is that of 1.x."""
    of = f' FunctionId="{F1}{function}"' if function else ''
    holds = f'<Condition{of}>{condition}</Condition>' if condition else ''
    return f'<Rule RuleId="{name}" Effect="{effect}">{target}{holds}</Rule>'


def duty(name, effect, **values):
    inner = ''.join(
        f'<AttributeAssignment AttributeId="{key}" DataType="{XS}string">{text}</AttributeAssignment>'
        for key, text in values.items()
    )
    return f'<Obligation ObligationId="{name}" FulfillOn="{effect}">{inner}</Obligation>'


def body(kind, name, word, target, inside, duties, version):
    of = 'Rule' if kind == 'Policy' else 'Policy'
    given = f'<Obligations>{"".join(duties)}</Obligations>' if duties else ''
    return (
        f'<{kind} xmlns="{NAMESPACES[version]}" {kind}Id="{name}" {of}CombiningAlgId="{algorithm(word, of.lower())}">'
        f'<Description>{name}</Description>{target}{"".join(inside)}{given}</{kind}>'
    )


def policy(name, word, *inside, target='<Target/>', duties=(), version='2.0'):
    return body('Policy', name, word, target, inside, duties, version)


def policy_set(name, word, *inside, target='<Target/>', duties=(), version='2.0'):
    return body('PolicySet', name, word, target, inside, duties, version)


def compared(order, category, name, text, kind):
    return apply(f'{kind}-{order}', one(category, name, kind), literal(text, kind))


def about(category, *texts, name=''):
    """A member of a list for each text."""
    return {category: [match(category, text, name) for text in texts]}


DOCTOR, NURSE = match('Subject', 'doctor', 'role'), match('Subject', 'nurse', 'role')
OWNER = apply('string-equal', one('Subject'), one('Resource', 'owner'))
SMALL = compared('less-than', 'Resource', 'amount', '100', 'integer')
DAY = apply(
    F2 + 'time-in-range',
    one('Environment', NOW + 'time', 'time'),
    literal('08:00:00', 'time'),
    literal('18:00:00', 'time'),
)
NIGHT = apply(
    F2 + 'time-in-range',
    one('Environment', NOW + 'time', 'time'),
    literal('22:00:00', 'time'),
    literal('06:00:00', 'time'),
)
SHIFT = apply(
    F2 + 'time-in-range',
    one('Environment', NOW + 'time', 'time'),
    one('Subject', 'begins', 'time'),
    one('Subject', 'ends', 'time'),
)


def words(pattern, category='Resource', name='', old=False):
    """A match by a regular expression, under the name that it had in 1.x or that of 2.0."""
    return match(category, pattern, name, 'regexp-string-match' if old else 'string-regexp-match')


def defined(name, inside):
    return f'<VariableDefinition VariableId="{name}">{inside}</VariableDefinition>'


def used(name):
    return f'<VariableReference VariableId="{name}"/>'


ROLES = apply('string-bag', literal('doctor'), literal('nurse'))
FIRST = [
    policy('any-1.0', 'deny', rule('all', target=ANY), target=ANY, version='1.0'),
    policy(
        'doctors-1.0', 'first', rule('all'), target=lists(Subject=[DOCTOR], Resource=None, Action=None), version='1.0'
    ),
    policy(
        'owner-1.0',
        'permit',
        rule('own', condition=one('Subject') + one('Resource', 'owner'), function='string-equal'),
        target=ANY,
        version='1.0',
    ),
    policy(
        'small-1.0',
        'deny',
        rule(
            'small',
            condition=one('Resource', 'amount', 'integer') + literal('100', 'integer'),
            function='integer-less-than',
        ),
        rule('else', 'Deny'),
        target=ANY,
        version='1.0',
    ),
    policy(
        'both-1.0', 'ordered-deny', rule('both', condition=OWNER + SMALL, function='and'), target=ANY, version='1.0'
    ),
    policy(
        'either-1.0',
        'ordered-permit',
        rule('no', 'Deny'),
        rule('either', condition=OWNER + SMALL, function='or'),
        target=ANY,
        version='1.0',
    ),
    policy(
        'not-1.0',
        'first',
        rule('not', condition=OWNER, function='not'),
        rule('else', 'Deny'),
        target=ANY,
        version='1.0',
    ),
    policy(
        'member-1.0',
        'first',
        rule('in', condition=one('Subject', 'role') + ROLES, function='string-is-in'),
        target=ANY,
        version='1.0',
    ),
    policy(
        'words-1.0',
        'first',
        rule('page'),
        target=lists(Subject=None, Resource=[words('^/pages/', old=True)], Action=None),
        version='1.0',
    ),
    policy(
        'duty-1.0',
        'first',
        rule('all'),
        rule('never', 'Deny'),
        target=ANY,
        version='1.0',
        duties=[duty('log', 'Permit', text='seen'), duty('tell', 'Deny', text='refused')],
    ),
    policy_set(
        'set-1.0',
        'deny',
        policy(
            'a',
            'first',
            rule('a', target=ANY),
            target=lists(Subject=[DOCTOR], Resource=None, Action=None),
            version='1.0',
        ),
        target=ANY,
        version='1.0',
    ),
    policy_set(
        'only-1.0',
        'only',
        policy('d', 'first', rule('d'), target=lists(Subject=[DOCTOR], Resource=None, Action=None), version='1.0'),
        policy(
            'n', 'first', rule('n', 'Deny'), target=lists(Subject=[NURSE], Resource=None, Action=None), version='1.0'
        ),
        target=ANY,
        version='1.0',
    ),
]
SECOND = [
    policy('any', 'deny', rule('all')),
    policy('doctors', 'deny', rule('all'), target=lists(Subject=[DOCTOR])),
    policy('doctors-or-nurses', 'permit', rule('all'), target=lists(Subject=[DOCTOR, NURSE])),
    policy('doctors-who-nurse', 'permit', rule('all'), target=lists(Subject=[DOCTOR + NURSE])),
    policy('reads', 'first', rule('all'), target=lists(**about('Action', 'read', 'list'))),
    policy(
        'record-reads',
        'first',
        rule('all'),
        target=lists(**about('Resource', 'record', name='kind'), **about('Action', 'read')),
    ),
    policy('by-day', 'first', rule('day', condition=DAY), rule('else', 'Deny')),
    policy('by-night', 'deny', rule('night', 'Deny', condition=NIGHT), rule('all')),
    policy('by-shift', 'permit', rule('shift', condition=SHIFT)),
    policy(
        'own', 'permit', rule('own', condition=OWNER), rule('else', 'Deny', target=lists(**about('Action', 'delete')))
    ),
    policy('small', 'deny', rule('small', condition=SMALL), rule('large', 'Deny', condition=apply('not', SMALL))),
    policy(
        'defined',
        'first',
        defined('own', OWNER),
        defined('small', SMALL),
        rule('both', condition=apply('and', used('own'), used('small'))),
        rule('else', 'Deny', condition=apply('not', used('own'))),
    ),
    policy('has-role', 'deny', rule('all'), target=lists(Subject=[match('Subject', 'doctor', 'role', more=MUST)])),
    policy(
        'has-amount',
        'permit',
        rule(
            'some',
            condition=apply(
                'integer-is-in', literal('100', 'integer'), attribute('Resource', 'amount', 'integer', MUST)
            ),
        ),
        rule('else', 'Deny'),
    ),
    policy(
        'any-role',
        'first',
        rule(
            'any',
            condition=apply(
                'any-of', f'<Function FunctionId="{F1}string-equal"/>', literal('doctor'), attribute('Subject', 'role')
            ),
        ),
    ),
    policy(
        'same-team',
        'first',
        rule(
            'same',
            condition=apply(
                'any-of-any',
                f'<Function FunctionId="{F1}string-equal"/>',
                attribute('Subject', 'team'),
                attribute('Resource', 'team'),
            ),
        ),
    ),
    policy(
        'levels',
        'first',
        rule(
            'over',
            condition=apply(
                'any-of-any',
                f'<Function FunctionId="{F1}integer-greater-than"/>',
                attribute('Subject', 'level', 'integer'),
                apply('integer-bag', literal('3', 'integer'), literal('7', 'integer')),
            ),
        ),
    ),
    policy(
        'all-teams',
        'first',
        rule(
            'all',
            condition=apply(
                'all-of-any',
                f'<Function FunctionId="{F1}string-equal"/>',
                attribute('Subject', 'team'),
                attribute('Resource', 'team'),
            ),
        ),
    ),
    policy('two-of-three', 'first', rule('two', condition=apply('n-of', literal('2', 'integer'), OWNER, SMALL, DAY))),
    policy('pages', 'first', rule('page', target=lists(Resource=[words('^/(pages|books)/.*')])), rule('else', 'Deny')),
    policy(
        'mail',
        'first',
        rule('mail', condition=apply('string-regexp-match', literal(r'@(example|test)\.org$'), one('Subject', 'mail'))),
    ),
    policy(
        'recipient',
        'first',
        rule(
            'to',
            condition=apply(
                'string-is-in',
                literal('desk'),
                attribute(
                    'Subject',
                    'role',
                    more='SubjectCategory="urn:oasis:names:tc:xacml:1.0:subject-category:recipient-subject"',
                ),
            ),
        ),
    ),
    policy(
        'issued', 'first', rule('by', target=lists(Subject=[match('Subject', 'doctor', 'role', more='Issuer="board"')]))
    ),
    policy(
        'duties',
        'deny',
        rule('own', condition=OWNER),
        rule('never', 'Deny', target=lists(**about('Action', 'delete'))),
        duties=[duty('log', 'Permit', by='desk', text='own'), duty('tell', 'Deny'), duty('more', 'Permit', x='1')],
    ),
    policy_set(
        'wards',
        'permit',
        policy('w', 'deny', rule('w', condition=OWNER), target=lists(Subject=[DOCTOR])),
        policy('x', 'first', rule('x', 'Deny'), duties=[duty('x', 'Deny', y='z')]),
        duties=[duty('set', 'Deny')],
    ),
    policy_set(
        'deep',
        'deny',
        policy_set(
            'inner', 'first', policy('p', 'permit', rule('p', condition=SMALL)), policy('q', 'deny', rule('q', 'Deny'))
        ),
        target=lists(**about('Action', 'read')),
    ),
    policy_set(
        'only-one',
        'only',
        policy('d', 'deny', rule('d'), target=lists(Subject=[DOCTOR])),
        policy('n', 'deny', rule('n', 'Deny'), target=lists(Subject=[NURSE])),
    ),
    policy_set(
        'in-order',
        'ordered-permit',
        policy('a', 'ordered-deny', rule('a', condition=OWNER)),
        policy('b', 'ordered-permit', rule('b', 'Deny', condition=SMALL)),
    ),
]
DOCUMENTS = FIRST + SECOND
