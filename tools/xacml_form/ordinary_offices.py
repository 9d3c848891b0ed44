"""Ordinary policies of an office, of leave, money and documents, each with what it is asked."""
from datetime import date, datetime

from . import written as xml
from .written import ACTION, NOW, TODAY, USER, about, apply, bag, both, compared, deny, duty, either, function, has
from .written import hint, listed, literal, match, permit, policy, policy_set, resource, subject, target, variable
from .written import written

ROLE, GRADE, TEAM, CLEARANCE = subject('role'), subject('grade', 'integer'), subject('department'), subject('clearance')
KIND, OWNER, AMOUNT, STATE = resource('kind'), resource('owner'), resource('amount', 'integer'), resource('state')
TEAM_OF, MANAGER, FIRST_DAY = resource('department'), resource('manager'), resource('first-day', 'date')
APPROVALS, FINANCE, SIGNED = resource('approvals', 'integer'), resource('finance', 'boolean'), resource('signed-by')
SPENT, BUDGET, BAND = resource('spent', 'integer'), resource('budget', 'integer'), resource('band', 'integer')
ENTERED_BY, CREATED, HELD = resource('entered-by'), resource('created', 'date'), resource('on-hold', 'boolean')
PUBLISHED, LABEL, PROJECT = resource('published', 'dateTime'), resource('label'), resource('project')
LABELS, PROJECTS, UNTIL = subject('label'), subject('project'), subject('contract-until', 'date')
LEAVE, EXPENSE, INVOICE, PAYMENT = ({KIND: [kind]} for kind in ('leave', 'expense', 'invoice', 'payment'))
ORDER, SALARY, PAPER = ({KIND: [kind]} for kind in ('order', 'salary', 'document'))
READ = {ACTION: ['read']}
OLD = PAPER | {ACTION: ['delete'], CREATED: [date(2016, 2, 3)], ROLE: ['archivist']}
YEARS = 'yearMonthDuration'

LEAVES = [
    written(
        policy('leave-own', 'deny-unless-permit', permit(compared(USER, 'equal', OWNER)), about=about(KIND, 'leave')),
        (LEAVE | {USER: ['ann'], OWNER: ['ann']}, 'Permit'),
        (LEAVE | {USER: ['bob'], OWNER: ['ann']}, 'Deny'),
    ),
    written(
        policy(
            'leave-approval',
            'deny-overrides',
            permit(apply('any-of', function('string-equal'), USER, bag(MANAGER))),
            deny(compared(USER, 'equal', OWNER)),
            about=target([match(KIND, 'leave')], [match(ACTION, 'approve')]),
        ),
        (LEAVE | {ACTION: ['approve'], USER: ['bea'], OWNER: ['ann'], MANAGER: ['bea', 'carl']}, 'Permit'),
        (LEAVE | {ACTION: ['approve'], USER: ['bea'], OWNER: ['bea'], MANAGER: ['bea']}, 'Deny'),
        (LEAVE | {ACTION: ['approve'], USER: ['dan'], OWNER: ['ann'], MANAGER: ['bea']}, 'NotApplicable'),
        head='located',
    ),
    written(
        policy(
            'leave-in-time',
            'permit-unless-deny',
            deny(
                compared(TODAY, 'greater-than', apply(f'date-subtract-{YEARS}', FIRST_DAY, literal('P1M', YEARS))),
                advice=[hint('ask-earlier', 'Deny', text='a month before the first day')],
            ),
            about=target([match(KIND, 'leave')], [match(ACTION, 'ask')]),
        ),
        (LEAVE | {ACTION: ['ask'], TODAY: [date(2026, 6, 1)], FIRST_DAY: [date(2026, 8, 3)]}, 'Permit'),
        (LEAVE | {ACTION: ['ask'], TODAY: [date(2026, 7, 20)], FIRST_DAY: [date(2026, 8, 3)]}, 'Deny'),
        head='prefixed',
    ),
]

MONEY = [
    written(
        policy(
            'expense-limits',
            'permit-overrides',
            permit(name='clerk', about=target([[match(ROLE, 'clerk'), match(AMOUNT, 500, 'greater-than-or-equal')]])),
            permit(name='manager', about=target([[match(ROLE, 'manager'), match(AMOUNT, 5000, 'greater-than')]])),
            permit(name='director', about=about(ROLE, 'director')),
            deny(name='else'),
            about=about(KIND, 'expense'),
        ),
        (EXPENSE | {ROLE: ['clerk'], AMOUNT: [500]}, 'Permit'),
        (EXPENSE | {ROLE: ['clerk'], AMOUNT: [501]}, 'Deny'),
        (EXPENSE | {ROLE: ['clerk', 'director'], AMOUNT: [90000]}, 'Permit'),
    ),
    written(
        policy(
            'expense-second-look',
            'deny-overrides',
            deny(compared(APPROVALS, 'less-than', 2)),
            permit(name='two-looked'),
            about=target([[match(AMOUNT, 1000, 'less-than-or-equal'), match(AMOUNT, 10000, 'greater-than')]]),
            obligations=[duty('log', 'Permit', amount=AMOUNT), duty('log-refusal', 'Deny', by=USER)],
        ),
        ({AMOUNT: [1000], APPROVALS: [2]}, 'Permit'),
        ({AMOUNT: [9999], APPROVALS: [1], USER: ['ann']}, 'Deny'),
        ({AMOUNT: [10000]}, 'NotApplicable'),
    ),
    written(
        policy(
            'invoice-duties-apart',
            'ordered-deny-overrides',
            xml.element('VariableDefinition', has(ENTERED_BY, USER), VariableId='entered'),
            deny(both(compared(ACTION, 'equal', 'approve'), variable('entered')), name='own'),
            deny(both(compared(ACTION, 'equal', 'delete'), apply('not', variable('entered'))), name='of-others'),
            permit(about=about(ROLE, 'accountant', 'controller')),
            about=about(KIND, 'invoice'),
        ),
        (INVOICE | {ACTION: ['approve'], USER: ['ann'], ENTERED_BY: ['ann'], ROLE: ['controller']}, 'Deny'),
        (INVOICE | {ACTION: ['approve'], USER: ['ann'], ENTERED_BY: ['bob'], ROLE: ['controller']}, 'Permit'),
        head='located',
    ),
    written(
        policy(
            'payment-run',
            'deny-unless-permit',
            permit(
                both(
                    compared(FINANCE, 'equal', True),
                    apply('integer-greater-than-or-equal', apply('string-bag-size', bag(SIGNED)), 2),
                )
            ),
            about=about(KIND, 'payment'),
        ),
        (PAYMENT | {FINANCE: [True], SIGNED: ['ann', 'bob']}, 'Permit'),
        (PAYMENT | {FINANCE: [True], SIGNED: ['ann']}, 'Deny'),
    ),
    written(
        policy(
            'order-budget',
            'deny-unless-permit',
            permit(apply('integer-less-than-or-equal', apply('integer-add', SPENT, AMOUNT), BUDGET)),
            about=target([match(KIND, 'order')], [match(ACTION, 'create'), match(ACTION, 'change')]),
            obligations=[duty('book', 'Permit', amount=AMOUNT, of=TEAM_OF)],
            advice=[hint('budget', 'Deny', text='more than is left')],
        ),
        (ORDER | {ACTION: ['change'], SPENT: [900], AMOUNT: [100], BUDGET: [1000], TEAM_OF: ['it']}, 'Permit'),
        (ORDER | {ACTION: ['create'], SPENT: [900], AMOUNT: [101], BUDGET: [1000], TEAM_OF: ['it']}, 'Deny'),
        head='prefixed',
    ),
    written(
        policy(
            'salary-bands',
            'first-applicable',
            permit(compared(USER, 'equal', OWNER), name='own', about=about(ACTION, 'read')),
            permit(
                both(has(TEAM, 'staff'), compared(GRADE, 'greater-than-or-equal', 7), compared(BAND, 'less-than', 12)),
                name='staff-office',
            ),
            deny(name='else'),
            about=about(KIND, 'salary'),
        ),
        (SALARY | READ | {USER: ['ann'], OWNER: ['ann'], TEAM: ['it']}, 'Permit'),
        (SALARY | READ | {USER: ['eve'], OWNER: ['ann'], TEAM: ['staff'], GRADE: [8], BAND: [11]}, 'Permit'),
        (SALARY | READ | {USER: ['eve'], OWNER: ['ann'], TEAM: ['staff'], GRADE: [8], BAND: [12]}, 'Deny'),
    ),
]

DOCUMENTS = [
    written(
        policy(
            'document-clearance',
            'deny-overrides',
            permit(
                apply('string-subset', bag(LABEL), bag(LABELS)),
                name='all-labels',
                obligations=[duty('watermark', 'Permit', who=USER)],
            ),
            deny(
                both(has(LABEL, 'secret'), apply('not', listed(CLEARANCE, 'secret', 'top-secret'))), name='not-cleared'
            ),
            about=target([match(KIND, 'document')], [match(ACTION, 'read')]),
        ),
        (PAPER | READ | {USER: ['ann'], LABEL: ['secret'], LABELS: ['secret', 'eu'], CLEARANCE: ['secret']}, 'Permit'),
        (PAPER | READ | {USER: ['ann'], LABEL: ['secret'], LABELS: ['secret'], CLEARANCE: ['none']}, 'Deny'),
    ),
    written(
        policy(
            'document-drafts',
            'ordered-permit-overrides',
            permit(compared(USER, 'equal', OWNER), name='author'),
            permit(apply('string-at-least-one-member-of', bag(TEAM), bag(TEAM_OF)), name='same-department'),
            deny(name='else'),
            about=target([[match(KIND, 'document'), match(STATE, 'draft')]]),
        ),
        (PAPER | {STATE: ['draft'], USER: ['bob'], OWNER: ['ann'], TEAM: ['law', 'it'], TEAM_OF: ['it']}, 'Permit'),
        (PAPER | {STATE: ['draft'], USER: ['bob'], OWNER: ['ann'], TEAM: ['law'], TEAM_OF: ['it']}, 'Deny'),
        head='located',
    ),
    written(
        policy(
            'document-embargo',
            'deny-unless-permit',
            permit(compared(NOW, 'greater-than-or-equal', PUBLISHED), name='is-out'),
            permit(has(ROLE, 'press'), name='press'),
            about=target([match(KIND, 'document')], [match(STATE, 'published')]),
        ),
        (PAPER | {STATE: ['published'], NOW: [datetime(2026, 3, 2)], PUBLISHED: [datetime(2026, 3, 2)]}, 'Permit'),
        (PAPER | {STATE: ['published'], NOW: [datetime(2026, 3, 2)], PUBLISHED: [datetime(2026, 3, 3)]}, 'Deny'),
    ),
    written(
        policy(
            'document-retention',
            'deny-overrides',
            deny(compared(HELD, 'equal', True), name='legal-hold', advice=[hint('tell-law', 'Deny', of=OWNER)]),
            deny(
                compared(TODAY, 'less-than', apply(f'date-add-{YEARS}', CREATED, literal('P10Y', YEARS))),
                name='ten-years',
            ),
            permit(has(ROLE, 'archivist')),
            about=target([[match(KIND, 'document'), match(ACTION, 'delete')]]),
        ),
        (OLD | {HELD: [False], TODAY: [date(2026, 2, 3)]}, 'Permit'),
        (OLD | {HELD: [False], TODAY: [date(2026, 2, 2)]}, 'Deny'),
        (OLD | {HELD: [True], TODAY: [date(2026, 2, 3)], OWNER: ['ann']}, 'Deny'),
        head='prefixed',
    ),
    written(
        policy(
            'project-members',
            'deny-unless-permit',
            permit(
                either(
                    apply('any-of-any', function('string-equal'), bag(PROJECTS), bag(PROJECT)),
                    both(has(ROLE, 'auditor'), compared(ACTION, 'equal', 'read')),
                )
            ),
        ),
        ({PROJECTS: ['apollo', 'gemini'], PROJECT: ['gemini'], ACTION: ['write']}, 'Permit'),
        ({PROJECT: ['gemini'], ROLE: ['auditor'], ACTION: ['read']}, 'Permit'),
        ({PROJECT: ['gemini'], ROLE: ['auditor'], ACTION: ['write']}, 'Deny'),
        head='prefixed',
    ),
    written(
        policy(
            'contractors',
            'permit-unless-deny',
            deny(either(compared(UNTIL, 'less-than', TODAY), has(LABEL, 'internal'))),
            about=about(ROLE, 'contractor'),
            obligations=[duty('end-session', 'Deny')],
        ),
        ({ROLE: ['contractor'], UNTIL: [date(2026, 12, 31)], TODAY: [date(2026, 12, 31)]}, 'Permit'),
        ({ROLE: ['contractor'], UNTIL: [date(2026, 12, 31)], TODAY: [date(2027, 1, 1)]}, 'Deny'),
    ),
    written(
        policy_set(
            'office',
            'permit-overrides',
            policy(
                'office-readers',
                'deny-overrides',
                permit(about=about(ACTION, 'read', 'list')),
                about=about(ROLE, 'reader', 'editor'),
            ),
            policy(
                'office-editors',
                'deny-overrides',
                permit(about=about(ACTION, 'write')),
                deny(compared(STATE, 'equal', 'closed'), about=about(ACTION, 'write')),
                about=about(ROLE, 'editor'),
            ),
            about=about(TEAM_OF, 'office'),
            obligations=[duty('log', 'Permit', who=USER), duty('log', 'Deny', who=USER)],
        ),
        ({TEAM_OF: ['office'], ROLE: ['reader'], ACTION: ['list'], USER: ['ann']}, 'Permit'),
        ({TEAM_OF: ['office'], ROLE: ['editor'], ACTION: ['write'], STATE: ['closed'], USER: ['ann']}, 'Deny'),
        ({TEAM_OF: ['office'], ROLE: ['reader'], ACTION: ['write'], USER: ['ann']}, 'NotApplicable'),
        head='located',
    ),
]
OFFICES = LEAVES + MONEY + DOCUMENTS
