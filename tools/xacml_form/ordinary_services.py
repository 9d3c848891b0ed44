"""Ordinary policies of a hospital, a bank and services on a net, each with what it is asked."""
from datetime import date, datetime, time

from .written import ACTION, ITEM, NOW, TIME, TODAY, USER, Attribute, about, apply, around, bag, both, compared, deny
from .written import duty, either, function, has, hint, listed, literal, match, permit, policy, policy_set, reference
from .written import resource, subject, target, written

ROLE, KIND, WEEKDAY, AMOUNT = subject('role'), resource('kind'), around('weekday'), resource('amount', 'integer')
PATIENT, PHYSICIAN, GUARDIAN = resource('patient'), resource('physician'), resource('guardian')
BORN, WARD, WARD_OF, ON_SHIFT = resource('born', 'date'), subject('ward'), resource('ward'), subject('shift', 'boolean')
EMERGENCY, STRONG = around('emergency', 'boolean'), subject('second-factor', 'boolean')
FAILED, BOOKED, SEATS = around('failed', 'integer'), resource('booked', 'integer'), resource('seats', 'integer')
MANAGED, PATCHED = (Attribute('RequestingMachine', *one) for one in (('managed', 'boolean'), ('patches', 'integer')))
TENANT, TENANT_OF, SCOPE = subject('tenant', must=True), resource('tenant', must=True), subject('scope')
CALLER, MAIL, SPACE = Attribute('IntermediarySubject', 'service'), subject('mail'), resource('space', 'anyURI')
CHECKED_BY, CHECKERS = resource('checked-by'), resource('checker')
BRANCH, BRANCH_OF = subject('branch'), resource('branch')
RECORD, TRANSFER, ROOM, CHANGE = ({KIND: [kind]} for kind in ('record', 'transfer', 'room', 'change'))
READ, WRITE, YEARS = {ACTION: ['read']}, {ACTION: ['write']}, 'yearMonthDuration'
WARDEN = RECORD | READ | {USER: ['ma'], PATIENT: ['p7'], GUARDIAN: ['ma'], BORN: [date(2010, 5, 5)]}
MANAGER = TRANSFER | {ROLE: ['branch-manager'], AMOUNT: [9000], BRANCH: ['north'], USER: ['bea']}

HOURS = [
    written(
        policy(
            'office-hours',
            'deny-unless-permit',
            permit(
                both(
                    apply('time-in-range', TIME, time(8), time(18)),
                    listed(WEEKDAY, 'Monday', 'Tuesday', 'Wednesday', 'Thursday', 'Friday'),
                )
            ),
        ),
        ({TIME: [time(18)], WEEKDAY: ['Friday']}, 'Permit'),
        ({TIME: [time(18, 0, 1)], WEEKDAY: ['Friday']}, 'Deny'),
        ({TIME: [time(12)], WEEKDAY: ['Sunday']}, 'Deny'),
    ),
    written(
        policy(
            'night-shift',
            'permit-overrides',
            permit(apply('time-in-range', TIME, time(22), time(6)), about=about(ROLE, 'guard', 'nurse')),
            deny(name='else'),
        ),
        ({TIME: [time(23, 30)], ROLE: ['guard']}, 'Permit'),
        ({TIME: [time(6, 1)], ROLE: ['guard']}, 'Deny'),
        head='located',
    ),
    written(
        policy(
            'closed-at-noon',
            'permit-unless-deny',
            deny(both(compared(TIME, 'greater-than-or-equal', time(12)), compared(TIME, 'less-than', time(13)))),
        ),
        ({TIME: [time(12)]}, 'Deny'),
        ({TIME: [time(13)]}, 'Permit'),
    ),
    written(
        policy(
            'subscription',
            'first-applicable',
            permit(
                both(
                    compared(NOW, 'greater-than-or-equal', datetime(2026, 3, 1, 9)),
                    compared(NOW, 'less-than', datetime(2026, 4, 1)),
                ),
                obligations=[duty('log', 'Permit', at=NOW)],
            ),
            deny(name='else', advice=[hint('period', 'Deny', until=datetime(2026, 4, 1))]),
        ),
        ({NOW: [datetime(2026, 3, 31, 23, 59, 59)]}, 'Permit'),
        ({NOW: [datetime(2026, 4, 1)]}, 'Deny'),
        head='prefixed',
    ),
]

HOSPITAL = [
    written(
        policy(
            'treating-physician',
            'deny-overrides',
            permit(
                apply('any-of', function('string-equal'), USER, bag(PHYSICIAN)),
                about=target([match(ROLE, 'physician')], [match(ACTION, 'read'), match(ACTION, 'write')]),
                obligations=[duty('mail-patient', 'Permit', to=PATIENT, text='your record was opened')],
            ),
            about=about(KIND, 'record'),
        ),
        (RECORD | READ | {ROLE: ['physician'], USER: ['zoe'], PHYSICIAN: ['ann', 'zoe'], PATIENT: ['p7']}, 'Permit'),
        (RECORD | READ | {ROLE: ['physician'], USER: ['zoe'], PHYSICIAN: ['ann']}, 'NotApplicable'),
        head='located',
    ),
    written(
        policy(
            'ward-nurses',
            'deny-unless-permit',
            permit(both(ON_SHIFT, apply('string-at-least-one-member-of', bag(WARD), bag(WARD_OF)))),
            about=target([[match(ROLE, 'nurse'), match(KIND, 'record')]]),
        ),
        (RECORD | {ROLE: ['nurse'], ON_SHIFT: [True], WARD: ['heart', 'eyes'], WARD_OF: ['eyes']}, 'Permit'),
        (RECORD | {ROLE: ['nurse'], ON_SHIFT: [False], WARD: ['eyes'], WARD_OF: ['eyes']}, 'Deny'),
    ),
    written(
        policy_set(
            'break-glass',
            'permit-overrides',
            policy(
                'emergency',
                'permit-overrides',
                permit(EMERGENCY, about=about(ROLE, 'physician', 'nurse')),
                obligations=[duty('tell-privacy-officer', 'Permit', who=USER, of=PATIENT)],
            ),
            policy(
                'own-ward',
                'deny-unless-permit',
                permit(apply('any-of-any', function('string-equal'), bag(WARD), bag(WARD_OF))),
            ),
            about=about(KIND, 'record'),
        ),
        (RECORD | {ROLE: ['nurse'], EMERGENCY: [True], USER: ['eve'], PATIENT: ['p7']}, 'Permit'),
        (RECORD | {ROLE: ['nurse'], EMERGENCY: [False], WARD: ['eyes'], WARD_OF: ['heart']}, 'Deny'),
        head='prefixed',
    ),
    written(
        policy(
            'guardians',
            'permit-overrides',
            permit(compared(USER, 'equal', PATIENT), name='patient'),
            permit(
                both(
                    has(GUARDIAN, USER),
                    compared(TODAY, 'less-than', apply(f'date-add-{YEARS}', BORN, literal('P16Y', YEARS))),
                ),
                name='guardian',
            ),
            about=target([match(KIND, 'record')], [match(ACTION, 'read')]),
        ),
        (WARDEN | {TODAY: [date(2026, 5, 4)]}, 'Permit'),
        (WARDEN | {TODAY: [date(2026, 5, 5)]}, 'NotApplicable'),
    ),
    written(
        policy(
            'opioids',
            'deny-unless-permit',
            permit(
                apply('n-of', 2, has(ROLE, 'physician'), has(ROLE, 'pharmacist'), has(WARD, 'pain')),
                obligations=[duty('count-stock', 'Permit')],
            ),
            about=about(KIND, 'opioid'),
        ),
        ({KIND: ['opioid'], ROLE: ['pharmacist'], WARD: ['pain']}, 'Permit'),
        ({KIND: ['opioid'], ROLE: ['pharmacist'], WARD: ['eyes']}, 'Deny'),
    ),
]

NET = [
    written(
        policy(
            'scopes',
            'deny-unless-permit',
            permit(has(SCOPE, 'orders:read'), name='reads', about=about(ACTION, 'GET', 'HEAD')),
            permit(has(SCOPE, 'orders:write'), name='writes', about=about(ACTION, 'POST', 'PUT', 'DELETE')),
            about=target([match(ITEM, '/orders/', 'starts-with'), match(ITEM, '/orders')]),
        ),
        ({ITEM: ['/orders/17'], ACTION: ['GET'], SCOPE: ['profile', 'orders:read']}, 'Permit'),
        ({ITEM: ['/orders/17'], ACTION: ['DELETE'], SCOPE: ['orders:read']}, 'Deny'),
        ({ITEM: ['/people'], ACTION: ['GET'], SCOPE: ['orders:read']}, 'NotApplicable'),
        head='prefixed',
    ),
    written(
        policy(
            'tenants',
            'deny-overrides',
            deny(apply('not', compared(TENANT, 'equal', TENANT_OF))),
            permit(has(ROLE, 'user')),
        ),
        ({TENANT: ['a'], TENANT_OF: ['a'], ROLE: ['user']}, 'Permit'),
        ({TENANT: ['a'], TENANT_OF: ['b'], ROLE: ['user']}, 'Deny'),
        ({TENANT: ['a'], ROLE: ['user']}, 'Indeterminate'),
    ),
    written(
        policy(
            'second-factor',
            'ordered-deny-overrides',
            deny(compared(FAILED, 'greater-than', 3), name='locked', advice=[hint('call-desk', 'Deny')]),
            deny(apply('not', either(compared(AMOUNT, 'less-than', 1000), STRONG)), name='weak'),
            permit(about=about(ACTION, 'transfer')),
        ),
        ({FAILED: [0], AMOUNT: [999], ACTION: ['transfer']}, 'Permit'),
        ({FAILED: [0], AMOUNT: [1000], STRONG: [False], ACTION: ['transfer']}, 'Deny'),
        ({FAILED: [4], AMOUNT: [1], ACTION: ['transfer']}, 'Deny'),
    ),
    written(
        policy(
            'managed-devices',
            'permit-overrides',
            permit(both(MANAGED, compared(PATCHED, 'greater-than-or-equal', 202601))),
            deny(apply('not', MANAGED), name='unmanaged', obligations=[duty('wipe', 'Deny')]),
        ),
        ({MANAGED: [True], PATCHED: [202602]}, 'Permit'),
        ({MANAGED: [True], PATCHED: [202512]}, 'NotApplicable'),
        ({MANAGED: [False], PATCHED: [202602]}, 'Deny'),
        head='located',
    ),
    written(
        policy(
            'called-for-somebody',
            'first-applicable',
            permit(
                both(listed(CALLER, 'billing', 'shipping'), has(ROLE, 'customer')),
                about=target([match(SPACE, 'https://example.com/orders')]),
            ),
            deny(name='else'),
        ),
        ({CALLER: ['billing'], ROLE: ['customer'], SPACE: ['https://example.com/orders']}, 'Permit'),
        ({CALLER: ['search'], ROLE: ['customer'], SPACE: ['https://example.com/orders']}, 'Deny'),
    ),
    written(
        policy(
            'own-folder',
            'deny-unless-permit',
            permit(apply('string-starts-with', apply('string-concatenate', '/home/', USER, '/'), ITEM)),
            permit(
                name='partners',
                about=target([[match(MAIL, '@partner.example', 'ends-with'), match(ITEM, '/share/', 'starts-with')]]),
            ),
        ),
        ({USER: ['ann'], ITEM: ['/home/ann/notes']}, 'Permit'),
        ({USER: ['ann'], ITEM: ['/home/bob/notes'], MAIL: ['ann@partner.example']}, 'Deny'),
        ({USER: ['ann'], ITEM: ['/share/plan'], MAIL: ['ann@partner.example']}, 'Permit'),
    ),
]

BANK = [
    written(
        policy_set(
            'bank',
            'permit-overrides',
            reference('PolicySet', 'role-teller'),
            reference('PolicySet', 'role-branch-manager'),
        ),
        (TRANSFER | WRITE | {ROLE: ['teller'], AMOUNT: [2000]}, 'Permit'),
        (TRANSFER | WRITE | {ROLE: ['teller'], AMOUNT: [2001]}, 'NotApplicable'),
        (MANAGER | WRITE | {BRANCH_OF: ['north']}, 'Permit'),
        head='located',
    ),
    written(
        policy_set(
            'role-teller',
            'permit-overrides',
            reference('PolicySet', 'may-teller', '1.0'),
            about=about(ROLE, 'teller'),
        ),
        (TRANSFER | READ | {ROLE: ['teller']}, 'Permit'),
        (TRANSFER | READ | {ROLE: ['customer']}, 'NotApplicable'),
        head='located',
    ),
    written(
        policy_set(
            'role-branch-manager',
            'permit-overrides',
            reference('PolicySet', 'may-branch-manager', '1.*'),
            about=about(ROLE, 'branch-manager'),
        ),
        (MANAGER | READ | {BRANCH_OF: ['south']}, 'Permit'),
        (MANAGER | WRITE | {BRANCH_OF: ['south']}, 'NotApplicable'),
        head='located',
    ),
    written(
        policy_set(
            'may-teller',
            'permit-overrides',
            policy(
                'may-teller-transfers',
                'permit-overrides',
                permit(name='reads', about=about(ACTION, 'read')),
                permit(compared(AMOUNT, 'less-than-or-equal', 2000), name='small', about=about(ACTION, 'write')),
                about=about(KIND, 'transfer'),
            ),
        ),
        (TRANSFER | READ, 'Permit'),
        (TRANSFER | WRITE | {AMOUNT: [2001]}, 'NotApplicable'),
        head='located',
    ),
    written(
        policy_set(
            'may-branch-manager',
            'permit-overrides',
            policy(
                'may-branch-manager-transfers',
                'permit-overrides',
                permit(compared(BRANCH, 'equal', BRANCH_OF), obligations=[duty('sign', 'Permit', by=USER)]),
                about=target([match(KIND, 'transfer')], [match(ACTION, 'write')]),
            ),
            reference('PolicySet', 'may-teller'),
        ),
        (MANAGER | WRITE | {BRANCH_OF: ['north']}, 'Permit'),
        (MANAGER | WRITE | {BRANCH_OF: ['south']}, 'NotApplicable'),
        head='located',
    ),
]

HOUSE = [
    written(
        policy_set(
            'rooms',
            'only-one-applicable',
            policy(
                'meeting-rooms',
                'deny-unless-permit',
                permit(compared(BOOKED, 'less-than', SEATS)),
                about=target([[match(KIND, 'room'), match(SPACE, 'https://example.com/rooms')]]),
            ),
            policy(
                'laboratories',
                'deny-unless-permit',
                permit(has(ROLE, 'researcher')),
                about=target([[match(KIND, 'room'), match(SPACE, 'https://example.com/laboratories')]]),
            ),
        ),
        (ROOM | {SPACE: ['https://example.com/rooms'], BOOKED: [7], SEATS: [8]}, 'Permit'),
        (ROOM | {SPACE: ['https://example.com/laboratories'], ROLE: ['guest']}, 'Deny'),
        (ROOM, 'NotApplicable'),
    ),
    written(
        policy_set(
            'gates',
            'first-applicable',
            policy('evacuation', 'deny-overrides', permit(EMERGENCY)),
            policy(
                'cards',
                'deny-overrides',
                permit(apply('integer-greater-than', 3, FAILED), about=about(ROLE, 'staff', 'guest')),
                deny(compared(TIME, 'less-than', time(6)), name='early', about=about(ROLE, 'guest')),
            ),
            policy('closed', 'deny-unless-permit', advice=[hint('ring', 'Deny', text='ring the bell')]),
        ),
        ({EMERGENCY: [True]}, 'Permit'),
        ({EMERGENCY: [False], ROLE: ['guest'], TIME: [time(5, 59)], FAILED: [0]}, 'Deny'),
        ({EMERGENCY: [False]}, 'Deny'),
        head='prefixed',
    ),
    written(
        policy(
            'release-checks',
            'deny-unless-permit',
            permit(
                both(
                    apply('string-set-equals', bag(CHECKED_BY), bag(CHECKERS)),
                    apply('all-of', function('integer-equal'), 0, bag(FAILED)),
                )
            ),
            about=about(KIND, 'change'),
        ),
        (CHANGE | {CHECKED_BY: ['ann', 'bob'], CHECKERS: ['bob', 'ann'], FAILED: [0, 0]}, 'Permit'),
        (CHANGE | {CHECKED_BY: ['ann'], CHECKERS: ['bob', 'ann'], FAILED: [0, 0]}, 'Deny'),
        (CHANGE | {CHECKED_BY: ['ann'], CHECKERS: ['ann'], FAILED: [0, 1]}, 'Deny'),
    ),
    written(
        policy_set(
            'shop',
            'deny-unless-permit',
            policy(
                'customers',
                'permit-unless-deny',
                deny(has(ROLE, 'blocked')),
                deny(compared(AMOUNT, 'greater-than', 100), name='large', about=about(ROLE, 'new')),
                about=about(ROLE, 'customer'),
            ),
            policy('staff', 'first-applicable', permit(about=about(ROLE, 'staff')), about=about(ACTION, 'read')),
            obligations=[duty('receipt', 'Permit', amount=AMOUNT), duty('say-no', 'Deny', text='not sold')],
        ),
        ({ROLE: ['customer', 'new'], AMOUNT: [100]}, 'Permit'),
        ({ROLE: ['customer', 'new'], AMOUNT: [101]}, 'Deny'),
        (READ | {ROLE: ['staff'], AMOUNT: [1]}, 'Permit'),
        head='located',
    ),
]
SERVICES = HOURS + HOSPITAL + NET + BANK + HOUSE
