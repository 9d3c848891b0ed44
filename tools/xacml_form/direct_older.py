"""An evaluator of policies of XACML 1.0 to 2.0 in XML, to compare with: it reads their elements itself, knows nothing
of 3.0, and decides by the rules of 2.0 (sections 6 and 7, appendix C of that standard). It notes whether an
Indeterminate was met anywhere, since 3.0 makes more of these than 2.0 did."""
import re

from .direct import HIGHER, enough, every, some, stops
from .direct_functions import FUNCTIONS, Indeterminate, Unread, higher, truth, value

XACML = 'urn:oasis:names:tc:xacml:'
OLDER = re.compile(r'\{urn:oasis:names:tc:xacml:(1\.0|2\.0):policy[^}]*\}(.*)')
SUBJECT = XACML + '1.0:subject-category:access-subject'
CATEGORIES = {
    'Resource': XACML + '3.0:attribute-category:resource',
    'Action': XACML + '3.0:attribute-category:action',
    'Environment': XACML + '3.0:attribute-category:environment',
}
EFFECTS = ('Permit', 'Deny')
FAILED = 'Indeterminate'


def name_of(element):
    """The name of an element of an older version."""
    found = OLDER.fullmatch(element.tag)
    if not found:
        raise Unread(element.tag)
    return found[2]


def inside(element):
    """The elements in an element, each with its name."""
    return [(name_of(each), each) for each in element if isinstance(each.tag, str)]


def text_of(element):
    """The text of an element."""
    return (element.text or '') + ''.join(each.tail or '' for each in element)


class Reading:
    """Decides one request; `failed` says whether anything was Indeterminate, `unsure` whether the target of a policy
    or a set was, which makes it Indeterminate here and, where no rule applies, NotApplicable in 3.0."""

    def __init__(self, request):
        self.request, self.failed, self.unsure = request, False, False

    def decide(self, root):
        """The decision of a policy or a set, and its obligations."""
        return self.policy(root)[:2]

    def policy(self, element):
        """The decision, the obligations, and whether the target matches (of 7.10 and 7.11)."""
        name, parts = name_of(element), inside(element)
        matches = self.target(next(each for own, each in parts if own == 'Target'))
        if matches != 'Match':
            self.failed, self.unsure = self.failed or matches == FAILED, self.unsure or matches == FAILED
            return (FAILED if matches == FAILED else 'NotApplicable'), [], matches
        if name == 'Policy':
            variables = {each.get('VariableId'): each for own, each in parts if own == 'VariableDefinition'}
            children = [
                lambda each=each: (*self.rule(each, variables), each.get('Effect'))
                for own, each in parts
                if own == 'Rule'
            ]
            algorithm = element.get('RuleCombiningAlgId')
        else:
            children = [lambda each=each: self.policy(each) for own, each in parts if own in ('Policy', 'PolicySet')]
            if any(own.endswith('IdReference') for own, _ in parts):
                raise Unread('a reference')
            algorithm = element.get('PolicyCombiningAlgId')
        decision, given = self.combined(algorithm, children)
        own = [
            self.obligation(each)
            for kind, listed in parts
            if kind == 'Obligations'
            for _, each in inside(listed)
            if each.get('FulfillOn') == decision
        ]
        self.failed = self.failed or decision == FAILED
        return decision, given + own if decision in EFFECTS else [], matches

    def obligation(self, element):
        """An obligation: its id, and its assignments with their values."""
        return element.get('ObligationId'), [
            (each.get('AttributeId'), *value(each.get('DataType'), text_of(each))) for _, each in inside(element)
        ]

    # ---- combining algorithms (appendix C of 2.0)

    def combined(self, algorithm, children):
        """The decision of children, and the obligations of those with that decision that were asked."""
        kind, name = re.fullmatch(XACML + r'1\.[01]:(rule|policy)-combining-algorithm:(.*)', algorithm).groups()
        name = name.removeprefix('ordered-')
        if name == 'first-applicable':
            for each in children:
                decision, given, _ = each()
                if decision != 'NotApplicable':
                    return decision, given
            return 'NotApplicable', []
        if name == 'only-one-applicable':
            found = [each() for each in children]
            if any(matches == FAILED for _, _, matches in found):
                return FAILED, []
            found = [each for each in found if each[2] == 'Match']
            return found[0][:2] if len(found) == 1 else (FAILED if found else 'NotApplicable', [])
        return self.overrides(kind, name, children)

    def overrides(self, kind, name, children):
        """deny-overrides and permit-overrides; of rules an Indeterminate knows the effect that it could have."""
        first, second = ('Deny', 'Permit') if name == 'deny-overrides' else ('Permit', 'Deny')
        seen, could = [], False
        for each in children:
            decision, given, effect = each()
            seen.append((decision, given))
            if decision == first or kind == 'policy' and first == 'Deny' and decision == FAILED:
                return first, [one for each in seen if each[0] == first for one in each[1]]
            could = could or decision == FAILED and kind == 'rule' and effect == first
        decisions = [decision for decision, _ in seen]
        if could:
            return FAILED, []
        for decision in (second, FAILED):
            if decision in decisions:
                return decision, [one for each in seen if each[0] == decision for one in each[1]]
        return 'NotApplicable', []

    # ---- rules, targets (7.5 to 7.8)

    def rule(self, element, variables):
        """The value of a rule, without obligations, and the effect that it could have."""
        effect = element.get('Effect')
        parts = dict(inside(element))
        matches = self.target(parts['Target']) if 'Target' in parts else 'Match'
        try:
            if matches == FAILED:
                raise Indeterminate('target')
            holds = matches == 'Match' and ('Condition' not in parts or self.condition(parts['Condition'], variables))
        except Indeterminate:
            self.failed = True
            return FAILED, []
        return (effect if holds else 'NotApplicable'), []

    def target(self, element):
        """Whether each of its lists has one member that matches."""
        found = []
        for _, listed in inside(element):
            members = [each for name, each in inside(listed) if not name.startswith('Any')]
            is_any = len(members) < len(inside(listed))
            found.append('Match' if is_any else some([every(map(self.match, self.matches(each))) for each in members]))
        return every(found)

    @staticmethod
    def matches(element):
        return [each for _, each in inside(element)]

    def match(self, element):
        """Whether a value of the designator goes with the literal."""
        (_, given), (_, found) = inside(element)
        try:
            values = self.designator(found)
        except Indeterminate:
            self.failed = True
            return FAILED
        function = FUNCTIONS[element.get('MatchId')]
        return 'Match' if any(function(self.literal(given), each)[1] for each in values) else 'No match'

    # ---- expressions

    def condition(self, element, variables):
        """The truth of a condition: a function of 1.x, or one expression."""
        if element.get('FunctionId') is not None:
            return self.application(element, variables)[1]
        [(_, only)] = inside(element)
        return self.expression(only, variables)[1]

    def expression(self, element, variables):
        name = name_of(element)
        if name == 'AttributeValue':
            return self.literal(element)
        if name == 'VariableReference':
            [(_, only)] = inside(variables[element.get('VariableId')])
            return self.expression(only, variables)
        if name == 'Apply':
            return self.application(element, variables)
        return self.designator(element)

    def literal(self, element):
        return value(element.get('DataType'), text_of(element))

    def designator(self, element):
        """The values of an attribute; none where it has to be there is Indeterminate."""
        category = name_of(element).removesuffix('AttributeDesignator')
        category = element.get('SubjectCategory', SUBJECT) if category == 'Subject' else CATEGORIES[category]
        key = category, element.get('AttributeId'), element.get('DataType')
        issuer = element.get('Issuer')
        found = [each for by, each in self.request.get(key, []) if issuer is None or by == issuer]
        if not found and element.get('MustBePresent') in ('true', '1'):
            raise Indeterminate('missing')
        return found

    def application(self, element, variables):
        """A function of its arguments."""
        name, parts = element.get('FunctionId'), inside(element)
        if name in HIGHER:
            function = FUNCTIONS[parts[0][1].get('FunctionId')]
            return higher(HIGHER[name], function, [self.expression(each, variables) for _, each in parts[1:]])
        arguments = [lambda _, each=each: self.expression(each, variables) for _, each in parts]
        short = name.removeprefix(XACML + '1.0:function:')
        if short in ('and', 'or'):
            return truth(stops(arguments, None, short == 'or'))
        if short == 'n-of':
            return truth(enough(arguments[0](None)[1], arguments[1:], None))
        if name not in FUNCTIONS:
            raise Unread(name)
        return FUNCTIONS[name](*[each(None) for each in arguments])
