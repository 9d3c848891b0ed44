"""The combining algorithms of the evaluator that reads XML itself (appendix C): each a function of children, which are
pairs of a target and a result, and of a request."""
from .direct_functions import Unread

EFFECTS = ('Permit', 'Deny')
ALGORITHM = 'urn:oasis:names:tc:xacml:{}:{}-combining-algorithm:{}'



def combining(name, kind):
    """The algorithm of a policy or a set: a function of its children and a request."""
    of = 'rule' if kind == 'Policy' else 'policy'
    known = {
        ALGORITHM.format('3.0', of, ordered + each): overrides(each)
        for each in ('deny-overrides', 'permit-overrides')
        for ordered in ('', 'ordered-')
    }
    known |= {ALGORITHM.format('3.0', of, each): unless(each) for each in ('deny-unless-permit', 'permit-unless-deny')}
    known[ALGORITHM.format('1.0', of, 'first-applicable')] = first_applicable
    if of == 'policy':
        known[ALGORITHM.format('1.0', of, 'only-one-applicable')] = only_one_applicable
    if name not in known:
        raise Unread(f'the algorithm {name}')
    return known[name]


def joined(results, decision):
    """What the children with a decision give."""
    same = [each for each in results if each[0] == decision]
    return decision, [one for each in same for one in each[1]], [one for each in same for one in each[2]]


def overrides(name):
    """C.2 and C.4: one of the first effect is enough; else by the kinds of the Indeterminate."""
    first, second = ('Deny', 'Permit') if name == 'deny-overrides' else ('Permit', 'Deny')
    one, other = f'Indeterminate{{{first[0]}}}', f'Indeterminate{{{second[0]}}}'

    def combined(children, request):
        seen = []
        for _, result in children:
            seen.append(result(request))
            if seen[-1][0] == first:
                return joined(seen, first)
        decisions = [each[0] for each in seen]
        if 'Indeterminate{DP}' in decisions or one in decisions and (other in decisions or second in decisions):
            return 'Indeterminate{DP}', [], []
        for decision in (one, second, other):
            if decision in decisions:
                return joined(seen, decision)
        return 'NotApplicable', [], []

    return combined


def unless(name):
    """C.6 and C.7: one decision where a child has it, else the other."""
    second, first = [each.capitalize() for each in name.split('-unless-')]

    def combined(children, request):
        seen = []
        for _, result in children:
            seen.append(result(request))
            if seen[-1][0] == first:
                return joined(seen, first)
        return joined(seen, second)

    return combined


def first_applicable(children, request):
    """C.8: the first child that isn't NotApplicable, an Indeterminate with its kind."""
    for _, result in children:
        found = result(request)
        if found[0] != 'NotApplicable':
            return found
    return 'NotApplicable', [], []


def only_one_applicable(children, request):
    """C.9: the child whose target alone matches."""
    chosen = None
    for matches, result in children:
        found = matches(request)
        if found == 'Indeterminate' or found == 'Match' and chosen is not None:
            return 'Indeterminate{DP}', [], []
        chosen = result if found == 'Match' else chosen
    return chosen(request) if chosen else ('NotApplicable', [], [])
