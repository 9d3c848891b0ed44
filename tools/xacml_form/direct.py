"""An evaluator of policies in XML, to compare with: it reads the elements of lxml itself, knows nothing of the tool
or of JSON, and refuses what it doesn't read, so that nothing in a file is passed over. It has section 7 and appendix
C of the standard with the choices that docs/MIGRATING.md names."""
from lxml import etree

from .direct_combining import EFFECTS, combining
from .direct_functions import FUNCTIONS, Indeterminate, Unread, higher, truth, value

CORE = '{urn:oasis:names:tc:xacml:3.0:core:schema:wd-17}'
XACML = 'urn:oasis:names:tc:xacml:'
EXPRESSIONS = ('AttributeValue', 'AttributeDesignator', 'VariableReference', 'Apply', 'Function')
MEMBERS = ('Policy', 'PolicySet', 'PolicyIdReference', 'PolicySetIdReference')
HIGHER = {
    f'{XACML}{version}:function:{name}': name
    for version in ('1.0', '3.0')
    for name in ('any-of', 'all-of', 'any-of-any', 'all-of-any')
}


class Node:
    """An element whose parts are taken one after the other; what is left at the end was not read."""

    def __init__(self, element):
        self.name = element.tag.removeprefix(CORE)
        self.attributes = {key: text for key, text in element.attrib.items() if not key.endswith('chemaLocation')}
        self.children = [each for each in element if isinstance(each.tag, str)]
        self.text = (element.text or '') + ''.join(each.tail or '' for each in element)

    def attribute(self, name):
        """An attribute, None where there is none."""
        return self.attributes.pop(name, None)

    def uri(self, name):
        """An attribute that is a URI, which white space is no part of."""
        found = self.attribute(name)
        return None if found is None else ' '.join(found.split())

    def all(self, *names):
        """The children of these names that stand next."""
        found = []
        while self.children and self.children[0].tag in [CORE + name for name in names]:
            found.append(Node(self.children.pop(0)))
        return found

    def maybe(self, *names):
        """The child of one of these names that stands next, or None."""
        found = self.all(*names)
        if len(found) > 1:
            raise Unread(f'{len(found)} of {names}')
        return found[0] if found else None

    def only(self, *names):
        """The one child of these names that stands next."""
        found = self.maybe(*names)
        if found is None:
            raise Unread(f'{self.name} without {names}')
        return found

    def whole(self):
        """The text of an element without children."""
        text, self.text = self.text, ''
        self.done()
        return text

    def done(self):
        """Nothing may be left."""
        if self.attributes or self.children or self.text.strip():
            raise Unread(f'{self.name}: {self.attributes} {self.children} {self.text.strip()}')


def effect_of(text):
    """An effect, which is one of two words."""
    if text not in EFFECTS:
        raise Unread(f'the effect {text}')
    return text


def document(root):
    """What decides a request: a function from attributes (lists of values by category, id, type and issuer) to the
    decision, the obligations and the advice."""
    read = member(Node(root), {})
    return lambda request: read[1](request)


def member(node, variables):
    """The target and the result of a policy, a set or a reference, each a function of a request."""
    if node.name == 'Policy':
        return policy(node, 'PolicyId', 'RuleCombiningAlgId', 'PolicyDefaults')
    if node.name == 'PolicySet':
        return policy(node, 'PolicySetId', 'PolicyCombiningAlgId', 'PolicySetDefaults')
    if node.name not in MEMBERS:
        raise Unread(node.name)
    for name in ('Version', 'EarliestVersion', 'LatestVersion'):
        node.attribute(name)
    node.whole()
    return lambda request: 'Indeterminate', lambda request: ('Indeterminate{DP}', [], [])


def policy(node, identifier, algorithm, defaults):
    """A policy or a set; a reference finds nothing, since nothing else is stored."""
    for needed in (node.uri(identifier), node.attribute('Version')):
        if needed is None:
            raise Unread(identifier)
    combine = combining(node.uri(algorithm), node.name)
    described(node)
    given_defaults = node.maybe(defaults)
    if given_defaults is not None:
        given_defaults.only('XPathVersion').whole()
        given_defaults.done()
    matches = target(node.only('Target'))
    variables, children = {}, []
    if node.name == 'Policy':
        inside = node.all('VariableDefinition', 'Rule')
        variables.update((each.attribute('VariableId'), each) for each in inside if each.name == 'VariableDefinition')
        if len(variables) < sum(each.name == 'VariableDefinition' for each in inside):
            raise Unread('a variable twice')
        for name, each in list(variables.items()):
            variables[name] = only_expression(each, variables)
        children = [rule(each, variables) for each in inside if each.name == 'Rule']
    else:
        children = [member(each, {}) for each in node.all(*MEMBERS)]
    given = obligations(node, variables)
    node.done()
    return matches, lambda request: of_policy(matches(request), lambda: combine(children, request), given, request)


def of_policy(matches, combined, given, request):
    """The value of a policy (7.12, 7.13): that of its children, unless its target doesn't match or has none."""
    if matches == 'No match':
        return 'NotApplicable', [], []
    decision, *lists = combined()
    if matches == 'Indeterminate' and decision != 'NotApplicable':
        kind = {'Permit': 'P', 'Deny': 'D'}.get(decision, decision[14:-1])
        return f'Indeterminate{{{kind}}}', [], []
    return with_given(decision, lists, given, request)


def with_given(decision, lists, given, request):
    """A decision with what its children and itself give (7.18)."""
    if decision not in EFFECTS:
        return decision, [], []
    try:
        own = [given_of(kind, decision, request) for kind in given]
    except Indeterminate:
        return f'Indeterminate{{{decision[0]}}}', [], []
    return decision, lists[0] + own[0], lists[1] + own[1]


def rule(node, variables):
    """A rule (7.11); it has no target to be asked for alone."""
    if node.attribute('RuleId') is None:
        raise Unread('RuleId')
    effect = effect_of(node.attribute('Effect'))
    described(node)
    own = node.maybe('Target')
    matches = target(own) if own else lambda request: 'Match'
    condition = node.maybe('Condition')
    holds = only_expression(condition, variables) if condition else lambda request: truth(True)
    given = obligations(node, variables)
    node.done()

    def result(request):
        fails = f'Indeterminate{{{effect[0]}}}', [], []
        found = matches(request)
        if found != 'Match':
            return fails if found == 'Indeterminate' else ('NotApplicable', [], [])
        try:
            if not holds(request)[1]:
                return 'NotApplicable', [], []
        except Indeterminate:
            return fails
        return with_given(effect, [[], []], given, request)

    return None, result


def described(node):
    """Takes a description, which means nothing."""
    inside = node.maybe('Description')
    if inside is not None:
        inside.whole()


# ---- targets (7.6, 7.7)


def target(node):
    """Whether a target matches: each of its AnyOf, of that one AllOf, of that each Match."""
    parts = []
    for any_of in node.all('AnyOf'):
        alternatives = []
        for all_of in any_of.all('AllOf'):
            matches = [match(each) for each in all_of.all('Match')]
            all_of.done()
            alternatives.append(lambda request, matches=matches: every(each(request) for each in matches))
        any_of.done()
        parts.append(lambda request, of=alternatives: some(each(request) for each in of))
    node.done()
    return lambda request: every(each(request) for each in parts)


def every(results):
    """The result of all: no match where one has none, else Indeterminate where one is."""
    found = list(results)
    return 'No match' if 'No match' in found else 'Indeterminate' if 'Indeterminate' in found else 'Match'


def some(results):
    """The result of alternatives: a match where one has it, else Indeterminate where one is."""
    found = list(results)
    return 'Match' if 'Match' in found else 'Indeterminate' if 'Indeterminate' in found else 'No match'


def match(node):
    """Whether a value of the designator goes with the literal; an Indeterminate designator is one."""
    name = node.uri('MatchId')
    given = literal(node.only('AttributeValue'))
    found = designator(node.only('AttributeDesignator'))
    node.done()

    def result(request):
        try:
            results = [FUNCTIONS[name](given, each)[1] for each in found(request)]
        except Indeterminate:
            return 'Indeterminate'
        return 'Match' if any(results) else 'No match'

    return result


# ---- expressions (7.3, 7.4)


def only_expression(node, variables):
    """The one expression in an element."""
    found = expression(node.only(*EXPRESSIONS), variables)
    node.done()
    return found


def expression(node, variables):
    """What gives the value of an expression, or raises Indeterminate."""
    if node.name == 'AttributeValue':
        given = literal(node)
        return lambda request: given
    if node.name == 'AttributeDesignator':
        return designator(node)
    if node.name == 'VariableReference':
        name = node.attribute('VariableId')
        node.done()
        return lambda request: variables[name](request)
    if node.name == 'Apply':
        return application(node, variables)
    raise Unread(f'{node.name} as an expression')


def literal(node):
    """The value of a literal."""
    uri = node.uri('DataType')
    return value(uri, node.whole())


def designator(node):
    """The bag of an attribute; an empty one that has to be there is Indeterminate."""
    key = node.uri('Category'), node.uri('AttributeId'), node.uri('DataType')
    issuer, must = node.attribute('Issuer'), node.uri('MustBePresent')
    if None in key or must not in ('true', 'false', '1', '0'):
        raise Unread(f'the designator {key} {must}')
    node.done()

    def result(request):
        found = [each for by, each in request.get(key, []) if issuer is None or by == issuer]
        if not found and must in ('true', '1'):
            raise Indeterminate('missing')
        return found

    return result


def application(node, variables):
    """A function of its arguments; `and`, `or` and `n-of` look at them in order, and stop at the one that decides."""
    name = node.uri('FunctionId')
    described(node)
    if name in HIGHER:
        inner = node.only('Function') if node.children and node.children[0].tag == CORE + 'Function' else None
        function = FUNCTIONS.get(inner.uri('FunctionId')) if inner else None
        if function is None:
            raise Unread('a function of none')
        inner.done()
        arguments = [expression(each, variables) for each in node.all(*EXPRESSIONS)]
        node.done()
        return lambda request: higher(HIGHER[name], function, [each(request) for each in arguments])
    arguments = [expression(each, variables) for each in node.all(*EXPRESSIONS)]
    node.done()
    short = name.removeprefix(XACML + '1.0:function:')
    if short in ('and', 'or'):
        return lambda request: truth(stops(arguments, request, short == 'or'))
    if short == 'n-of':
        return lambda request: truth(enough(arguments[0](request)[1], arguments[1:], request))
    if name not in FUNCTIONS:
        raise Unread(name)
    return lambda request: FUNCTIONS[name](*[each(request) for each in arguments])


def stops(arguments, request, at):
    """Whether an argument is True (of `or`), or none is False (of `and`)."""
    return at if any(each(request)[1] == at for each in arguments) else not at


def enough(count, arguments, request):
    """n-of (A.3.5)."""
    found = 0
    for place, each in enumerate(arguments):
        if found >= count or found + len(arguments) - place < count:
            break
        found += each(request)[1]
    return found >= count


# ---- obligations and advice (7.18)


def obligations(node, variables):
    """The obligations and the advice of an element, each with its decision, its id and its assignments."""
    return [
        listed(node, 'ObligationExpressions', 'ObligationId', 'FulfillOn', variables),
        listed(node, 'AdviceExpressions', 'AdviceId', 'AppliesTo', variables),
    ]


def listed(node, name, identifier, on, variables):
    """Those of one kind: the id, the decision and the assignments of each."""
    outer, found = node.maybe(name), []
    for each in outer.all(name.removesuffix('s')) if outer else []:
        own = each.uri(identifier), effect_of(each.attribute(on))
        found.append((*own, [assignment(part, variables) for part in each.all('AttributeAssignmentExpression')]))
        each.done()
    if outer:
        outer.done()
    return found


def assignment(node, variables):
    """An assignment: its ids, and its expression."""
    head = node.uri('AttributeId'), node.uri('Category'), node.attribute('Issuer')
    return head, only_expression(node, variables)


def given_of(kind, decision, request):
    """What is given with a decision."""
    found = []
    for identifier, on, assignments in kind:
        if on == decision:
            values = []
            for head, expression_ in assignments:
                result = expression_(request)
                values += [(*head, *each) for each in (result if isinstance(result, list) else [result])]
            found.append((identifier, values))
    return found


# ---- requests (7.3.4)


def request(root):
    """The values of a request with their issuers, by category, id and type."""
    node, found = Node(root), {}
    if {node.uri('ReturnPolicyIdList'), node.uri('CombinedDecision')} - {'false', '0'}:
        raise Unread('a request of several')
    for of in node.all('Attributes'):
        category = of.uri('Category')
        for each in of.all('Attribute'):
            key, issuer, included = each.uri('AttributeId'), each.attribute('Issuer'), each.uri('IncludeInResult')
            if None in (category, key, included):
                raise Unread('an attribute without its names')
            for text in each.all('AttributeValue'):
                kind, given = literal(text)
                found.setdefault((category, key, kind), []).append((issuer, (kind, given)))
            each.done()
        of.done()
    node.done()
    return found


def root_of(data):
    """The root element of a file."""
    return etree.fromstring(data, etree.XMLParser(remove_pis=True))
