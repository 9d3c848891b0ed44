"""Policies and policy sets (5.1 to 5.24, 5.39, 5.40), from XML to JSON."""
import itertools
import math

from . import literals, names, patterns, schema
from .elements import Elements
from .expressions import Expressions
from .grammar import Grammar
from .places import BY_HAND, IMPOSSIBLE, REWRITTEN, WARNING

PARAMETERS = ['CombinerParameters', 'RuleCombinerParameters', 'PolicyCombinerParameters', 'PolicySetCombinerParameters']
GIVEN = ['ObligationExpressions', 'AdviceExpressions']
NO_DELEGATION = 'leave it out where whoever stores policies is trusted: there is no delegation'
NO_PARAMETERS = 'leave them out: no algorithm of the standard takes any'


class Policies:
    """Reads the document of one file."""

    def __init__(self, told, places, as_modern=False):
        self.elements, self.told, self.as_modern = Elements(told, places), told, as_modern
        self.grammar = Grammar(told, places)
        self.place = self.elements.place

    def document(self, root):
        """The document whose root element is given; None where it is no policy of 3.0."""
        if not self.grammar.check(root, ['Policy', 'PolicySet']):
            return None
        self.uses_xpath = any(
            isinstance(each.tag, str)
            and (
                each.tag.endswith('}AttributeSelector')
                or each.get('DataType') == names.XPATH_TYPE
                or ':function:xpath' in each.get('FunctionId', '')
            )
            for each in root.iter()
        )
        return self.policy(root) if self.elements.name(root) == 'Policy' else self.policy_set(root)

    def policy(self, element):
        found = self.elements.attributes(element)
        self.no_delegation(element, found)
        found['RuleCombiningAlgId'] = self.algorithm(element, found['RuleCombiningAlgId'], names.RULES)
        inside = self.elements.children(element)
        defining = [child for name, child in inside if name == 'VariableDefinition']
        expressions = Expressions(self.elements, {each.get('VariableId'): each for each in defining})
        body = {**found, **self.head(inside, expressions)}
        variables = [self.variable(child, expressions) for child in defining]
        rules = [self.rule(child, expressions) for name, child in inside if name == 'Rule']
        parts = {**body, **kept(VariableDefinition=variables, Rule=rules), **self.given(inside, expressions)}
        return {'Policy': self.elements.placed(element, parts)}

    def variable(self, element, expressions):
        parts = {**self.elements.attributes(element), 'Expression': expressions.only(element)}
        return self.elements.placed(element, parts)

    def policy_set(self, element):
        found = self.elements.attributes(element)
        self.no_delegation(element, found)
        found['PolicyCombiningAlgId'] = self.algorithm(element, found['PolicyCombiningAlgId'], names.POLICIES)
        inside = self.elements.children(element)
        expressions = Expressions(self.elements, {})
        read = {
            'Policy': self.policy,
            'PolicySet': self.policy_set,
            'PolicyIdReference': self.reference,
            'PolicySetIdReference': self.reference,
        }
        members = [read[name](child) for name, child in inside if name in read]
        head, given = self.head(inside, expressions), self.given(inside, expressions)
        return {'PolicySet': self.elements.placed(element, {**found, **head, **kept(Children=members), **given})}

    def head(self, inside, expressions):
        """What stands first in a policy, a set and a rule: description and target; issuers, defaults and parameters are
        told."""
        body = {}
        for name, child in inside:
            if name == 'Description':
                body['Description'] = self.elements.text(child)
            elif name == 'Target':
                body.update(kept(Target=self.target(child, expressions)))
            elif name == 'PolicyIssuer':
                self.told.tell(BY_HAND, self.place(child), name, NO_DELEGATION)
            elif name in PARAMETERS:
                self.told.tell(BY_HAND, self.place(child), name, NO_PARAMETERS)
            elif name in ('PolicyDefaults', 'PolicySetDefaults'):
                weight, how = (
                    (IMPOSSIBLE, 'there is no XPath')
                    if self.uses_xpath
                    else (REWRITTEN, 'left out: the file uses no XPath')
                )
                self.told.tell(weight, self.place(child), name, how)
        return body

    def no_delegation(self, element, found):
        if found.pop('MaxDelegationDepth', None) is not None:
            self.told.tell(BY_HAND, self.place(element), 'MaxDelegationDepth', NO_DELEGATION)

    def algorithm(self, element, given, kind):
        """The identifier of a combining algorithm; a legacy one stands for its newer one only where one asks for
        that."""
        modern = names.LEGACY_ALGORITHMS[kind].get(given)
        if modern is not None:
            turns = names.TURNS[kind, modern.rpartition(':')[2].removeprefix('ordered-')]
            weight, taken = (WARNING, 'taken as') if self.as_modern else (BY_HAND, '--as-modern takes')
            how = f'{taken} {modern}: {turns}'
            self.told.tell(weight, self.place(element), f'the legacy algorithm {given}', how)
            return modern if self.as_modern else given
        if given not in names.HERE_ALGORITHMS[kind]:
            mistaken = names.meant(given, names.ALGORITHMS_BY_WORD[kind])
            weight = IMPOSSIBLE if mistaken is None else BY_HAND
            how = mistaken or f'none of those of appendix C for a {kind}'
            self.told.tell(weight, self.place(element), f'the algorithm {given}', how.removeprefix('by hand: '))
        return given

    def reference(self, element):
        parts = {'Id': schema.collapsed(self.elements.text(element)), **self.elements.attributes(element)}
        return {self.elements.name(element): self.elements.placed(element, parts)}

    def rule(self, element, expressions):
        inside = self.elements.children(element)
        body = {**self.elements.attributes(element), **self.head(inside, expressions)}
        for name, child in inside:
            if name == 'Condition':
                body['Condition'] = expressions.only(child)
        return self.elements.placed(element, {**body, **self.given(inside, expressions)})

    # ---- targets

    def target(self, element, expressions):
        return kept(AnyOf=[self.any_of(child, expressions) for _, child in self.elements.children(element)])

    def any_of(self, element, expressions):
        found = [each for _, child in self.elements.children(element) for each in self.all_of(child, expressions)]
        return self.elements.placed(element, {'AllOf': found})

    def all_of(self, element, expressions):
        """An AllOf; where a Match has several words each of them stands in one by itself, since any of them is enough
        (7.7)."""
        members = [self.match(child, expressions) for _, child in self.elements.children(element)]
        ways = math.prod(len(each) for each in members)
        if ways > patterns.MOST_WORDS:
            how = f'more than {patterns.MOST_WORDS} ways to match; write them as an AnyOf each'
            self.told.tell(BY_HAND, self.place(element), 'an AllOf with several lists of words', how)
            members = [each[:1] for each in members]
        return [self.elements.placed(element, {'Match': list(way)}) for way in itertools.product(*members)]

    def match(self, element, expressions):
        """The ways in which a Match can be met: one, but where its function looks for one of several words."""
        body = self.elements.attributes(element)
        given = names.OLD_FUNCTIONS.get(body['MatchId'], body['MatchId'])
        if given not in names.HERE_FUNCTIONS and given not in patterns.MATCHES:
            expressions.not_here(element, given)
        use = literals.COMPARED if given in names.TIMES_COMPARED else None
        for _, child in self.elements.children(element):
            body.update(expressions.expression(child, use))
        if given not in patterns.MATCHES:
            return [self.elements.placed(element, body)]
        literal = body['AttributeValue']
        return [
            self.elements.placed(element, {**body, 'MatchId': function, 'AttributeValue': literal.with_parts(value)})
            for function, value in expressions.words(element, given, {'AttributeValue': literal})
        ]

    # ---- obligations and advice

    def given(self, inside, expressions):
        """The obligations and the advice of an element."""
        return {
            name: [self.one_given(each, expressions) for _, each in self.elements.children(child)]
            for name, child in inside
            if name in GIVEN
        }

    def one_given(self, element, expressions):
        assignments = [
            self.elements.placed(
                child, {**self.elements.attributes(child), 'Expression': expressions.only(child, literals.GIVEN)}
            )
            for _, child in self.elements.children(element)
        ]
        parts = {**self.elements.attributes(element), **kept(AttributeAssignmentExpression=assignments)}
        return self.elements.placed(element, parts)


def kept(**parts):
    """Those parts that aren't empty: an absent list is an empty one."""
    return {key: part for key, part in parts.items() if part}
