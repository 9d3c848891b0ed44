"""Policies, sets and rules of ALFA as documents: their ids, targets, conditions, obligations and advice."""
import re

from xacml_form import names

from . import library, tree
from .meaning import ORDERS, WRONG, Meaning, misfit, placed

EFFECTS = {'permit': 'Permit', 'deny': 'Deny'}
# A match applies its function to the literal and a value, in this order: where the attribute stands at the left, the
# sign is turned.
TURNED = {'==': '==', '>': '<', '>=': '<=', '<': '>', '<=': '>='}
TAG = re.compile(r'@(version|earliest|latest)[ \t]+([^ \t]+)[ \t]*')
TAGS = re.compile(rf'({TAG.pattern})+')
GIVEN = {'obligation': ('ObligationExpressions', 'ObligationId', 'FulfillOn'),
         'advice': ('AdviceExpressions', 'AdviceId', 'AppliesTo')}
TO_CONDITION = 'a target compares an attribute with a literal; the rest is for `condition`'


class Documents(Meaning):
    """Makes them."""

    def __init__(self, world, prefix='', has_categories=True):
        super().__init__(world)
        self.prefix, self.has_categories = prefix, has_categories

    def said(self, doc, keys):
        """What a comment `/** .. */` says: a description, and in lines that begin with `@` what is known by one of
        some keys."""
        if doc is None:
            return None, {}
        lines = [re.sub(r'^[ \t]*\*? ?', '', line).rstrip(' \t') for line in re.split(r'\r\n|\r|\n', ' ' + doc[0])]
        tags = {}
        for key, value in (found for line in lines if TAGS.fullmatch(line) for found in TAG.findall(line)):
            if key not in keys:
                self.told.error(doc[1], f'`@{key}` says nothing here')
            tags[key] = value
            self.told.note(doc[1], f'`@{key}` in a comment is taken as it stands: a form of this tool alone')
        text = '\n'.join(line for line in lines if not TAGS.fullmatch(line)).strip(' \t\n')
        return text or None, tags

    def described(self, node, parts, keys=()):
        """Puts the description into the parts of an element, and gives what its tags say."""
        text, tags = self.said(node.doc, keys)
        if text is not None:
            parts['Description'] = text
            self.told.note(node.doc[1], '`/** .. */` is taken as the Description of what stands behind it')
        return tags

    def tags(self, member, keys=()):
        """What the tags before a name say, which has no description."""
        text, tags = self.said(member.doc, keys)
        if text is not None:
            self.told.note(member.doc[1], '`/** .. */` before a name is passed over')
        return tags

    def identifier(self, node, whole):
        """The id of a policy, a set or a rule."""
        return node.id.text if node.id else self.prefix + whole

    def once(self, found, what, place, missing):
        """The one part of some; none and a second one are told."""
        for other in found[1:]:
            self.told.error(other.place, f'one more `{other.text if what is None else what}` in this {missing[0]}')
        if not found:
            self.told.error(place, missing[1])
        return found[0] if found else None

    # ---- policies and sets

    def document(self, node, whole):
        """A policy or a set with all that stands in it."""
        is_set = node.kind == 'policyset'
        kind = 'PolicySet' if is_set else 'Policy'
        parts = {f'{kind}Id': self.identifier(node, whole), 'Version': '1.0'}
        parts['Version'] = self.described(node, parts, ('version',)).get('version', '1.0')
        algorithm = self.algorithm(node)
        if algorithm:
            parts[f'{"Policy" if is_set else "Rule"}CombiningAlgId'] = algorithm
        self.target(node, parts)
        children = [self.child(member, whole, number) if is_set else self.member(member, node, whole, number)
                    for number, member in enumerate(node.members, 1)]
        children = [each for each in children if each is not None]
        if children:
            parts['Children' if is_set else 'Rule'] = children
        if not is_set:
            self.different(children)
        self.given(node, node.block, parts, None)
        return placed(node.place, {kind: placed(node.place, parts)})

    def algorithm(self, node):
        """The combining algorithm of a policy or a set."""
        is_set = node.kind == 'policyset'
        missing = 'set' if is_set else 'policy', '`apply` with a combining algorithm is missing'
        name = self.once(node.applies, 'apply', node.place, missing)
        if name is None:
            return None
        kinds = ['policyCombinator', 'ruleCombinator'][::1 if is_set else -1]
        what = f'algorithm for {"policies" if is_set else "rules"}'
        found = self.world.find(kinds[0], name, node.block)
        if found is None and self.world.find(kinds[1], name, node.block) is not None:
            other = 'rules, in a policy' if is_set else 'policies, in a set'
            self.told.error(name.place, f'no {what} is called `{name.text}`: it is for {other}')
            return None
        if found is None and name.text.rpartition('.')[2].startswith('legacy'):
            self.told.error(name.place, 'the legacy algorithms aren\'t here: the same of 3.0, without `legacy`, decides'
                            ' otherwise where something is Indeterminate')
            return None
        found = self.world.need(kinds[0], name, node.block, what)
        uri = found.uri.text if isinstance(found, tree.Declaration) else found
        if uri is not None and uri not in names.HERE_ALGORITHMS[names.POLICIES if is_set else names.RULES]:
            self.told.error(name.place, f'the algorithm `{name.text}` ({uri}) isn\'t here; docs/POLICIES.md lists those'
                            ' that are')
        return uri

    def child(self, member, whole, number):
        """A member of a set: a policy or a set, or a reference."""
        if isinstance(member, tree.Policy):
            return self.document(member, f'{whole}.{member.name.text if member.name else number}')
        return self.reference(member) if isinstance(member, tree.Reference) else None

    def referred(self, name):
        """What a name in a set refers to; None, and told, where it is none."""
        block = self.block
        found = self.world.find('policy', name, block)
        if found is None and self.world.find('rule', name, block) is not None:
            self.told.error(name.place, f'`{name.text}` is a rule, and a set holds policies: a policy takes it')
        elif found is None and isinstance(inner := self.world.find('embedded', name, block), tree.Policy):
            there = self.told.at(inner.place)
            self.told.error(name.place, f'`{name.text}` stands inside of a set at {there}, so nothing can refer to it:'
                            ' write it in the namespace')
        else:
            return self.world.need('policy', name, block, 'policy or set')
        return None

    def reference(self, member):
        """A reference to a document, by the kind of what has that name."""
        found = self.referred(member.name)
        tags = self.tags(member, ('version', 'earliest', 'latest'))
        if found is None:
            return None
        parts = {'Id': found.id.text if found.id else self.prefix + self.wholes[id(found)]}
        keys = {'version': 'Version', 'earliest': 'EarliestVersion', 'latest': 'LatestVersion'}
        parts |= {keys[key]: text for key, text in tags.items() if key in keys}
        place, kind = member.name.place, 'PolicySet' if found.kind == 'policyset' else 'Policy'
        return placed(place, {f'{kind}IdReference': placed(place, parts)})

    # ---- rules

    def member(self, member, policy, whole, number):
        """A member of a policy: a rule, or the name of one in a namespace, of which it takes a copy."""
        if isinstance(member, tree.Rule):
            return self.rule(member, f'{whole}.{member.name.text if member.name else number}')
        if not isinstance(member, tree.Reference):
            return None
        name = member.name
        self.tags(member)
        if self.world.find('rule', name, policy.block) is None and self.world.find('policy', name, policy.block):
            self.told.error(name.place, f'`{name.text}` is a policy or a set, and a policy holds rules: a `policyset`'
                            ' refers to it')
            return None
        found = self.world.need('rule', name, policy.block)
        return self.rule(found, f'{whole}.{found.name.text}') if found else None

    def rule(self, node, whole):
        """A rule."""
        parts = {'RuleId': self.identifier(node, whole)}
        effect = self.once(node.effects, None, node.place, ('rule', 'a rule says `permit` or `deny`'))
        parts['Effect'] = EFFECTS[effect.text] if effect else None
        self.described(node, parts)
        self.target(node, parts)
        places = [tree.Word('condition', place) for place, _ in node.conditions]
        self.once(places or [None], 'condition', node.place, ('rule', ''))
        for _, expression in node.conditions[:1]:
            parts['Condition'] = self.condition(self.of(expression, node.block), expression)
        self.given(node, node.block, parts, effect)
        return placed(node.place, parts)

    def condition(self, found, node):
        """The expression of a condition, which is one boolean."""
        if found is not WRONG and (found.kind, found.is_bag) != ('boolean', False):
            name = node.name.text if isinstance(node, tree.Designator) else '..'
            hint = f': booleanOneAndOnly({name}) is one' if found.kind == 'boolean' else ''
            self.told.error(node.place, f'a condition is one boolean, and not {found.type}{hint}')
        return found.json

    def different(self, rules):
        """Tells a second rule of one id."""
        seen = {}
        for rule in rules:
            first = seen.setdefault(rule['RuleId'], rule.place)
            if first is not rule.place:
                self.told.error(rule.place, f'one more rule `{rule["RuleId"]}` in this policy, beside that at'
                                f' {self.told.at(first)}')

    # ---- targets

    def target(self, node, parts):
        """The target of an element."""
        if node.targets:
            place = node.targets[0].place
            parts['Target'] = placed(place, {'AnyOf': [self.clause(each, node.block) for each in node.targets]})

    def clause(self, clause, block):
        """A clause: alternatives of matches."""
        place = clause.place
        return placed(place, {'AllOf': [placed(place, {'Match': [self.match(each, block) for each in matches]})
                                        for matches in clause.alternatives]})

    def match(self, node, block):
        """A match: an attribute beside a literal, or a function of a literal and an attribute."""
        if isinstance(node, tree.Unread):
            return None
        operands = node.parts if isinstance(node, tree.Operation) else getattr(node, 'arguments', [])
        kinds = [type(each) for each in operands]
        is_compared = isinstance(node, tree.Operation) and node.sign.text in ORDERS
        if kinds == [tree.Designator, tree.Designator] and is_compared:
            return self.told.error(node.place, 'a target compares one literal with one attribute; two attributes are'
                                   ' for `condition`')
        if sorted(kinds, key=str) != [tree.Designator, tree.Literal] or not (
                is_compared or isinstance(node, tree.Call)):
            return self.told.error(node.place, TO_CONDITION)
        if isinstance(node, tree.Call):
            return self.match_by_function(node, block)
        left, right = operands
        sign = node.sign.text
        if isinstance(left, tree.Designator):
            left, right, sign = right, left, TURNED[sign]
        literal, attribute = self.of(left, block), self.of(right, block)
        if WRONG in (literal, attribute):
            return None
        name = library.camel(f'{attribute.kind}-{ORDERS[sign]}')
        if literal.kind != attribute.kind or name not in library.FUNCTIONS:
            what = f'no function compares {literal.kind} with {attribute.kind} so'
            return self.told.error(node.place, what + (f': {library.instead_of(f"{attribute.kind}-equal")}'
                                                       if attribute.kind not in names.BAGGED else ''))
        return self.matched(node.place, library.FUNCTIONS[name].uri, literal, attribute)

    def match_by_function(self, node, block):
        """A match by a function that has a name."""
        name = self.function(node.name, block)
        literal, attribute = self.of_all(node.arguments, block)
        if name is None or WRONG in (literal, attribute):
            return None
        if isinstance(node.arguments[0], tree.Designator):
            return self.told.error(node.place, f'in a target the literal comes first: {node.name.text}(literal,'
                                   ' attribute)')
        function = library.FUNCTIONS.get(name)
        if function is None or function.takes is None:
            return self.told.error(node.place, TO_CONDITION)
        fault = misfit(name, function, [(literal.kind, False), (attribute.kind, False)])
        if fault or function.gives != ('boolean', False):
            return self.told.error(node.place, fault or f'{name} gives no boolean, so it matches nothing')
        return self.matched(node.place, function.uri, literal, attribute)

    def matched(self, place, uri, literal, attribute):
        """A match as it stands in a document."""
        return placed(place, {'MatchId': uri, **literal.json, **attribute.json})

    # ---- obligations and advice

    def given(self, node, block, parts, effect):
        """The obligations and advice of an element; a rule gives those of its effect alone."""
        for each in node.ons:
            if effect and each.effect.text != effect.text:
                never = EFFECTS[each.effect.text]
                self.told.error(each.effect.place, f'this rule never gives {never}, so `on {each.effect.text}` never'
                                ' comes')
            for given in each.given:
                key, name, when = GIVEN[given.kind]
                uri = self.world.uri(given.kind, given.name, block)
                made = {name: uri, when: EFFECTS[each.effect.text]}
                assigned = [self.assigned(word, value, block) for word, value in given.assignments]
                if assigned:
                    made['AttributeAssignmentExpression'] = assigned
                parts.setdefault(key, []).append(placed(given.name.place, made))

    def assigned(self, name, node, block):
        """What is assigned to an attribute, of the attribute's type."""
        declared, found = self.declared(name, block), self.of(node, block)
        if declared is None or found is WRONG:
            return None
        kind, category, identifier = declared
        if kind != found.kind:
            self.told.error(name.place, f'`{name.text}` is {kind}, and what is assigned is {found.type}')
        parts = {'AttributeId': identifier, 'Expression': found.json}
        if category and self.has_categories:
            parts['Category'] = category
            self.told.note(name.place, 'what is assigned has the category of its attribute (`--no-category` leaves it'
                           ' out)')
        return placed(name.place, parts)


