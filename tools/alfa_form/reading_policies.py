"""Policies, sets and rules of a file of ALFA, read."""
from . import tree
from .reading_expressions import Expressions
from .tokens import KEYWORD, NAME, SIGN

OF_POLICY = {'target', 'apply', 'rule', 'policy', 'policyset', 'on', 'condition'}
OF_RULE = {'target', 'permit', 'deny', 'condition', 'on'}
# What stands in a namespace alone, and what stands in no rule and in nothing that is given.
OUTER = {'namespace', 'import', 'attribute', 'category', 'type', 'infix'}
NO_RULE = OUTER | {'policy', 'policyset', 'rule'}
NOT_GIVEN = NO_RULE | {'target', 'permit', 'deny', 'condition', 'on'}


class Policies(Expressions):
    """Reads them."""

    def head(self, found):
        """The name and the id of a policy, a set or a rule, each of which may be absent, and what `/** .. */` says."""
        found.doc = self.take().doc
        if self.sees(NAME):
            found.name = self.simple('a name')
        elif self.sees(KEYWORD) and self.tokens[self.at + 1].text in ('{', '='):
            self.simple('a name')
        if self.skip(SIGN, '='):
            found.id = self.text('an id, a text in quotes,')
        return found

    def policy(self, block):
        """A policy or a set."""
        found = self.head(tree.Policy(self.here.text, self.here.place, block))
        if found.id and not self.sees(SIGN, '{'):
            found.is_elsewhere = True
            self.told.note(found.place, f'a `{found.kind}` without a body is taken as the name of one that stands'
                           ' elsewhere')
            return found
        self.body(lambda: self.of_policy(found), OF_POLICY | OUTER, OUTER)
        return found

    def of_policy(self, found):
        """One part of a policy or a set."""
        word = self.here.text if self.here.kind == KEYWORD else None
        if word == 'target':
            found.targets += self.target()
        elif word == 'apply':
            self.take()
            found.applies.append(self.qualified('the name of a combining algorithm'))
        elif word == 'on':
            found.ons.append(self.on())
        elif word == 'rule':
            self.only_in(found, 'policy', 'a set holds policies: write a `policy` around the rule')
            found.members.append(self.rule(found.block))
        elif word in ('policy', 'policyset'):
            self.only_in(found, 'policyset', 'a policy holds rules: a `policyset` holds policies')
            found.members.append(self.policy(found.block))
        elif word == 'condition':
            self.fail('a condition is a part of a rule')
        elif self.sees(NAME):
            doc = self.here.doc
            found.members.append(tree.Reference(self.qualified('a name'), doc))
        else:
            what = 'rules' if found.kind == 'policy' else 'policies'
            self.fail(f'`target`, `apply`, {what} or `on` is expected in a `{found.kind}`, and not {self.shown()}')

    def only_in(self, found, kind, what):
        """Tells a member that can't stand in something of another kind."""
        if found.kind != kind:
            self.fault(what)

    def rule(self, block):
        """A rule."""
        found = self.head(tree.Rule(self.here.place, block))
        self.body(lambda: self.of_rule(found), OF_RULE | NO_RULE, NO_RULE)
        return found

    def of_rule(self, found):
        """One part of a rule."""
        word = self.here.text if self.here.kind == KEYWORD else None
        if word == 'target':
            found.targets += self.target()
        elif word in ('permit', 'deny'):
            effect = self.take()
            found.effects.append(tree.Word(effect.text, effect.place))
        elif word == 'condition':
            place = self.take().place
            found.conditions.append((place, self.expression()))
        elif word == 'on':
            found.ons.append(self.on())
        else:
            self.fail(f'`target`, `permit`, `deny`, `condition` or `on` is expected in a rule, and not {self.shown()}')

    # ---- targets

    def target(self):
        """The clauses of a target."""
        self.take()
        if not self.sees(KEYWORD, 'clause'):
            self.fail(f'`clause` is expected behind `target`, and not {self.shown()}')
        clauses = []
        while self.sees(KEYWORD, 'clause'):
            place = self.take().place
            alternatives = [self.conjunction()]
            while self.between('or', '||'):
                alternatives.append(self.conjunction())
            clauses.append(tree.Clause(place, alternatives))
        return clauses

    def conjunction(self):
        """Matches with `and` between them."""
        found = [self.comparison()]
        while self.between('and', '&&'):
            found.append(self.comparison())
        return found

    def between(self, word, sign):
        """Takes the word that stands between the parts of a clause."""
        if self.sees(SIGN, sign):
            self.fault(f'`{sign}` is for conditions; in a target it is `{word}`')
            return self.take()
        return self.skip(KEYWORD, word)

    # ---- obligations and advice

    def on(self):
        """`on permit` or `on deny`."""
        self.take()
        if not (self.sees(KEYWORD, 'permit') or self.sees(KEYWORD, 'deny')):
            self.fail(f'`permit` or `deny` is expected behind `on`, and not {self.shown()}')
        effect = self.take()
        found = tree.On(tree.Word(effect.text, effect.place), [])
        self.body(lambda: found.given.append(self.given()), {'obligation', 'advice'} | NOT_GIVEN, NOT_GIVEN)
        return found

    def given(self):
        """An obligation or an advice, with what it assigns."""
        if not (self.sees(KEYWORD, 'obligation') or self.sees(KEYWORD, 'advice')):
            self.fail(f'`obligation` or `advice` is expected, and not {self.shown()}')
        kind = self.take().text
        found = tree.Given(kind, self.qualified(f'the name of the {kind}'), [])
        if self.sees(SIGN, '{'):
            self.body(lambda: found.assignments.append(self.assignment()), NOT_GIVEN, NOT_GIVEN)
        return found

    def assignment(self):
        """A name of an attribute with the expression that it is given."""
        name = self.qualified('the name of an attribute')
        self.need(SIGN, '=')
        return name, self.expression()
