"""Expressions of ALFA, read."""
from . import tree
from .reading import MOST_LEVELS, Reader
from .tokens import KEYWORD, NAME, NUMBER, SIGN, TEXT

COMPARISONS = ('==', '>', '>=', '<', '<=')
NAMELIKE = ('category', 'type', 'clause', 'infix')


class Expressions(Reader):
    """Reads them, each operator by how tightly it binds."""

    def expression(self):
        """A whole expression."""
        self.levels += 1
        if self.levels > MOST_LEVELS:
            self.fail(f'more than {MOST_LEVELS} levels of parentheses')
        found = self.chain('||', 'or', lambda: self.chain('&&', 'and', self.comparison))
        self.levels -= 1
        return found

    def chain(self, sign, word, read):
        """Some expressions with a sign between them; the word is taken as the sign."""
        parts, first = [read()], None
        while self.sees(SIGN, sign) or self.sees(KEYWORD, word):
            between = self.take()
            if between.kind == KEYWORD:
                self.told.note(between.place, f'`{word}` in a condition is taken as `{sign}`')
            first = first or tree.Word(sign, between.place)
            parts.append(read())
        return tree.Operation(first, parts) if first else parts[0]

    def comparison(self):
        """Two sums that are compared, or one."""
        left = self.sum()
        if self.sees(SIGN, '!='):
            self.fault('`!=` is no operator of ALFA: write not(a == b), which on bags says that no value is equal')
            self.take()
            self.sum()
            return tree.Unread(self.here.place)
        if self.sees(SIGN, '='):
            self.fault('values are compared by `==`')
        elif not any(self.sees(SIGN, sign) for sign in COMPARISONS):
            return left
        sign = self.take()
        found = tree.Operation(tree.Word('==' if sign.text == '=' else sign.text, sign.place), [left, self.sum()])
        if any(self.sees(SIGN, sign) for sign in COMPARISONS):
            self.fail('comparisons aren\'t chained: write a < b && b < c')
        return found

    def sum(self):
        """Products that are added or subtracted, from left to right."""
        return self.left_to_right(('+', '-'), lambda: self.left_to_right(('*', '/', '%'), self.primary))

    def left_to_right(self, signs, read):
        """Operations of one rank."""
        found = read()
        while any(self.sees(SIGN, sign) for sign in signs):
            sign = self.take()
            if sign.text == '%':
                self.told.note(sign.place, '`%` is taken as integerMod')
            found = tree.Operation(tree.Word(sign.text, sign.place), [found, read()])
        return found

    def primary(self):
        """A literal, an attribute, a function with its arguments, or an expression in parentheses."""
        token = self.here
        if token.kind == TEXT:
            return self.of_text()
        if token.kind == NUMBER:
            return tree.Literal(token.place, 'number', self.take().text)
        if self.sees(SIGN, '-') and self.tokens[self.at + 1].kind == NUMBER:
            self.take()
            return tree.Literal(token.place, 'number', '-' + self.take().text)
        if self.sees(KEYWORD, 'true') or self.sees(KEYWORD, 'false'):
            return tree.Literal(token.place, 'boolean', self.take().text)
        if self.skip(SIGN, '('):
            found = self.expression()
            self.need(SIGN, ')')
            return found
        if self.sees(KEYWORD, 'function'):
            return self.named_function()
        if token.kind == NAME or token.text in ('and', 'or') and self.tokens[self.at + 1].text == '(':
            return self.named()
        return self.nothing(token)

    def nothing(self, token):
        """Where no expression begins; a keyword that was perhaps meant as a name is passed over."""
        if self.sees(SIGN, '!'):
            self.fail('there is no `!`: write not(..)')
        if self.sees(SIGN, '-'):
            self.fail('only a number has a sign in front: write 0 - x')
        if token.kind == KEYWORD and token.text in NAMELIKE:
            self.fault(f'an expression is expected, and `{token.text}` is a keyword: `^{token.text}` is a name')
            self.take()
            return tree.Unread(token.place)
        return self.fail(f'an expression is expected, and not {self.shown()}')

    def of_text(self):
        """A text, perhaps with its type behind a colon."""
        token = self.take()
        kind = self.qualified('the type of the literal') if self.skip(SIGN, ':') else None
        return tree.Literal(token.place, 'text', token.text, kind)

    def named_function(self):
        """`function[name]`."""
        place = self.take().place
        self.need(SIGN, '[')
        if self.sees(KEYWORD, 'and') or self.sees(KEYWORD, 'or'):
            token = self.take()
            name = tree.Word(token.text, token.place)
        else:
            name = self.qualified('the name of a function')
        self.need(SIGN, ']')
        return tree.FunctionName(place, name)

    def named(self):
        """A function with its arguments, or an attribute."""
        token = self.here
        name = tree.Word(self.take().text, token.place) if token.kind == KEYWORD else self.qualified('a name')
        if self.skip(SIGN, '('):
            return self.called(name)
        found = tree.Designator(name)
        if self.skip(SIGN, '['):
            while not self.skip(SIGN, ']'):
                self.modifier(found)
        return found

    def called(self, name):
        """The arguments of a function."""
        found = tree.Call(name, [])
        while not self.skip(SIGN, ')'):
            if found.arguments:
                if not self.sees(SIGN, ','):
                    self.fail(f'`,` or `)` is expected, and not {self.shown()}')
                self.take()
            found.arguments.append(self.expression())
        return found

    def modifier(self, found):
        """`mustbepresent` or an issuer."""
        if self.sees(SIGN, ','):
            self.told.note(self.take().place, '`,` in brackets is passed over')
        elif self.sees(NAME, 'mustbepresent') and not found.must:
            self.take()
            found.must = True
        elif self.sees(NAME, 'issuer') and found.issuer is None:
            self.take()
            self.need(SIGN, '=')
            found.issuer = self.text('the issuer, a text in quotes,')
        else:
            self.fail(f'`mustbepresent`, `issuer = ".."` or `]` is expected, and not {self.shown()}')
