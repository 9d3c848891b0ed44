"""Files of ALFA, read: namespaces, declarations, and what follows. A fault is told, and reading goes on behind it."""
from . import tree
from .tokens import END, KEYWORD, NAME, SIGN
from .reading_policies import Policies

DECLARED = {'category', 'type', 'attribute', 'obligation', 'advice', 'function', 'policyCombinator', 'ruleCombinator',
            'policycombinator', 'rulecombinator', 'infix'}
PARTS = {'namespace', 'import', 'policyset', 'policy', 'rule'} | DECLARED
LOWER = {'policycombinator': 'policyCombinator', 'rulecombinator': 'ruleCombinator'}
MODIFIED = ('*', '+')


class Files(Policies):
    """Reads one file."""

    def whole(self):
        """The file, as a namespace without a name."""
        block = tree.Block('', None)
        while not self.sees(END):
            self.part(lambda: self.in_file(block), PARTS)
            if self.sees(SIGN, '}'):
                self.fault('this `}` closes nothing')
                self.take()
        return block

    def in_file(self, block):
        """An import or a namespace, which is all that stands outside of namespaces."""
        if self.sees(KEYWORD, 'import'):
            block.imports.append(self.imported())
        elif self.sees(KEYWORD, 'namespace'):
            block.parts.append(self.namespace(block))
        elif self.here.text in PARTS:
            self.fail(f'`{self.here.text}` stands in a namespace: write `namespace NAME {{ .. }}` around it')
        else:
            self.fail(f'`import` or `namespace` is expected, and not {self.shown()}')

    def imported(self):
        """`import a.b` or `import a.b.*`."""
        self.take()
        name = self.qualified('what is imported')
        if self.skip(SIGN, '.'):
            self.need(SIGN, '*')
            return tree.Import(name, True)
        return tree.Import(name, False)

    def namespace(self, outer):
        """A namespace with all that stands in it."""
        self.take()
        name = self.qualified('the name of the namespace')
        block = tree.Block(outer.within(name.text), outer)
        self.body(lambda: self.in_namespace(block), PARTS)
        return block

    def in_namespace(self, block):
        """One part of a namespace."""
        word = self.here.text if self.here.kind == KEYWORD else None
        if word == 'import':
            block.imports.append(self.imported())
        elif word == 'namespace':
            block.parts.append(self.namespace(block))
        elif word in ('policy', 'policyset'):
            block.parts.append(self.policy(block))
        elif word == 'rule':
            block.parts.append(self.rule(block))
        elif word == 'attribute':
            block.parts.append(self.attribute(block))
        elif word in DECLARED:
            block.parts += self.declared(block)
        else:
            self.fail(f'`policy`, `policyset`, `rule` or a declaration is expected, and not {self.shown()}')

    def declared(self, block):
        """A name for a URI; of an infix operator nothing is taken."""
        word = self.take()
        if word.text == 'infix':
            self.infix(word)
            return []
        if word.text in LOWER:
            self.told.note(word.place, f'`{word.text}` in lower case is taken as `{LOWER[word.text]}`')
        name = self.simple(f'the name of the {word.text}')
        self.need(SIGN, '=')
        uri = self.text('its URI, a text in quotes,')
        if word.text == 'function':
            self.told.note(word.place, 'what stands behind the URI of a function of one\'s own is passed over')
            self.signature()
        return [tree.Declaration(LOWER.get(word.text, word.text), name, uri, block)]

    def signature(self):
        """The types of a function of one's own."""
        if self.skip(SIGN, ':'):
            while not self.sees(SIGN, '->'):
                self.argument_type()
            self.take()
            self.argument_type()

    def argument_type(self):
        """One of them: a type, a bag of it, or a function, perhaps any number of times."""
        if not self.skip(KEYWORD, 'function'):
            self.qualified('a type')
            if self.skip(SIGN, '['):
                self.qualified('the type of the bag')
                self.need(SIGN, ']')
        for sign in MODIFIED:
            self.skip(SIGN, sign)

    def infix(self, word):
        """`infix comm (==) = { .. }`, which only says what operators mean already."""
        self.told.note(word.place, '`infix` is passed over: operators mean what docs/ALFA.md says')
        while not self.sees(SIGN, '{'):
            if self.sees(END) or self.here.kind == KEYWORD:
                self.fail(f'`{{` is expected behind `infix`, and not {self.shown()}')
            self.take()
        self.body(lambda: self.qualified('a function'), set())

    def attribute(self, block):
        """An attribute with its id, type and category, in any order."""
        self.take()
        found = tree.Attribute(self.simple('the name of the attribute'), block)
        self.body(lambda: self.property(found), {'type', 'category'})
        return found

    def property(self, attribute):
        """One of the three."""
        key = self.here
        if key.kind not in (NAME, KEYWORD) or key.text not in ('id', 'type', 'category'):
            self.fail(f'`id`, `type` or `category` is expected, and not {self.shown()}')
        self.take()
        if getattr(attribute, key.text) is not None:
            self.told.error(key.place, f'one more `{key.text}` in this attribute')
        self.need(SIGN, '=')
        setattr(attribute, key.text, self.text('a text in quotes') if key.text == 'id' else self.qualified('a name'))
