"""What reads tokens one by one, and goes on behind a fault."""
from . import tree
from .tokens import END, KEYWORD, NAME, SIGN, TEXT

WHAT = {NAME: 'a name', TEXT: 'a text in quotes'}
MOST_LEVELS = 200


class Fault(Exception):
    """What can't be read here; it was told."""


class Reader:
    """Tokens, and which of them is next."""

    def __init__(self, tokens, told):
        self.tokens, self.told, self.at, self.levels, self.depth = tokens, told, 0, 0, 0
        self.is_ended, self.last = False, None

    @property
    def here(self):
        """The next token."""
        return self.tokens[self.at]

    def take(self):
        """The next token, which is read then."""
        found = self.tokens[self.at]
        self.at += found.kind != END
        return found

    def sees(self, kind, text=None):
        """Whether the next token is of a kind, and that one."""
        return self.here.kind == kind and text in (None, self.here.text)

    def skip(self, kind, text):
        """Takes the next token if it is that one."""
        return self.take() if self.sees(kind, text) else None

    def shown(self):
        """The next token in a sentence."""
        if self.sees(END):
            return 'the end of the file'
        return 'a text' if self.sees(TEXT) else f'`{self.here.text}`'

    def fault(self, what):
        """Tells a fault at the next token, where none was told."""
        if self.here.place != self.last:
            self.told.error(self.here.place, what)
        self.last = self.here.place

    def fail(self, what):
        """Tells a fault, and gives up the part that is being read."""
        self.fault(what)
        raise Fault

    def need(self, kind, text):
        """Takes the next token, which has to be that one."""
        if not self.sees(kind, text):
            self.fail(f'`{text}` is expected, and not {self.shown()}')
        return self.take()

    def text(self, what):
        """A text."""
        if not self.sees(TEXT):
            self.fail(f'{what} is expected, and not {self.shown()}')
        found = self.take()
        return tree.Word(found.text, found.place)

    def simple(self, what):
        """A name without dots."""
        if self.sees(KEYWORD):
            self.fail(f'{what} is expected, and `{self.here.text}` is a keyword: `^{self.here.text}` is a name')
        if not self.sees(NAME):
            self.fail(f'{what} is expected, and not {self.shown()}')
        found = self.take()
        return tree.Word(found.text, found.place)

    def qualified(self, what):
        """A name, perhaps with dots; behind a dot a keyword is a name too."""
        found = self.simple(what)
        while self.sees(SIGN, '.') and self.tokens[self.at + 1].kind in (NAME, KEYWORD):
            self.take()
            found.text += '.' + self.take().text
        return found

    def part(self, read, starts):
        """Reads one part. Behind a fault in it, goes to where the next may begin: one of these keywords, or the end
        of what is around it."""
        before, self.levels, depth = self.at, 0, self.depth
        try:
            read()
        except Fault:
            levels, self.depth = 0, depth
            while not self.sees(END):
                is_next = self.at > before and self.here.kind == KEYWORD and self.here.text in starts
                if levels == 0 and (is_next or self.sees(SIGN, '}')):
                    return
                levels += self.sees(SIGN, '{') - self.sees(SIGN, '}')
                self.take()

    def body(self, read, starts, never=()):
        """Parts between braces. Where the file ends, or a keyword stands that never does in such a part, a brace is
        missing, which is told once."""
        opened = self.need(SIGN, '{')
        self.depth += 1
        if self.depth > MOST_LEVELS:
            self.fail(f'more than {MOST_LEVELS} levels of braces')
        while not self.sees(SIGN, '}'):
            is_over = self.sees(END)
            if is_over or self.sees(KEYWORD) and self.here.text in never:
                if not self.is_ended:
                    line, column = opened.place.line, opened.place.column
                    self.fault(f'`}}` is missing before {self.shown()}, for the `{{` at {line}:{column}')
                self.is_ended = self.is_ended or is_over
                break
            self.part(read, starts)
        else:
            self.take()
        self.depth -= 1
