"""The words, texts, numbers and signs of a file of ALFA, each with its place."""
import bisect
import re
import typing

from .told import Place

NAME, KEYWORD, TEXT, NUMBER, SIGN, END = 'name', 'keyword', 'text', 'number', 'sign', 'end'
KEYWORDS = {
    'namespace', 'import', 'category', 'type', 'attribute', 'obligation', 'advice', 'function', 'policyCombinator',
    'ruleCombinator', 'policycombinator', 'rulecombinator', 'infix', 'policyset', 'policy', 'rule', 'target', 'clause',
    'apply', 'condition', 'permit', 'deny', 'on', 'or', 'and', 'true', 'false',
}
SIGNS = ['->', '==', '!=', '>=', '<=', '&&', '||', *'{}[]().,:=<>+-*/%!']
WORD = re.compile(r'[A-Za-z_][A-Za-z0-9_]*')
SPACE = re.compile(r'\s+')
LINE = re.compile(r'[^\r\n]*')
# What stands in a text up to its quote, a backslash or the end of its line.
PLAIN = {quote: re.compile(rf'[^{quote}\\\r\n]*') for quote in '"\''}
DIGITS = re.compile(r'\d+(\.\d+)?', re.ASCII)
# What Java, and so other tools, read behind a backslash as a sign of another kind.
OTHERWISE = 'bfnrtu'


class Token(typing.NamedTuple):
    """One of them: a text without its quotes; and the comment `/** .. */` before it, if there is one."""

    kind: str
    text: str
    place: Place
    doc: typing.Optional[tuple] = None


class Tokens:
    """Those of one file."""

    def __init__(self, text, file, told):
        self.text, self.file, self.told = text, file, told
        self.starts = [0, *(found.end() for found in re.finditer(r'\r\n|\r|\n', text))]
        self.at, self.doc, self.found = 1 if text.startswith('\ufeff') else 0, None, []

    def place(self, at):
        """Line and column of a character."""
        line = bisect.bisect_right(self.starts, at)
        return Place(self.file, line, at - self.starts[line - 1] + 1)

    def all(self):
        """All of them, an end behind the last."""
        while self.at < len(self.text):
            self.next()
        self.add(END, '', self.at)
        return self.found

    def add(self, kind, text, start):
        self.found.append(Token(kind, text, self.place(start), self.doc))
        self.doc = None

    def next(self):
        """Takes what stands at this place."""
        start, text = self.at, self.text
        first = text[start]
        if first.isspace():
            self.at = SPACE.match(text, start).end()
        elif found := WORD.match(text, start + (first == '^')):
            self.word(found[0], start)
        elif first in '"\'':
            self.quoted(start)
        elif text.startswith('//', start):
            self.at = LINE.match(text, start).end()
        elif text.startswith('/*', start):
            self.comment(start)
        elif found := DIGITS.match(text, start):
            self.at = found.end()
            self.add(NUMBER, found[0], start)
        else:
            self.sign(start)

    def word(self, word, start):
        """A name or a keyword; a keyword with `^` in front is a name."""
        escaped = self.text[start] == '^'
        self.at = start + len(word) + escaped
        if escaped:
            self.told.note(self.place(start), '`^` in front of a keyword is taken as making a name of it')
        self.add(KEYWORD if word in KEYWORDS and not escaped else NAME, word, start)

    def sign(self, start):
        sign = next((each for each in SIGNS if self.text.startswith(each, start)), None)
        self.at = start + len(sign or ' ')
        if sign is None:
            character = self.text[start]
            shown = character if character.isprintable() else f'U+{ord(character):04X}'
            self.told.error(self.place(start), f'no part of ALFA begins with `{shown}`')
        else:
            self.add(SIGN, sign, start)

    def comment(self, start):
        """A comment; one that begins with `/**` is kept for what stands behind it."""
        end = self.text.find('*/', start + 2)
        if end < 0:
            self.told.error(self.place(start), 'this comment has no end: `*/` is missing')
            end = len(self.text)
        elif self.text.startswith('/**', start) and end > start + 2:
            self.doc = (self.text[start + 3:end], self.place(start))
        self.at = min(end + 2, len(self.text))

    def quoted(self, start):
        """A text up to its quote; a backslash takes what stands behind it as it is, also the end of a line."""
        quote, made, at = self.text[start], [], start + 1
        while True:
            end = PLAIN[quote].match(self.text, at).end()
            made.append(self.text[at:end])
            at = end
            if self.text[at:at + 1] != '\\' or at + 1 == len(self.text):
                break
            length = 2 if self.text.startswith('\r\n', at + 1) else 1
            made.append(self.text[at + 1:at + 1 + length])
            if made[-1] in OTHERWISE:
                what = f'`\\{made[-1]}` in a text is taken as the letter `{made[-1]}` alone'
                self.told.note(self.place(at), what)
            at += 1 + length
        if self.text[at:at + 1] != quote:
            self.told.error(self.place(start), f'this text has no end: {quote} is missing (a text goes on in the next'
                            ' line behind a backslash alone)')
        self.at = at + (self.text[at:at + 1] == quote)
        self.add(TEXT, ''.join(made), start)
