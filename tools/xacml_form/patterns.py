"""Regular expressions (XML Schema, XPath) that are a word, a list of words, or such with `.*` beside them: which words
they look for, and where in a text."""
import itertools
import typing

from . import names

# The functions that are rewritten, each with the type of its texts.
MATCHES = {names.REGEXP_MATCH: 'string', names.FUNCTION.format('2.0', 'anyURI-regexp-match'): 'anyURI'}
MOST_WORDS = 64
SPECIAL = '.\\?*+{}()|[]^$'
ESCAPED = {**{each: each for each in SPECIAL + '-'}, 'n': '\n', 'r': '\r', 't': '\t'}
ANY, START, END = object(), object(), object()
OWN = 'as an attribute of its own'


class NotPlain(Exception):
    """A pattern that is no list of words, with what a person could do."""


class Word(typing.NamedTuple):
    """A word that is looked for in a text: the end of the function that finds it, whether texts with a line break would
    be read otherwise by the pattern, and whether it says nothing of what stands before or behind."""

    function: str
    text: str
    is_loose: bool = False
    is_open: bool = False


def words(pattern, kind='string'):
    """The words of a pattern."""
    found = list(dict.fromkeys(word_of(each, pattern) for each in Reader(pattern).read()))
    if kind != 'string' and any(each.function != 'equal' for each in found):
        raise NotPlain(f'of {kind} only whole texts are compared: ^ before and $ behind it, or the attribute as string')
    return found


def function(kind, word):
    """The function that finds a word."""
    version = '1.0' if word.function == 'equal' else '3.0'
    return names.FUNCTION.format(version, f'{kind}-{word.function}')


def said(kind, found):
    """What the words of a pattern are taken as."""
    shown = ' or '.join(f'{kind}-{each.function} {each.text or "(nothing)"}' for each in found[:4])
    told = ['taken as ' + shown + (' ..' if len(found) > 4 else '')]
    if any(each.is_open for each in found):
        told.append('by the standard any text may stand before a pattern without ^, and behind one without $')
    if any(each.is_loose for each in found):
        told.append('.* passes no line break, and texts that have one are taken too')
    return '; '.join(told)


def word_of(symbols, pattern):
    """The word that a sequence of symbols looks for."""
    has_start, has_end = symbols[:1] == [START], symbols[-1:] == [END]
    inner = symbols[has_start : len(symbols) - has_end]
    leads, trails = inner[:1] == [ANY], inner[-1:] == [ANY]
    while inner[:1] == [ANY]:
        inner = inner[1:]
    while inner[-1:] == [ANY]:
        inner = inner[:-1]
    if not all(isinstance(each, str) for each in inner):
        raise NotPlain(by_parts(pattern))
    is_at_start, is_at_end = has_start and not leads, has_end and not trails
    text = ''.join(inner)
    is_loose = has_start and leads or has_end and trails
    is_open = not (has_start or leads) or not (has_end or trails)
    if not text and not (is_at_start and is_at_end):
        return Word('starts-with', '', is_loose, is_open)
    found = {(True, True): 'equal', (True, False): 'starts-with', (False, True): 'ends-with'}
    return Word(found.get((is_at_start, is_at_end), 'contains'), text, is_loose, is_open)


def by_parts(pattern):
    """What a person could do about a pattern that has more than words: what it begins and ends with, and the rest."""
    reader = Reader(pattern)
    begins, rest = reader.front()
    rest, ends = Reader(rest).back()
    told = [f'string-starts-with {begins}'] if begins else []
    told += [f'string-ends-with {ends}'] if ends else []
    if not told:
        return f'store whether it matches {OWN}'
    return ' and '.join(told) + (f'; what {rest} tests {OWN}' if rest not in ('', '.*') else '')


class Reader:
    """Reads a pattern into sequences of symbols, one for each alternative."""

    def __init__(self, pattern):
        self.pattern, self.place = pattern, 0

    def next(self):
        """The character at the place, or nothing."""
        return self.pattern[self.place : self.place + 1]

    def take(self):
        self.place += 1
        return self.pattern[self.place - 1 : self.place]

    def fail(self):
        raise NotPlain(by_parts(self.pattern))

    def read(self):
        """The alternatives of the whole pattern."""
        found = self.alternatives()
        if self.next():
            self.fail()
        return found

    def alternatives(self):
        found = self.branch()
        while self.next() == '|':
            self.take()
            found += self.branch()
        if len(found) > MOST_WORDS:
            raise NotPlain(f'more than {MOST_WORDS} words: store whether it matches {OWN}')
        return found

    def branch(self):
        """One branch: its pieces one behind the other, in each way."""
        pieces = []
        while self.next() and self.next() not in '|)':
            pieces.append(self.piece())
        ways = 1
        for each in pieces:
            ways *= len(each)
            if ways > MOST_WORDS:
                raise NotPlain(f'more than {MOST_WORDS} words: store whether it matches {OWN}')
        return [[symbol for part in way for symbol in part] for way in itertools.product(*pieces)]

    def piece(self):
        """The ways of an atom with its quantifier, of which only `.*` is read."""
        first = self.next()
        found = self.atom()
        if self.next() and self.next() in '?*+{':
            if first != '.' or self.take() != '*':
                self.fail()
            if self.next() == '?':
                self.take()
            if self.next() and self.next() in '?*+{':
                self.fail()
            return [[ANY]]
        if first == '.':
            self.fail()
        return found

    def atom(self):
        """The ways of a character, an anchor, or a group."""
        one = self.take()
        if one == '\\':
            return [[self.escaped()]]
        if one == '(':
            found = self.alternatives() if self.next() != '?' else self.fail()
            return found if self.take() == ')' else self.fail()
        if one == '[':
            found = self.escaped() if self.next() == '\\' and self.take() else self.take()
            return [[found]] if found not in ('', '^', '[', '-', ']') and self.take() == ']' else self.fail()
        if one in '^$':
            return [[START if one == '^' else END]]
        return [[one]] if one == '.' or one not in SPECIAL else self.fail()

    def escaped(self):
        """The character that an escape stands for."""
        found = ESCAPED.get(self.take())
        return self.fail() if found is None else found

    def front(self):
        """The text with which each match begins, where the pattern begins with ^, and the rest of the pattern."""
        if self.next() != '^' or '|' in self.pattern:
            return '', self.pattern
        self.take()
        found, at = '', self.place
        while (one := self.literal()) is not None:
            found, at = found + one, self.place
        return found, self.pattern[at:]

    def literal(self):
        """The next character that stands for itself, if no quantifier is behind it."""
        one = self.take()
        if one == '\\':
            one = ESCAPED.get(self.take())
        elif one in SPECIAL:
            one = None
        return one if one and (not self.next() or self.next() not in '?*+{') else None

    def back(self):
        """The rest of the pattern, and the text with which each match ends, where the pattern ends with $."""
        if not self.pattern.endswith('$') or self.pattern.endswith('\\$') or '|' in self.pattern:
            return self.pattern, ''
        for at in range(len(self.pattern) - 1):
            found = Reader(self.pattern[at:-1]).all_literal()
            if found is not None and self.pattern[at - 1 : at] != '\\':
                return self.pattern[:at], found
        return self.pattern[:-1], ''

    def all_literal(self):
        """The text that the whole pattern stands for, if it is one of characters alone."""
        found = ''
        while self.next():
            one = self.literal()
            if one is None:
                return None
            found += one
        return found
