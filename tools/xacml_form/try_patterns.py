"""Regular expressions that are rewritten, beside what Python finds in texts without line breaks."""
import re

from . import names, patterns
from .driver import apply, bag, function, literal, single
from .grid import FAILS, attributes

PATTERNS = [
    *r'a b ab ^a b$ ^ab$ ^a|b$ ^(a|b)$ (a|b)c ^a.* .*b$ .* ^$ a\.b [.]b ^(a|b)(c|d)$ ^(ab|a) ^\^ ^.*b ^a.*$ a|'.split(),
    *('^(a.*|b)$', ''),
]
TEXTS = ['', 'a', 'b', 'ab', 'ba', 'abc', 'xab', 'ac', 'bd', 'a.b', '^', 'axb', 'B', 'cab.b']
NOT_PLAIN = r'a+ [ab] ^a.b$ a? \d a{2} (?i)a (a a) ^a.*b$ a^b a$b . a\/ [^a] a*'.split()


def regular_expressions(grid):
    """Each pattern in a condition, over a bag and in a Match."""
    name = 'the regular expression'
    over = {names.ANY_OF: any, names.ALL_OF: all}
    for pattern in PATTERNS:
        found = {text: re.search(pattern, text) is not None for text in TEXTS}
        given = literal('string', pattern)
        cases = [(attributes(x=('string', [text])), found[text]) for text in TEXTS]
        condition = apply(names.REGEXP_MATCH, given, single('x', 'string'))
        grid.compare(name, condition, [*cases, (attributes(x=('string', [])), FAILS)])
        pairs = [[], *([text] for text in TEXTS), *([TEXTS[at], TEXTS[-at]] for at in range(1, 8))]
        for higher, of in over.items():
            if higher == names.ALL_OF and len(patterns.words(pattern)) > 1:
                continue
            condition = apply(higher, function(names.REGEXP_MATCH), given, bag('x', 'string'))
            cases = [(attributes(x=('string', each)), of(found[text] for text in each)) for each in pairs]
            grid.compare(name, condition, cases)
        for must in ('true', 'false'):
            match = f'<Match MatchId="{names.REGEXP_MATCH}">{given}{bag("x", "string", must)}</Match>'
            cases = [(attributes(x=('string', each)), any(found[text] for text in each)) for each in pairs[1:]]
            cases.append((attributes(x=('string', [])), FAILS if must == 'true' else False))
            grid.compare(name, match, cases, is_target=True)
    for pattern in NOT_PLAIN:
        try:
            grid.wrong.append(f'{pattern} was taken as {patterns.words(pattern)}')
        except patterns.NotPlain:
            grid.count += 1
