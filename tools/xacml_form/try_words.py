"""What is told of names under another version, of patterns that are no words, of references, and of a folder."""
import json
import subprocess
import sys

from . import bringing, names, styles
from .driver import F1, XS, apply, bag, literal, single
from .try_told import FIRST, Folder, a_rule, a_set, is_told, one_rule, reference, rules

F3 = names.FUNCTION.format('3.0', '{}').format
F2 = names.FUNCTION.format('2.0', '{}').format
MEANT = 'by hand: the {}: did you mean {}?'.format
SAME = apply(F3('string-equal'), single('x', 'string'), literal('string', 'a'))
PATH = f'<AttributeValue DataType="{names.XPATH_TYPE}" XPathCategory="urn:x">/a</AttributeValue>'
INNER = a_set('\n' + rules(a_rule('a')), identifier='i')
OTHER = a_set(reference('p'), reference('q'), identifier='o')
ALONE = 'xacml.py: references weren\'t looked up: name the files that they lead to as well, or --stored'


def matched(pattern):
    """A condition by a regular expression."""
    return one_rule(apply(names.REGEXP_MATCH, literal('string', pattern), single('x', 'string')))


# Of each set of files the words behind them, what is told, and what isn't.
TOLD = [
    ([one_rule(SAME)], [], ['a:3: ' + MEANT(f'function {F3("string-equal")}', F1('string-equal'))], ['impossible']),
    (
        [one_rule(apply(F2('string-is-in'), literal('string', 'a'), bag('x', 'string')))],
        [],
        ['a:3: ' + MEANT(f'function {F2("string-is-in")}', F1('string-is-in'))],
        ['impossible'],
    ),
    (
        [rules(a_rule('a')).replace(':deny-overrides', ':first-applicable')],
        [],
        ['a:1: by hand: the algorithm urn:', f'did you mean {FIRST.format("rule")}?'],
        ['impossible'],
    ),
    (
        [one_rule(apply(F3('all-of-any'), bag('x', 'string'), bag('y', 'string')))],
        [],
        ['a:3: ' + MEANT(f'function {F3("all-of-any")}', F1('all-of-any'))],
        ['older name'],
    ),
    (
        [one_rule(literal('string', 'a').replace(XS + 'string', 'xs:string'))],
        [],
        ['a:3: ' + MEANT('data type xs:string', XS + 'string')],
        ['impossible'],
    ),
    (
        [one_rule(apply(F1('map'), bag('x', 'string')))],
        [],
        ['a:3: impossible: the function ' + F3('map')],
        ['did you mean'],
    ),
    ([one_rule(PATH)], [], ['a:3: impossible: the data type ' + names.XPATH_TYPE], ['XPathCategory']),
    (
        [matched('^(a|b)$')],
        [],
        ['a:3: warning: the regular expression ^(a|b)$: taken as string-equal a or'],
        ['by hand'],
    ),
    (
        [matched('^a.*$')],
        [],
        ['a:3: warning: the regular expression ^a.*$: taken as string-starts-with a', 'line break'],
        [],
    ),
    (
        [matched(r'^emp-\d+@x\.org$')],
        [],
        [
            r'a:3: by hand',
            r'string-starts-with emp- and string-ends-with @x.org; what \d+ tests as an attribute of its own',
        ],
        [],
    ),
    ([OTHER], ['--program'], [ALONE], ['fault', 'warning']),
    (
        [INNER.replace('</PolicySet>', reference('p') + '</PolicySet>')],
        ['--program'],
        ['a:4: warning: no Policy p is'],
        [ALONE],
    ),
    (
        [INNER, OTHER],
        ['--program'],
        [
            'b:2: fault: no Policy p is stored; the one at a.xml:3:',
            '--split makes it one',
            'b:3: fault: no Policy q is stored',
        ],
        [ALONE],
    ),
]
SURVEYED = [
    '6 files',
    '     2 come over',
    '     1 can\'t be read',
    '     1 are no XACML of their version',
    '     2 have something that isn\'t here',
    '     1 requests and responses beside them',
    '',
    '| What stops them | Files | Of these by it alone | Times | First at | What can be done |',
    '|---|---|---|---|---|---|',
]


def split(folder, program):
    """A policy inside a set that another set refers to becomes a document of its own, and decides what it did."""
    set_ = a_set(reference('p'), identifier='o')
    status, written, told = folder.ran([INNER, set_], ['--split', '--lines', '--root', 'o', '--program', program])
    lines = [json.loads(line) for line in written.splitlines()]
    ids = [body[f'{kind}Id'] for line in lines[:-1] for kind, body in line['document'].items()]
    ask = json.dumps({'do': 'ask', 'request': {'Request': {}}})
    replies = subprocess.run([program, 'serve'], input=f'{written}{ask}\n', capture_output=True, text=True).stdout
    if status or ids != ['i', 'p', 'o'] or '"Decision":"Permit"' not in replies or 'refused' in replies:
        yield f'--split: {status} {ids} {told} {replies}'
    twice = a_set(rules(a_rule('a')), rules(a_rule('b', 'Deny')), reference('p'))
    status, _, told = folder.ran([twice], ['--split'])
    if status != 1 or 'stands twice, and not the same' not in told:
        yield f'--split of two that differ: {status} {told}'


def surveyed(folder):
    """What a survey says of a folder."""
    place = folder.path('survey')
    (place / 'below').mkdir(parents=True)
    texts = {
        'over': rules(a_rule('a')),
        'below/set': INNER,
        'legacy': rules(a_rule('a')).replace(':3.0:rule', ':1.0:rule'),
        'both': matched('[a-z]').replace(':3.0:rule', ':1.0:rule'),
        'none': '<a',
        'violation': rules('<Rules/>'),
        'request': f'<Request xmlns="{names.NAMESPACE}"/>',
    }
    for name, text in texts.items():
        (place / f'{name}.xml').write_text(text, encoding='utf-8')
    words = [sys.executable, str(folder.tool), 'survey', str(place)]
    told = subprocess.run(words, capture_output=True, text=True).stdout.splitlines()
    algorithm = names.LEGACY_ALGORITHMS[names.RULES]
    first = f'| by hand: the legacy algorithm {next(iter(algorithm))} | 2 | 1 | 2 | '
    if told[: len(SURVEYED)] != SURVEYED or not told[len(SURVEYED)].startswith(first):
        yield f'survey: {told}'


def collected(folder, program, page):
    """How many of the collection come over, as the page says, which are those that are listed."""
    place = folder.path('collection')
    place.mkdir()
    for style, text in styles.COLLECTION.items():
        (place / f'{style}.xml').write_text(text, encoding='utf-8')
    found = []
    for words in ([], ['--as-modern']):
        ran = [sys.executable, str(folder.tool), 'survey', *words, '--program', program, str(place)]
        told = subprocess.run(ran, capture_output=True, text=True).stdout.splitlines()
        found.append(sum(int(line.split()[0]) for line in told if ' come over' in line))
    said = f'Of {len(styles.COLLECTION)} such files {found[0]} come over, and {found[1]} with `--as-modern`'
    if said not in ' '.join(page.read_text(encoding='utf-8').split()):
        yield f'{page.name} does not say: {said}'
    over = {
        style for style, text in styles.THREE.items() if not bringing.brought(style, text.encode(), False).told.stops()
    }
    if over != set(styles.OVER):
        yield f'of the styles of 3.0 these come over, or not: {sorted(over ^ set(styles.OVER))}'


def run(tool, program, page):
    """How many trials there were, and what was wrong."""
    wrong, folder = [], Folder(tool)
    for texts, words, expected, absent in TOLD:
        _, _, told = folder.ran(texts, [*words, program] if words else [])
        wrong += [f'{each}, but {told}' for each in expected if not is_told(each, told.splitlines())]
        wrong += [f'{each} in {told}' for each in absent if each in told]
    return len(TOLD) + 4, [*wrong, *split(folder, program), *surveyed(folder), *collected(folder, program, page)]
