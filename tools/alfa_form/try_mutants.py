"""What the trials of the tool have to miss: each an edit of one of its files, with which a trial must fail."""
import pathlib
import shutil
import subprocess
import sys
import tempfile

# What an edit takes away: its name, the file, what stands there once, and what becomes of it.
MUTANTS = [
    ('a comparison in a target not turned', 'documents.py', "'>': '<', '>=': '<=', '<': '>', '<=': '>='}",
     "'>': '>', '>=': '>=', '<': '<', '<=': '<='}"),
    ('mustbepresent dropped', 'meaning.py', "'MustBePresent': node.must}", "'MustBePresent': False}"),
    ('the issuer dropped', 'meaning.py', "parts['Issuer'] = node.issuer.text", 'pass'),
    ('&& weaker than ||', 'reading_expressions.py',
     "self.chain('||', 'or', lambda: self.chain('&&', 'and', self.comparison))",
     "self.chain('&&', 'and', lambda: self.chain('||', 'or', self.comparison))"),
    ('two bags as subset', 'meaning.py', "f'{kind}-at-least-one-member-of'), left, right)",
     "f'{kind}-subset'), left, right)"),
    ('a clause dropped', 'documents.py', 'for each in node.targets]', 'for each in node.targets[:1]]'),
    ('an alternative dropped', 'documents.py', 'for matches in clause.alternatives]',
     'for matches in clause.alternatives[:1]]'),
    ('* as weak as +', 'reading_expressions.py',
     "self.left_to_right(('+', '-'), lambda: self.left_to_right(('*', '/', '%'), self.primary))",
     "self.left_to_right(('+', '-', '*', '/', '%'), self.primary)"),
    ('sums from right to left', 'reading_expressions.py', '[found, read()])\n        return found',
     '[found, self.left_to_right(signs, read)])\n        return found'),
    ('any-of with its arguments turned', 'meaning.py', 'names.ANY_OF, uri, [left, right])',
     'names.ANY_OF, uri, [right, left])'),
    ('anyOf as allOf', 'meaning.py', 'self.higher(node.place, library.FUNCTIONS[name].uri,',
     "self.higher(node.place, library.FUNCTIONS['allOf'].uri,"),
    ('obligations of the other effect', 'documents.py', 'when: EFFECTS[each.effect.text]}',
     "when: 'Permit'}"),
    ('what is assigned dropped', 'documents.py', 'for word, value in given.assignments]',
     'for word, value in given.assignments[:1]]'),
    ('the first import wins in silence', 'naming.py', 'if len(given) > 1:', 'if False:'),
    ('a second declaration in silence', 'naming.py', "if first is None or isinstance(first, str):", 'if True:'),
    ('the type of what is assigned not seen', 'documents.py', 'if kind != found.kind:', 'if False:'),
    ('types of arguments not seen', 'meaning.py', '    if given == takes:\n', '    if True:\n'),
    ('faults behind the first not told', 'reading.py', "if levels == 0 and (is_next or self.sees(SIGN, '}')):",
     'if False:'),
    ('written without the brackets of a chain', 'writing_expressions.py', "text if rank >= least else f'({text})'",
     'text'),
    ('written without its issuer', 'writing_expressions.py', "if 'Issuer' in inner else []", 'if False else []'),
    ('written with a sign that isn\'t turned', 'writing.py', '{TURNED[sign]}', '{sign}'),
    ('a variable that isn\'t told', 'preparing.py', "for name in variables.definitions:", 'for name in []:'),
    ('a script that doesn\'t turn the sign', '../page/alfa.js', '${ALFA_TURNED[sign]}', '${sign}'),
    ('a script that leaves variables', '../page/alfa-names.js', 'one.Condition = variables.out(one.Condition);', ';'),
    ('a script that cuts whole numbers', '../page/alfa-names.js', 'BigInt(value.whole)', 'Number(value.whole)'),
    ('lines in the order of files', 'folder.py', 'for other in by_name.get(name, []):', 'for other in []:'),
    ('descriptions compared with what is stored', 'folder.py', " if name != 'Description'}", '}'),
    ('places of the program\'s faults not found', 'meaning.py', 'return Placed(place, lambda _: place, parts)',
     'return Placed(type(place)(0, 1, 1), lambda _: place, parts)'),
]


def survives(here, program, file, old, new):
    """Whether the trials pass with an edit; None where it can't be put in."""
    with tempfile.TemporaryDirectory() as place:
        root = pathlib.Path(place)
        shutil.copytree(here, root / 'tools', ignore=shutil.ignore_patterns('__pycache__'))
        for name in ('docs', 'examples', 'crates'):
            (root / name).symlink_to(here.parent / name)
        path = root / 'tools' / 'alfa_form' / file
        text = path.read_text(encoding='utf-8')
        if text.count(old) != 1:
            return None
        path.write_text(text.replace(old, new), encoding='utf-8')
        words = [sys.executable, str(root / 'tools' / 'try_alfa.py'), program, '--requests', '1500']
        return subprocess.run(words, capture_output=True, text=True).returncode in (0, 3)


def run(here, program, word):
    """Tries each whose name has a word, and says which isn't seen."""
    wrong, tried = 0, [each for each in MUTANTS if word in each[0]]
    for name, file, old, new in tried:
        found = survives(here, program, file, old, new)
        wrong += found is not False
        print({None: 'CAN\'T BE PUT IN', True: 'NOT SEEN', False: 'seen'}[found] + f': {name}', flush=True)
    print(f'mutants: {len(tried) - wrong} seen, {wrong} not')
    return 1 if wrong else 0
