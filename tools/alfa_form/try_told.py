"""What is told of files in which something is wrong, or was taken one way of several: each with its place and in these
words, all at once; and what the program refuses, at its place in the ALFA."""
import pathlib
import subprocess
import sys
import tempfile

from .compiling import Compiler

EXAMPLES = pathlib.Path(__file__).resolve().parent / 'examples'
RULES = ' '.join(f'rule r{number} {{ permit }}' for number in range(257))
NAMES = ' '.join(f'p{number}' for number in range(33))
DECLARED = ' '.join(f'policy p{number} {{ apply denyOverrides }}' for number in range(33))
DEEP = 'not(' * 16 + 'true' + ')' * 16
# What `review check` refuses: a policy, and the place and some words that are told.
REFUSED = [
    (f'namespace t {{\n policy p = "{"x" * 257}" {{ apply denyOverrides }}\n}}', '2:2: error: ', '257 bytes'),
    ('namespace t {\n policy p = "" { apply denyOverrides }\n}', '2:2: error: ', 'PolicyId'),
    (f'namespace t {{ policy p {{ apply denyOverrides {RULES} }} }}', '1:15: error: ', '256'),
    (f'namespace t {{ {DECLARED}\n policyset s {{ apply denyOverrides {NAMES} }} }}', '2:2: error: ', '33'),
    (f'namespace t {{ policy p {{ apply denyOverrides rule {{ permit\n condition {DEEP} }} }} }}', '2:', '16 levels'),
    ('namespace t {\n policyset s { apply denyOverrides u }\n policyset u { apply denyOverrides s }\n}', '2:2: error: ',
     'circle'),
    ('namespace t {\n policyset s { apply denyOverrides\n  elsewhere }\n policy elsewhere = "x"\n'
     ' policy p { apply denyOverrides } }', '3:3: error: ', 'no Policy x is stored'),
    ('namespace t { policy p { apply denyOverrides\n rule { permit }\n rule { deny } rule { deny } } }',
     '3:16: warning: ', 'never'),
]


def cases():
    """The files of examples/told.txt, each with the lines that are told of it."""
    for part in (EXAMPLES / 'told.txt').read_text(encoding='utf-8').split('\n\n'):
        first, *told = part.strip('\n').split('\n')
        yield first.removeprefix('> '), told


def of_table():
    """What is told otherwise than the table has."""
    names, count = (EXAMPLES / 'told-names.alfa').read_bytes(), 0
    wrong = []
    for text, wanted in cases():
        compiler = Compiler([('names', names), ('f', text.encode())])
        compiler.made()
        told = [line.removeprefix('f:') for line in compiler.told.lines()]
        count += 1
        if told != wanted:
            wrong.append(f'of {text} is told {told}, and not {wanted}')
    return count, wrong


def of_program(tool, program):
    """What is told otherwise of what the program refuses."""
    wrong = []
    with tempfile.TemporaryDirectory() as folder:
        file = pathlib.Path(folder, 'f.alfa')
        for text, place, words in REFUSED:
            file.write_text(text)
            done = subprocess.run([sys.executable, tool, 'compile', str(file), '--program', program, '--strict'],
                                  capture_output=True, text=True)
            lines = [line for line in done.stderr.splitlines() if line.startswith(f'{file}:{place}') and words in line]
            if done.returncode != 1 or not lines:
                wrong.append(f'of {text[:80]} is told with status {done.returncode}: {done.stderr[:300]}')
    return len(REFUSED), wrong


def of_levels():
    """Levels of parentheses and braces without end are told, and those that are read are none too many."""
    wrong = []
    for text, is_told in [('(' * 190 + 'true' + ')' * 190, False), ('(' * 5000 + 'true', True), ('not(' * 3000, True)]:
        whole = f'namespace t {{ policy p {{ apply denyOverrides rule {{ permit condition {text} }} }} }}'
        wrong += _levels(whole, is_told)
    wrong += _levels('namespace t { ' + 'policyset p { apply denyOverrides ' * 3000, True)
    return 5, wrong + _levels('namespace t { ' * 190 + '}' * 190, False)


def _levels(text, is_told):
    compiler = Compiler([('f', text.encode())])
    compiler.made()
    levels = any(' levels of ' in line for line in compiler.told.lines())
    return [] if levels == is_told else [f'levels of {text[:60]} are told as {compiler.told.lines()[:2]}']


def of_bytes():
    """Files that another editor left: with the lines of another system and a mark in front, and not in UTF-8."""
    text = (EXAMPLES.parents[2] / 'examples' / 'clinic' / 'clinic.alfa').read_bytes()
    made = [[each.document for each in Compiler([('f', data)]).made()]
            for data in (text, b'\xef\xbb\xbf' + text.replace(b'\n', b'\r\n'), text.replace(b'\n', b'\r'))]
    wrong = [] if made[0] == made[1] == made[2] else ['the lines of another system make other documents']
    told = Compiler([('f', b'namespace t {\n  // caf\xe9\n}')]).told.lines()
    return 4, wrong + ([] if told == ["f:2:9: error: this isn't UTF-8"] else [f'of another encoding is told {told}'])


def run(tool, program):
    """How many files were tried, and what was wrong."""
    table, wrong = of_table()
    refused, more = of_program(tool, program)
    levels, others = of_levels()
    other_bytes, rest = of_bytes()
    return table + refused + levels + other_bytes, wrong + more + others + rest
