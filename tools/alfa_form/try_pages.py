"""The ALFA of the pages: each block makes documents, and where JSON stands below it that document."""
import json
import pathlib
import re

from xacml_form.normal import normal

from .compiling import Compiler
from .told import ERROR
from .tokens import KEYWORDS

ROOT = pathlib.Path(__file__).resolve().parents[2]
DOCS, GRAMMAR = ROOT / 'docs', ROOT / 'tools' / 'schemas' / 'alfa.tmLanguage.json'
BLOCK = re.compile(r'(?ms)^```alfa\n(.*?)^```\n(?:\n```json\n(.*?)^```\n)?')


def compiled(name, text):
    """The documents of a text, and what is wrong with it."""
    compiler = Compiler([(name, text.encode())])
    made = [each.document for each in compiler.made()]
    return made, [line for line in compiler.told.lines() if f': {ERROR}: ' in line]


def of_policies():
    """Those of Writing policies: the first declares the names of the others."""
    (names, _), *blocks = BLOCK.findall((DOCS / 'POLICIES.md').read_text(encoding='utf-8'))
    wrong = []
    for text, beside in blocks:
        whole = f'{names}namespace policies {{ import attributes.*\n{text}}}'
        made, faults = compiled('POLICIES.md', whole)
        wrong += faults
        if [normal(each) for each in made] != [normal(json.loads(beside))]:
            wrong.append(f'POLICIES.md has another document below this: {text}')
    return len(blocks), wrong


def of_grammar():
    """What the grammar of editors lacks: a keyword, or a pattern that can't be read."""
    grammar = json.loads(GRAMMAR.read_text(encoding='utf-8'))
    patterns = list(re.findall(r'"(?:match|begin|end)": ("(?:[^"\\]|\\.)*")', GRAMMAR.read_text(encoding='utf-8')))
    for pattern in patterns:
        re.compile(json.loads(pattern))
    words = ' '.join(each['match'] for each in grammar['repository']['keyword']['patterns'])
    return [f'the grammar lacks {word}' for word in sorted(KEYWORDS) if not re.search(rf'[:|]{word}[|)]', words)]


def run():
    """How many blocks were tried, and what was wrong."""
    count, wrong = of_policies()
    wrong += of_grammar()
    page = (DOCS / 'ALFA.md').read_text(encoding='utf-8')
    for text, _ in BLOCK.findall(page):
        made, faults = compiled('ALFA.md', text)
        count, wrong = count + 1, wrong + faults + ([] if made else [f'ALFA.md: no document: {text}'])
        _, told = compiled('orders.alfa', text.replace('clause action ', 'clause actoin ').replace('"guest"', '5'))
        wrong += [f'ALFA.md doesn\'t tell: {line}' for line in told if f'    {line}\n' not in page]
    return count, wrong
