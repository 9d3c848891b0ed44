"""Files of ALFA of which words are dropped, doubled, moved or taken from elsewhere: each is read to its end, and where
nothing is told every part of its documents is there."""
import pathlib
import random
import re

from . import try_worlds
from .compiling import Compiler
from .told import ERROR

CLINIC = pathlib.Path(__file__).resolve().parents[2] / 'examples' / 'clinic' / 'clinic.alfa'
WORDS = re.compile(r'/\*.*?\*/|//[^\n]*|"(?:[^"\\]|\\.)*"|\w+|\s+|.', re.DOTALL)
OTHERS = ['{', '}', '(', ')', '[', ']', '"', "'", '/*', '*/', '//', '\\', '==', '&&', ',', ':', '.', '-', '5.0', '\x00',
          'é', 'policy', 'rule', 'target', 'clause', 'condition', 'permit', 'on', 'import', 'true', 'function', '\n']


def texts():
    """The files that are damaged."""
    yield CLINIC.read_text(encoding='utf-8')
    for seed in range(3):
        yield try_worlds.Text(seed).world(try_worlds.Worlds(seed).world())


def damaged(words, chance):
    """The same words, some of them at other places."""
    words = list(words)
    for _ in range(chance.choice([1, 1, 1, 2, 5])):
        at, other = chance.randrange(len(words)), chance.randrange(len(words))
        way = chance.randrange(5)
        if way == 0:
            del words[at]
        elif way == 1:
            words.insert(at, words[other])
        elif way == 2:
            words[at], words[other] = words[other], words[at]
        elif way == 3:
            words[at] = chance.choice(OTHERS)
        else:
            del words[at:at + chance.randrange(1, 8)]
    return ''.join(words)


def is_whole(json):
    """Whether no part of a document is missing."""
    if isinstance(json, dict):
        return all(map(is_whole, json.values()))
    return all(map(is_whole, json)) if isinstance(json, list) else json is not None


def run(number, seed=0):
    """How many files were read, of how many something was told, and what was wrong."""
    chance, told, wrong = random.Random(seed), 0, []
    files = [WORDS.findall(text) for text in texts()]
    for count in range(number):
        text = damaged(files[count % len(files)], chance)
        try:
            compiler = Compiler([('damaged', text.encode('utf-8', 'replace'))])
            made = [each.document for each in compiler.made()]
            compiler.told.lines()
        except Exception as fault:
            wrong.append(f'{type(fault).__name__} {fault} of {text[:2000]}')
            continue
        told += compiler.told.holds(ERROR)
        if not compiler.told.holds(ERROR) and not is_whole(made):
            wrong.append(f'nothing is told of {text[:2000]}')
    return number, told, wrong
