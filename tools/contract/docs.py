"""How far a contract goes, in the doc comment of its function: its last paragraph, in one sentence."""
import re
import textwrap

from . import reading

MARK = 'Its contract '
SAID = {reading.EQUATION: 'Its contract is an equation.', reading.BUT: 'Its contract is an equation but for memory.'}
WIDTH = 120


def sentence(function, words):
    """What is said of a function; of an open one with what it leaves open."""
    return SAID.get(function.sort) or f'Its contract leaves open: {words.rstrip(".")}.'


def with_docs(text, said):
    """The text of a file whose functions say this, by the lines of their heads, from 1."""
    lines = text.split('\n')
    for line in sorted(said, reverse=True):
        end = line - 1
        while is_attribute(lines, end - 1):
            end -= 1
        begin = end
        while lines[begin - 1].lstrip().startswith('///'):
            begin -= 1
        lines[begin:end] = doc(lines[begin:end], said[line], lines[line - 1])
    return '\n'.join(lines)


def is_attribute(lines, at):
    """Whether a line is one of an attribute's: attributes may have several."""
    text = lines[at].strip()
    return text.startswith('#[') or text.endswith(']') and not text.startswith('//')


def doc(lines, said, head):
    """A doc comment with a sentence as its last paragraph."""
    indent = re.match(r' *', head)[0]
    kept = list(lines)
    for at, line in enumerate(lines):
        if line.strip().removeprefix('///').strip().startswith(MARK):
            kept = lines[:at]
            break
    while kept and kept[-1].strip() == '///':
        kept.pop()
    new = textwrap.wrap(said, WIDTH - len(indent) - 4, break_long_words=False, break_on_hyphens=False)
    return [*kept, *([f'{indent}///'] if kept else []), *(f'{indent}/// {line}' for line in new)]
