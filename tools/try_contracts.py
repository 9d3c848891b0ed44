#!/usr/bin/env python3
"""Tries how contracts are read (tools/contract), what becomes of a page (tools/pages/contracts.py), how controls are
made (tools/wrong/controls.py), and what a command beside another says (tools/as_soon.py): try_contracts.py"""
import pathlib
import subprocess
import sys

TOP = pathlib.Path(__file__).resolve().parents[1]
sys.path.insert(0, str(TOP / 'tools' / 'pages'))
sys.path.insert(0, str(TOP / 'tools'))
import contracts
from contract import docs, reading, sources
from wrong import controls

TYPES = {('c', 'Pair'): {'one': 'u8', 'other': 'Inner'}, ('c', 'Inner'): {'left': 'u8', 'right': 'u8'},
         ('c', 'Hint'): {'()': ''}}
# A head, its clauses, and the class.
ROWS = [
    ('pub fn f(n: u8) -> u8', ['{ result ≡ n }'], 'equation'),
    ('pub fn f(n: u8) -> u8', [], 'open'),
    ('pub fn f(n: u8) -> u8', ['{ result ≤ n }'], 'open'),
    ('pub fn f(n: u8) -> u8', ['{ (m : ℕ) × (result ≡ g m) }'], 'open'),
    ('pub fn f(n: u8) -> u8', ['{ (m : Option ℕ) × Is m × (result ≡ g m) }'], 'open'),
    ('pub fn f(n: u8) -> Result<(), Refused>', [], 'open'),
    ('pub fn f(n: u8) -> Result<(), SomeFault>', [], 'equation but for memory'),
    ('pub fn f(n: u8) -> u8', ['{ (m : ℕ) → Is m n → result ≡ m }'], 'open'),
    ('pub fn f(n: u8) -> bool', ['{ IsTrue result ↔ (n ≡ 0) }'], 'equation'),
    ('pub fn f(n: u8) -> bool', ['{ IsTrue result → n ≡ 0 }'], 'open'),
    ('pub fn f(list: &[u8]) -> usize', ['{ slice_get list.now result ≡ Some 1 }'], 'open'),
    ('pub fn f(n: u8) -> Result<u8, AllocError>', ['ok { IfOk result (λ m. m ≡ n) }'], 'equation but for memory'),
    ('pub fn f(n: u8) -> Option<u8>', ['{ IfSome result (λ m. m ≡ n) }'], 'open'),
    ('pub fn f(n: u8) -> Option<u8>', ['some { IfSome result (λ m. m ≡ n) }', 'none { IfNone result (n ≡ 0) }'],
     'equation'),
    ('pub fn f(n: u8) -> Pair', ['one { result.one ≡ n }'], 'open'),
    ('pub fn f(n: u8) -> Pair', ['one { result.one ≡ n }', 'other { result.other ≡ g n }'], 'equation'),
    ('pub fn f(n: u8) -> Pair', ['one { result.one ≡ n }', 'left { result.other.left ≡ n }'], 'open'),
    ('pub fn f(n: u8) -> Pair',
     ['one { result.one ≡ n }', 'l { result.other.left ≡ n }', 'r { result.other.right ≡ n }'], 'equation'),
    ('pub fn f() -> Hint', ['{ result ≡ tt }'], 'open'),
    ('pub fn f(pair: &mut Pair)', ['{ pair.new ≡ record pair.old { one = 1 } }'], 'equation'),
    ('pub fn f(pair: &mut Pair)', ['{ pair.new ≡ record pair.old { one = pair.new.one } }'], 'open'),
    ('pub fn f(pair: &mut Pair)',
     ['one { pair.new.one ≡ 1 }', 'rest { pair.new ≡ record pair.old { one = pair.new.one } }'], 'equation'),
    ('pub fn f(pair: &mut Pair) -> Result<(), AllocError>', ['{ OnOk result (pair.new ≡ g pair.old) }'],
     'equation but for memory'),
    ('pub fn f()', ['{ Law }'], ''),
]
# A line, what an edit makes of it, and the right line beside it.
CONTROLS = [
    ('    self.nodes[place] = Leaf(leaf);', '    self.nodes[place / 2] = Leaf(leaf);',
     '    self.nodes[if true { place } else { place / 2 }] = Leaf(leaf);'),
    ('    if group == kept {', '    if group != kept {', '    if if true { group == kept } else { group != kept } {'),
    ('    let after = copy(after)?;', '    let after = copy(before)?;',
     '    let after = copy(if true { after } else { before })?;'),
    ('    Some(id) => id == name,', '    Some(_) => true,',
     '    Some(id) => if true { id == name } else { id == name },'),
    ('    put(list)?;', '    drop(list); put(list)?;', '    if false { drop(list); } put(list)?;'),
]


def told_of_reading():
    """What is read otherwise than it should be."""
    for signature, clauses, sort in ROWS:
        told = [f'ensures {one}' for one in clauses]
        function = sources.Function('c', 'src/lib.rt', 1, 'f', True, '', signature, told)
        found = reading.read(function, TYPES).sort
        if found != sort:
            yield f'{signature} {clauses} is {found or "a law"}, and not {sort or "a law"}'
    for old, new, right in CONTROLS:
        if right not in controls.texts(old, new):
            yield f'{old.strip()} has no control {right.strip()}, and {controls.texts(old, new)}'


def told_of_pages():
    """What is wrong with pages and doc comments that are made."""
    head = 'pub fn f(n: u8) -> u8'
    function = reading.read(sources.Function('c', 'src/lib.rt', 2, 'f', True, '', head, []), TYPES)
    page, lacking = contracts.page_of('# C\n', [function])
    if lacking != ['f']:
        yield 'an open function without words is passed'
    page, lacking = contracts.page_of(page.replace('| `f` |  |', '| `f` | which number |'), [function])
    if lacking or '| `f` | which number |' not in page:
        yield f'words are lost: {page}'
    text = docs.with_docs(f'/// A number.\n{head}', {2: docs.sentence(function, 'which number')})
    if text != f'/// A number.\n///\n/// Its contract leaves open: which number.\n{head}':
        yield f'a doc comment became {text}'
    if docs.with_docs(text, {4: docs.sentence(function, 'which number')}) != text:
        yield 'a doc comment grows each time'


def told_of_beside():
    """What is wrong with a command beside another."""
    rows = [('echo other; exit 3', 'echo rt: p proved', 0, 'was not whole'),
            ('exit 1', 'echo rt: p proved', 1, 'FAILED'), ('echo late', 'echo nothing', 0, 'late'),
            ('sleep 60', 'echo rt: p proved; exit 7', 7, 'proved')]
    for other, command, status, said in rows:
        words = [TOP / 'tools' / 'as_soon.py', 'front', 'rt: p proved', other, '--', 'sh', '-c', command]
        ran = subprocess.run(words, capture_output=True, text=True, check=False, timeout=50)
        if ran.returncode != status or said not in ran.stdout:
            yield f'{command} with {other} beside it: status {ran.returncode}, {ran.stdout!r}'


def main():
    told = [*told_of_reading(), *told_of_pages(), *told_of_beside()]
    print('\n'.join([*told, f'{len(ROWS)} contracts, {len(CONTROLS)} controls; {len(told)} faults']))
    return 1 if told else 0


if __name__ == '__main__':
    sys.exit(main())
