#!/usr/bin/env python3
"""Puts the refused examples of docs/POLICIES.md into crates/lint_told/stdin, which the gate runs: as page_SUB_N,
the Nth of its sub-code.

    faults.py             writes them
    faults.py --check     says whether they are up to date, and whether what the page shows of standard error is what
                          stdout has; fails if not

What is told of a document whose lines moved has another line and column: `rt try` in crates/lint_told prints what
stdout has to be then."""
import pathlib
import re
import sys

ROOT = pathlib.Path(__file__).resolve().parents[2]
PAGE = ROOT / 'docs' / 'POLICIES.md'
CRATE = ROOT / 'crates' / 'lint_told'
EXAMPLE = re.compile(r'^```json\n((?:(?!```).*\n)*)```\n```text\nrefused 6 (\d)\n```\n'
                     r'(?:\nOn standard error:\n\n    \S+: (.*)\n)?', re.M)
NAMED = re.compile(rb'^# (page_\d_\d+)\n((?:(?!# |=== ).*\n)*)', re.M)


def examples():
    """The refused examples of the page by their names, each with what is shown of standard error, if anything is."""
    found, counts = {}, {}
    for text, sub, told in EXAMPLE.findall(PAGE.read_text(encoding='utf-8')):
        counts[sub] = counts.get(sub, 0) + 1
        found[f'page_{sub}_{counts[sub]}'] = text, told
    return found


def main():
    shown = examples()
    old = (CRATE / 'stdin').read_bytes()
    names = [name.decode() for name, _ in NAMED.findall(old)]
    if names != list(shown):
        others = ', '.join(sorted(set(names) ^ set(shown)))
        sys.exit(f'crates/lint_told/stdin has other examples than docs/POLICIES.md: {others}')
    new = NAMED.sub(lambda one: b'# ' + one[1] + b'\n' + shown[one[1].decode()][0].encode(), old)
    if sys.argv[1:] != ['--check']:
        (CRATE / 'stdin').write_bytes(new)
        return
    stale = new != old
    if stale:
        print('crates/lint_told/stdin: an example is not as docs/POLICIES.md has it; run tools/pages/faults.py')
    told = dict(re.findall(r'^# (page_\d_\d+)\n(.*)$', (CRATE / 'stdout').read_text(encoding='utf-8'), re.M))
    for name, (_, line) in shown.items():
        if line and line != told[name]:
            print(f'docs/POLICIES.md shows another line for {name} than crates/lint_told/stdout: {line}')
            stale = True
    print(f'{len(shown)} refused examples, {sum(1 for _, line in shown.values() if line)} with what is told of them')
    sys.exit(stale)


main()
