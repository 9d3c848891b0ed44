#!/usr/bin/env python3
"""Keeps, when the gate has passed, of which commit and program it did: out/gate.json, by which tools/release.sh goes.

    passed.py PROGRAM

Where files differ from those that were committed there is nothing to say, and none is written."""
import json
import pathlib
import sys

sys.dont_write_bytecode = True
import contents  # noqa: E402


def main():
    kept = contents.ROOT / 'out' / 'gate.json'
    kept.unlink(missing_ok=True)
    if contents.output('git', 'status', '--porcelain', '--untracked-files=no').strip():
        return
    lines = (contents.ROOT / 'out' / 'gate.txt').read_text().splitlines()
    passed = {
        'commit': contents.output('git', 'rev-parse', 'HEAD').strip(),
        'lines': lines,
        'prover': contents.output('rt', 'version').strip(),
        'program': contents.digest(pathlib.Path(sys.argv[1])),
    }
    kept.write_text(json.dumps(passed, indent=1) + '\n')


if __name__ == '__main__':
    main()
