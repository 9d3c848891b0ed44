#!/usr/bin/env python3
"""Runs wrong bodies: one program has all of them in it, and each must answer what its head names otherwise than the
right program.

    shown_bodies.py [CRATE ..]     runs those of these crates, or of all; --only NAME .. these alone
    shown_bodies.py --find         looks through all that is stored for what shows those whose head names nothing yet,
                                   and writes it there

    --anew       takes nothing that is kept on this machine        --json FILE   what became of each, as JSON
    --jobs N     so many side by side, else as many as there are processors
    --program FILE                the program, as it was built of just these sources, in place of building one

The head of crates/NAME/wrong/PLAIN-NAME.edit has `shown: KIND NAME`, with one that shows it of these: a session of
crates/conformance (`session`), a document or a set of documents in the input of a program that tells of them
(`document`, `attributes`, `together`), one that may not be meant (`meant`, tools/try_meant.py), a call of the program
(`run`, tools/wrong/shown_calls.py), a trial (`trial`), and random lines of a seed (`random`, or `alike` of people who
differ in few values). Behind it may stand `without memory`: then the program's allocations are refused, one in each
call, until one of them shows it. Or it has `unseen: WHY`, where no answer is another. A body that runs into its bounds
or ends by a signal is shown too.

The program is unproved. It is built from the sources, once for as long as none of them changes, and needs clang-22 and
llvm-22; where they aren't there the status is 3. The last line is `shown by running: N of M`; the status is 1 where
one isn't shown by what its head names, or names nothing."""
import argparse
import os
import pathlib
import sys

from wrong import edits, shown, shown_program

TOP = pathlib.Path(__file__).resolve().parents[1]


def numbered():
    """All wrong bodies with their numbers, which are their places in the order of their names."""
    return list(enumerate((edits.read(path) for path in sorted(TOP.glob('crates/*/wrong/*.edit'))), 1))


def main():
    parser = argparse.ArgumentParser(usage=__doc__)
    parser.add_argument('crates', nargs='*')
    parser.add_argument('--only', nargs='+', default=[])
    parser.add_argument('--jobs', type=int, default=len(os.sched_getaffinity(0)))
    for name in ['--json', '--program']:
        parser.add_argument(name)
    for name in ['--find', '--anew']:
        parser.add_argument(name, action='store_true')
    options = parser.parse_args()
    lacking = shown_program.missing()
    if lacking:
        print(f'tools/shown_bodies.py was not run: there is no {" and no ".join(lacking)}')
        return 3
    bodies = numbered()
    asked = [(number, edit) for number, edit in bodies if not options.crates or edit.crate.name in options.crates]
    asked = [(number, edit) for number, edit in asked if not options.only or edit.name in options.only]
    if options.find:
        asked = [(number, edit) for number, edit in asked if not edit.shown and not edit.unseen]
    try:
        run = shown.Run(TOP, bodies, options.anew, options.program)
        return run.found(asked, options.jobs) if options.find else run.all(asked, options.jobs, options.json)
    except (edits.Fault, shown_program.Unbuilt) as fault:
        print(f'tools/shown_bodies.py: {fault}')
        return 1


if __name__ == '__main__':
    sys.exit(main())
