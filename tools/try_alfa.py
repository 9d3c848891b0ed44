#!/usr/bin/python3
"""Tries alfa.py and lines.py with the review program.

    try_alfa.py PROGRAM [--requests N] [--seed N] [--mutants [WORD]]

It compiles what stands in alfa_form/examples/told.txt, where something is wrong, of which each fault is told with its
place; compares decisions that were written by hand; makes random policies as trees, whose own meaning is compared with
what the program decides of the documents (N requests: 6,000, in no more than 8 processor seconds), and takes their
documents back; takes the clinic, forty ordinary policies and all that sessions store to ALFA and back, by the script of
pages too; compares a folder with what is stored; and reads files that are damaged. With --mutants it takes away, one by
one, what those trials have to miss (with WORD what has it in its name), and sees that they do.
The status is 0 where all is as it should be, 1 where something isn't, 3 where something that it needs isn't there."""
import argparse
import os
import pathlib
import sys

from alfa_form import (
    try_back,
    try_damaged,
    try_folder,
    try_hand,
    try_mutants,
    try_pages,
    try_random,
    try_told,
    try_words,
)

HERE = pathlib.Path(__file__).resolve().parent
TOOL = str(HERE / 'alfa.py')
REQUESTS, SECONDS, DAMAGED = 6000, 8, 200


def trials(options):
    """What was tried, in words, with what was wrong, one trial after the other; and what couldn't be tried."""
    count, wrong = try_told.run(TOOL, options.program)
    yield f'{count} files with faults and notes', wrong, []
    count, wrong = try_words.run(TOOL)
    yield f'{count} command lines', wrong, []
    count, wrong = try_hand.run(options.program)
    yield f'{count} decisions written by hand', wrong, []
    seconds = SECONDS if options.requests <= REQUESTS else float('inf')
    count, seen, wrong = try_random.run(options.program, options.requests, seconds, options.seed)
    counts = ', '.join(f'{number} {decision}' for decision, number in sorted(seen.items()))
    yield f'{count} requests of random policies beside the meaning of their trees ({counts})', wrong, []
    said, unseen, wrong = try_back.run(options.program)
    yield said, wrong, unseen
    count, wrong = try_pages.run()
    yield f'{count} examples of pages', wrong, []
    count, wrong = try_folder.run(str(HERE / 'lines.py'), options.program)
    yield f'a folder beside what is stored {count} times', wrong, []
    count, noticed, wrong = try_damaged.run(DAMAGED)
    yield f'{count} damaged files ({noticed} told)', wrong, []


def main():
    parser = argparse.ArgumentParser(description=__doc__, formatter_class=argparse.RawDescriptionHelpFormatter)
    parser.add_argument('program', metavar='PROGRAM', type=os.path.abspath)
    parser.add_argument('--requests', type=int, default=REQUESTS, metavar='N')
    parser.add_argument('--seed', type=int, default=0, metavar='N')
    parser.add_argument('--mutants', nargs='?', const='', metavar='WORD')
    options = parser.parse_args()
    if options.mutants is not None:
        return try_mutants.run(HERE, options.program, options.mutants)
    found = list(trials(options))
    wrong = [each for _, some, _ in found for each in some]
    unseen = [each for _, _, some in found for each in some]
    print('\n'.join(wrong[:20]))
    print(f'tools/alfa.py: {", ".join(said for said, _, _ in found)}: {len(wrong)} wrong')
    for each in unseen:
        print(f'not tried: {each}')
    return 1 if wrong else 3 if unseen else 0


if __name__ == '__main__':
    sys.exit(main())
