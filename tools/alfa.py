#!/usr/bin/env python3
"""Policies in ALFA as documents of the service, and documents as ALFA.

    alfa.py [compile] FILE.alfa|FOLDER .. [-o FOLDER] [--lines] [--root ID] [--program REVIEW [--stored STATE]]
                      [--prefix TEXT] [--no-category] [--strict]
    alfa.py write FILE.json|STATE .. [-o FILE.alfa] [--namespace NAME] [--keep-going]

compile   All files, those of a FOLDER that end in .alfa, are one world. Each policy and set that stands in a namespace
          is a document: FOLDER/NAME.json with -o, else on standard output; with --lines lines for `review serve` that
          store them, and with --root one more that makes the policy of that id the root.
          All that is wrong is told on standard error at once, as FILE:LINE:COLUMN: error: and what to write, and then
          no document is written of any file. A note says how something was taken that could be meant in another way.
          With --program the documents go through `review check`, alone and together, and with --stored together with
          the lines of a dump; what it says is told at the places of the ALFA, its warnings with --strict as status 1.
          --prefix stands in front of ids that are made of names; --no-category leaves the category out of what
          obligations and advice assign.
write     Documents, each in a file, or those that the lines of a dump store, as one file of ALFA. It is compiled again
          and compared. What comes back otherwise with the same meaning is told; what ALFA can't say is told with why,
          and nothing is written then, unless --keep-going.

The status is 0 where all is written, 1 where something is wrong, and 2 where a file can't be read or written.
docs/ALFA.md says what is taken."""
import argparse
import json
import os
import pathlib
import sys

from alfa_form import back, compiling
from alfa_form.told import ERROR, WARNING
from xacml_form.checked import NoAnswer
from xacml_form.shown import indented, reference_to, shown, write_lines

# What the first word may be; else the files are to be compiled.
COMMANDS = [[], ['compile'], ['write'], ['-h'], ['--help']]
UNLOOKED = 'without --program these weren\'t looked at: ids that are empty or too long, versions, sizes, references'


def say(*lines):
    for line in lines:
        print(line, file=sys.stderr)


def files_of(names, end='.alfa'):
    """The files of these names, those of folders that end so in their order, each with its bytes."""
    found = []
    for name in names:
        path = pathlib.Path(name)
        if name == '-':
            found.append(('standard input', sys.stdin.buffer.read()))
        elif path.is_dir():
            found += [(str(each), each.read_bytes()) for each in sorted(path.rglob(f'*{end}'))]
        else:
            found.append((name, path.read_bytes()))
    return found


def compile_files(options):
    files = files_of(options.files)
    if not files:
        say('alfa.py: no file ends in .alfa')
        return 1
    compiler = compiling.Compiler(files, options.prefix, not options.no_category)
    made = compiler.made()
    beside = []
    if options.program and made and not compiler.told.holds(ERROR):
        beside = compiling.check(options.program, options.stored, made, shown if options.lines else indented)
    say(*compiler.told.lines(), *beside)
    if compiler.told.holds(ERROR):
        return 1
    is_whole = write_documents(options, made)
    if made and not options.program:
        say(f'alfa.py: {UNLOOKED}')
    faults = [line for line in beside if not line.startswith('warning: ')]
    is_warned = options.strict and (len(beside) > len(faults) or compiler.told.holds(WARNING))
    return 0 if is_whole and not faults and not is_warned else 1


def write_documents(options, made):
    """Writes documents: as files, one below the other, or as lines. Whether what was asked for is there."""
    documents = [each.document for each in made]
    if options.folder:
        os.makedirs(options.folder, exist_ok=True)
        for each in made:
            (pathlib.Path(options.folder) / f'{each.name}.json').write_text(indented(each.document), encoding='utf-8')
    elif not options.lines:
        for document in documents:
            print(indented(document), end='')
    root = options.root and reference_to(options.root, documents)
    if options.root and root is None:
        say(f'alfa.py: nothing has the id {options.root}')
    if options.lines:
        write_lines(documents, root, lambda what: say(f'alfa.py: {what}'))
    return root is not None if options.root else True


def documents_of(names):
    """The documents of files, each with the name of its file: a document, or lines that store some."""
    found = []
    for name, data in files_of(names, '.json'):
        text = data.decode('utf-8')
        try:
            documents = [json.loads(text)]
        except ValueError:
            documents = []
        if not documents or isinstance(documents[0], dict) and 'do' in documents[0]:
            documents = back.stored(text.splitlines())
        found += [(name, document) for document in documents]
    return found


def write_alfa(options):
    try:
        documents = documents_of(options.files)
    except (ValueError, KeyError, TypeError, AttributeError, RecursionError) as fault:
        say(f'alfa.py: neither a document nor lines that store some: {fault}')
        return 1
    if not documents:
        say('alfa.py: there is no document')
        return 1
    done = back.written([document for _, document in documents], options.namespace, options.keep_going)
    for weight, number, pointer, what in done.told:
        say(f'{weight}: {what}' if number is None else f'{documents[number][0]}: {pointer}: {weight}: {what}')
    if done.text is None:
        return 1
    if options.output:
        pathlib.Path(options.output).write_text(done.text, encoding='utf-8', newline='')
    else:
        sys.stdout.buffer.write(done.text.encode())
    return 1 if any(weight == back.UNSAID for weight, *_ in done.told) else 0


def main():
    parser = argparse.ArgumentParser(description=__doc__, formatter_class=argparse.RawDescriptionHelpFormatter)
    commands = parser.add_subparsers(dest='command', required=True)
    one = commands.add_parser('compile', help='ALFA to documents')
    one.add_argument('files', nargs='+', metavar='FILE.alfa|FOLDER')
    one.add_argument('-o', dest='folder', metavar='FOLDER', help='write each document as a file into this folder')
    one.add_argument('--lines', action='store_true', help='write lines for `review serve`')
    one.add_argument('--root', metavar='ID', help='with --lines: make the policy of this id the root')
    one.add_argument('--program', metavar='REVIEW', help='see by `review check` whether the documents can be used')
    one.add_argument('--stored', metavar='STATE', help='with --program: together with the lines of a dump')
    one.add_argument('--prefix', default='', metavar='TEXT', help='what stands in front of ids made of names')
    one.add_argument('--no-category', action='store_true', help='assign attributes without their category')
    one.add_argument('--strict', action='store_true', help='status 1 for a warning too')
    one.set_defaults(run=compile_files)
    one = commands.add_parser('write', help='documents to ALFA')
    one.add_argument('files', nargs='+', metavar='FILE.json|STATE')
    one.add_argument('-o', dest='output', metavar='FILE.alfa', help='where it is written; else to standard output')
    one.add_argument('--namespace', default='policies', metavar='NAME', help='the namespace of ids that are no names')
    one.add_argument('--keep-going', action='store_true', help='leave out what ALFA can\'t say')
    one.set_defaults(run=write_alfa)
    words = sys.argv[1:]
    options = parser.parse_args(words if words[:1] in COMMANDS else ['compile', *words])
    if options.command == 'compile' and options.stored and not options.program:
        parser.error('--stored needs --program')
    try:
        return options.run(options)
    except NoAnswer as fault:
        say(f'alfa.py: {fault}')
    except OSError as fault:
        say(f'alfa.py: {fault.filename}: {fault.strerror}')
    return 2


if __name__ == '__main__':
    sys.exit(main())
