#!/usr/bin/python3
"""Policies, requests and responses of XACML 3.0 in XML, to and from the JSON of the service.

    xacml.py policy FILE.xml .. [-o FOLDER] [--lines] [--root ID] [--program REVIEW [--stored STATE]]
                    [--attributes DECLARED] [--strict] [--as-modern] [--split] [--keep-going]
    xacml.py request FILE.xml
    xacml.py response [FILE.json]
    xacml.py back FILE.json
    xacml.py survey FOLDER [--as-modern] [--program REVIEW [--stored STATE]]

policy    Each file's policy as a document of the service: FOLDER/FILE.json with -o, else on standard output; with
          --lines as lines for `review serve` that store them, and with --root one more that makes the policy of that
          id the root.
          All of it is told on standard error, each thing with line and column and how often it stands there. First
          what is no XACML 3.0: nothing is written of such a file. Then what isn't here, and what can be done: no
          document is written either, unless --keep-going. What was rewritten with the same meaning is told too, and as
          a warning what may not do what was meant; --strict gives status 1 for a warning. --as-modern takes legacy
          combining algorithms as the newer ones. --attributes compares attributes and values with a list of declared
          ones. --split makes documents of their own of policies and sets that stand inside a set and that references
          name, since references find stored documents alone: FOLDER/FILE.ID.json.
          With --program the documents go through `review check`, alone and together, and with --stored together with
          the lines of a dump; its faults and warnings are told at the lines of the XML.
request   The request as JSON that `ask` takes; --line writes the whole line.
response  The JSON of a response as XML.
back      A document as XML.
survey    Of all files of XML in a folder and below it: how many come over, and as a table of Markdown which constructs
          stop the others, in how many files each, in how many by itself, where it stands first, and what can be done.

The status is 0 where all is written, 1 where something isn't here, and 2 where a file can't be read or written.
It needs python3-lxml of Debian."""
import argparse
import json
import os
import pathlib
import sys

try:
    from lxml import etree
except ImportError:
    sys.exit('xacml.py: it needs lxml (python3-lxml of Debian)')
from xacml_form import back, bringing, cautions, checked, inside, places, requests
from xacml_form import survey as surveys
from xacml_form.shown import indented, reference_to, shown, write_lines

SCHEMA = pathlib.Path(__file__).resolve().parent / 'xacml_form' / 'xacml.rng'


def say(*lines):
    for line in lines:
        print(line, file=sys.stderr)


def bytes_of(file):
    """What a file holds, or standard input where it is `-`; no more than is read of XML."""
    if file == '-':
        return sys.stdin.buffer.read(places.MOST_BYTES + 1)
    with open(file, 'rb') as source:
        return source.read(places.MOST_BYTES + 1)


def read_xml(file):
    """The root of a file, its places, and what will be told of it; None, and told, where it is no XML."""
    try:
        return *places.read(bytes_of(file)), places.Told(file)
    except places.NotRead as fault:
        say(f'{file}:{fault.line}:{fault.column}: {fault.why}')
        return None


def written(root):
    """An element as the text of a file; it is one that the schema of ours describes."""
    etree.RelaxNG(file=str(SCHEMA)).assertValid(root)
    etree.indent(root, '  ')
    return etree.tostring(root, xml_declaration=True, encoding='UTF-8').decode() + '\n'


def declared_in(file):
    """The list of declared attributes of a file."""
    with open(file, encoding='utf-8') as source:
        return cautions.Declared(json.load(source)['Attributes'])


def policy(options):
    stems = [pathlib.Path(file).stem for file in options.files]
    if options.folder and len(set(stems)) < len(stems):
        say('xacml.py: two files would be written under one name')
        return 2
    try:
        declared = declared_in(options.attributes) if options.attributes else None
    except (ValueError, KeyError, TypeError, AttributeError):
        say(f'{options.attributes}: no list of declared attributes')
        return 1
    found = [bringing.brought(file, bytes_of(file), options.as_modern) for file in options.files]
    found = inside.split(found) if options.split else found
    try:
        beside = bringing.judge(found, options, declared, shown if options.lines else indented)
    except checked.NoAnswer as fault:
        say(f'xacml.py: {fault}')
        return 2
    say(*(line for each in found if not each.part for line in each.told.lines()), *beside)
    kept = [each for each in found if each.document is not None and (options.keep_going or not each.told.stops())]
    is_whole = write(options, kept)
    say(*(f'xacml.py: {line}' for line in bringing.unseen(found, options)))
    warnings = [line for line in beside if line.startswith(places.WARNING)]
    is_warned = options.strict and (warnings or any(each.told.holds(places.WARNING) for each in found))
    return 0 if is_whole and len(kept) == len(found) and len(warnings) == len(beside) and not is_warned else 1


def write(options, kept):
    """Writes documents: as files, one below the other, or as lines. Whether what was asked for is there."""
    documents = [each.document for each in kept]
    if options.folder:
        os.makedirs(options.folder, exist_ok=True)
        for each in kept:
            stem = pathlib.Path(each.file).stem + (f'.{each.part}' if each.part else '')
            file = pathlib.Path(options.folder) / f'{stem}.json'
            file.write_text(indented(each.document), encoding='utf-8')
    elif not options.lines:
        for document in documents:
            print(indented(document), end='')
    root = options.root and reference_to(options.root, documents)
    if options.root and root is None:
        say(f'xacml.py: no file has a policy or a set with the id {options.root}')
    if options.lines:
        write_lines(documents, root, lambda what: say(f'xacml.py: {what}'))
    return root is not None if options.root else True


def request(options):
    read = read_xml(options.file)
    if read is None:
        return 1
    root, where, told = read
    found = requests.Requests(told, where).request(root)
    say(*told.lines())
    if found is None or told.stops():
        return 1
    print(shown({'do': 'ask', 'request': found} if options.line else found))
    return 0


def survey(options):
    files = surveys.files_below(pathlib.Path(options.folder))
    options.text_of, options.keep_going = indented, False
    try:
        print(*surveys.run(files, bytes_of, options), sep='\n')
    except checked.NoAnswer as fault:
        say(f'xacml.py: {fault}')
        return 2
    return 0


def from_json(options, make):
    """The XML of a file of JSON."""
    try:
        print(written(make(json.loads(bytes_of(options.file)))), end='')
    except (ValueError, RecursionError) as fault:
        say(f'{options.file}: no JSON: {fault}')
    except (KeyError, TypeError, AttributeError):
        say(f'{options.file}: no {options.command} of the service')
    except (back.NoDocument, back.Unwritten) as fault:
        say(f'{options.file}: {fault}')
    else:
        return 0
    return 1


def main():
    parser = argparse.ArgumentParser(description=__doc__, formatter_class=argparse.RawDescriptionHelpFormatter)
    commands = parser.add_subparsers(dest='command', required=True)
    one = commands.add_parser('policy', help='policies from XML to JSON')
    one.add_argument('files', nargs='+', metavar='FILE.xml')
    one.add_argument('-o', dest='folder', metavar='FOLDER', help='write each document as a file into this folder')
    one.add_argument('--lines', action='store_true', help='write lines for `review serve`')
    one.add_argument('--root', metavar='ID', help='with --lines: make the policy of this id the root')
    one.add_argument('--program', metavar='REVIEW', help='see by `review check` whether the documents can be used')
    one.add_argument('--stored', metavar='STATE', help='with --program: together with the lines of a dump')
    one.add_argument('--attributes', metavar='DECLARED', help='compare with a list of declared attributes')
    one.add_argument('--strict', action='store_true', help='status 1 for a warning too')
    one.add_argument('--as-modern', action='store_true', help='take legacy combining algorithms as the newer ones')
    one.add_argument(
        '--split', action='store_true', help='documents of their own of what stands inside and is referred to'
    )
    one.add_argument('--keep-going', action='store_true', help='write documents also where something isn\'t here')
    one.set_defaults(run=policy)
    one = commands.add_parser('request', help='a request from XML to JSON')
    one.add_argument('file', metavar='FILE.xml')
    one.add_argument('--line', action='store_true', help='write the whole line of `ask`')
    one.set_defaults(run=request)
    one = commands.add_parser('response', help='a response from JSON to XML')
    one.add_argument('file', nargs='?', default='-', metavar='FILE.json')
    one.set_defaults(run=lambda options: from_json(options, requests.response))
    one = commands.add_parser('back', help='a document from JSON to XML')
    one.add_argument('file', metavar='FILE.json')
    one.set_defaults(run=lambda options: from_json(options, back.document))
    one = commands.add_parser('survey', help='what of a folder comes over, and what stops the rest')
    one.add_argument('folder', metavar='FOLDER')
    one.add_argument('--as-modern', action='store_true', help='take legacy combining algorithms as the newer ones')
    one.add_argument('--program', metavar='REVIEW', help='see by `review check` whether the documents can be used')
    one.add_argument('--stored', metavar='STATE', help='with --program: together with the lines of a dump')
    one.set_defaults(run=survey)
    options = parser.parse_args()
    if options.command in ('policy', 'survey') and options.stored and not options.program:
        parser.error('--stored needs --program')
    try:
        return options.run(options)
    except OSError as fault:
        say(f'xacml.py: {fault.filename}: {fault.strerror}')
        return 2


if __name__ == '__main__':
    sys.exit(main())
