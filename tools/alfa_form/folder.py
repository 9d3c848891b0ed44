"""The documents of a folder, of ALFA, XML and JSON, beside those that are stored: what differs, as lines."""
import json
import pathlib
import typing

from xacml_form.normal import normal

from .compiling import Compiler
from .told import ERROR

KINDS = ('Policy', 'PolicySet')


class Entry(typing.NamedTuple):
    """A document with the file that it stands in."""

    file: str
    document: dict


class Held(typing.NamedTuple):
    """What is stored: documents, each with its module, by kind, id and version; and the root."""

    documents: dict
    root: typing.Optional[dict]


class Line(typing.NamedTuple):
    """A line to send, and of which file."""

    file: str
    command: dict


def key(document):
    """The kind, id and version of a document, by which it is stored."""
    (kind, body), = document.items()
    return kind, body[f'{kind}Id'], '.'.join(str(int(part)) for part in body['Version'].split('.'))


def called(found):
    """A key in a sentence."""
    return ' '.join(found)


def same(document):
    """A document as it is compared: in the form in which the service writes it, and without what it doesn't keep."""
    def bare(json_value):
        if isinstance(json_value, list):
            return [bare(each) for each in json_value]
        if not isinstance(json_value, dict):
            return json_value
        kept = {name: bare(each) for name, each in json_value.items() if name != 'Description'}
        if 'Version' in kept and set(kept) & {'PolicyId', 'PolicySetId'}:
            kept['Version'] = '.'.join(str(int(part)) for part in kept['Version'].split('.'))
        return kept

    return json.dumps(bare(normal(document)), sort_keys=True)


# ---- what stands in the folder


def read(folder, say):
    """The documents of a folder; None where something is wrong, which is said."""
    files = sorted(path for path in pathlib.Path(folder).rglob('*') if path.is_file())
    found, is_good = of_alfa([path for path in files if path.suffix == '.alfa'], say)
    for path in files:
        entries = {'.xml': of_xml, '.json': of_json}.get(path.suffix, lambda *_: [])(path, say)
        is_good = is_good and entries is not None
        found += entries or []
    seen = {}
    for file, document in found:
        first = seen.setdefault(key(document), file)
        if first != file:
            say(f'{file}: error: {called(key(document))} stands in {first} too')
            is_good = False
    return found if is_good else None


def of_alfa(paths, say):
    """The documents of all files of ALFA, which are one world, and whether nothing is wrong in them."""
    compiler = Compiler([(str(path), path.read_bytes()) for path in paths])
    made = compiler.made()
    for line in compiler.told.lines():
        say(line)
    return [Entry(each.file, each.document) for each in made], not compiler.told.holds(ERROR)


def of_xml(path, say):
    """The document of a file in XML; None where it doesn't come over."""
    try:
        from xacml_form import bringing
    except ImportError:
        say(f'{path}: error: XML needs lxml (python3-lxml of Debian)')
        return None
    one = bringing.brought(str(path), path.read_bytes(), False)
    for line in one.told.lines():
        say(line)
    return None if one.document is None or one.told.stops() else [Entry(str(path), one.document)]


def of_json(path, say):
    """The document of a file in JSON; another file is passed over, and said to be."""
    try:
        document = json.loads(path.read_text(encoding='utf-8'))
        if isinstance(document, dict) and len(document) == 1 and next(iter(document)) in KINDS:
            same(document), key(document)
            return [Entry(str(path), document)]
    except (ValueError, KeyError, TypeError, AttributeError) as fault:
        say(f'{path}: error: no document that can be used ({fault}): see `review check`')
        return None
    say(f'{path}: note: no document, so it is passed over')
    return []


# ---- what is stored


def held(lines):
    """What the lines of a dump store."""
    stored, root = {}, None
    for line in lines:
        command = json.loads(line) if line.strip() else {}
        module = command.get('module', 0)
        if command.get('do') in ('policy.add', 'policy.replace'):
            stored[module, key(command['document'])] = command['document']
        elif command.get('do') == 'policy.withdraw':
            stored.pop((module, (command['kind'], command['id'], command['version'])), None)
        elif command.get('do') == 'root.set':
            root = command['reference']
    return Held(of_modules((module, document) for (module, _), document in stored.items()), root)


def of_modules(found):
    """Documents with their modules, by kind, id and version: of one that several modules hold, that of the first, which
    is the one that is found."""
    documents = {}
    for module, document in sorted(found, key=lambda each: each[0], reverse=True):
        documents[key(document)] = module, document
    return documents


# ---- what differs


def references(document):
    """The kinds and ids to which a document refers."""
    (_, body), = document.items()
    for child in body.get('Children', []):
        (kind, inner), = child.items()
        if kind in KINDS:
            yield from references(child)
        else:
            yield kind.removesuffix('IdReference'), inner['Id']


def in_order(entries):
    """The documents, each behind those to which it refers, as far as these aren't in a circle with it."""
    by_name, found, seen = {}, [], set()
    for each in entries:
        by_name.setdefault(key(each.document)[:2], []).append(each)

    def visit(each):
        if key(each.document) in seen:
            return
        seen.add(key(each.document))
        for name in references(each.document):
            for other in by_name.get(name, []):
                visit(other)
        found.append(each)

    for each in entries:
        visit(each)
    return found


def differing(entries, stored, root, is_withdrawn):
    """The lines that make what is stored what the folder has: documents behind those to which they refer, then what is
    withdrawn, and the root last."""
    lines = []
    for file, document in in_order(entries):
        name = key(document)
        if name not in stored.documents:
            lines.append(Line(file, {'do': 'policy.add', 'document': document}))
        elif same(document) != same(stored.documents[name][1]):
            module = {'module': stored.documents[name][0]} if stored.documents[name][0] else {}
            lines.append(Line(file, {'do': 'policy.replace', **module, 'document': document}))
    gone = [Entry('', document) for name, (_, document) in stored.documents.items() if name in left(entries, stored)]
    for each in reversed(in_order(gone)) if is_withdrawn else []:
        (kind, one, version), module = key(each.document), stored.documents[key(each.document)][0]
        more = {'module': module} if module else {}
        lines.append(Line('', {'do': 'policy.withdraw', **more, 'kind': kind, 'id': one, 'version': version}))
    if root is not None and root != stored.root:
        lines.append(Line('', {'do': 'root.set', 'reference': root}))
    return lines


def left(entries, stored):
    """What is stored and doesn't stand in the folder."""
    here = {key(each.document) for each in entries}
    return [name for name in stored.documents if name not in here]


def tops(entries):
    """The documents to which no other of the folder refers."""
    named = {name for each in entries for name in references(each.document)}
    return [each for each in entries if key(each.document)[:2] not in named]
