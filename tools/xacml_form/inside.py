"""Policies and sets that stand inside a set, and references, which find stored documents alone."""
import re

from .places import BY_HAND, FAULT, WARNING

UNSTORED = re.compile(r'no (PolicySet|Policy) (.*) is stored')
SPLIT = 'it needs a document of its own: --split makes it one'
UNSEEN = (
    'references weren\'t looked up: name the files that they lead to as well, or --stored with a state that has them'
)


def parts_of(document):
    """A document and each policy and set inside it, with its kind; references too."""
    kind, body = next(iter(document.items()))
    yield kind, body
    for child in body.get('Children', []):
        yield from parts_of(child)


def references(documents):
    """Each reference of some documents: the kind of what it leads to, and its parts."""
    return [
        (kind.removesuffix('IdReference'), body)
        for document in documents
        for kind, body in parts_of(document)
        if kind.endswith('IdReference')
    ]


def insides(found):
    """Each policy and set that stands inside a set: its kind and id, with the file and the place."""
    standing = {}
    for each in found:
        for kind, body in list(parts_of(each.document))[1:]:
            if not kind.endswith('IdReference'):
                standing.setdefault((kind, body[f'{kind}Id']), (each.file, body.place))
    return standing


def where(standing, key):
    """Where what a reference names stands inside a set, and what to do; or nothing."""
    if key not in standing:
        return ''
    file, (line, column) = standing[key]
    return f'; the one at {file}:{line}:{column} stands inside a set, where no reference finds it: {SPLIT}'


def tell_alone(found):
    """Of one file, whose references the program doesn't look up: those that lead to what stands inside its set."""
    standing, [each] = insides(found), found
    kind, body = next(iter(each.document.items()))
    for to, reference in references([each.document]):
        if (to, reference['Id']) != (kind, body[f'{kind}Id']) and (to, reference['Id']) in standing:
            what = f'no {to} {reference["Id"]} is stored'
            each.told.tell(WARNING, reference.place, what + where(standing, (to, reference['Id'])))


def tell_together(found):
    """Adds to what the program told of references where what they name stands inside a set."""
    standing = insides(found)
    for each in found:
        for (weight, what, how), places in list(each.told.things.items()):
            named = UNSTORED.fullmatch(what) if weight == FAULT else None
            more = where(standing, (named[1], named[2])) if named else ''
            if more:
                del each.told.things[weight, what, how]
                each.told.things[weight, what + more, how] = places


def is_unseen(found):
    """Whether a file by itself has references that lead out of it."""
    standing = insides(found)
    return len(found) == 1 and any((to, each['Id']) not in standing for to, each in references([found[0].document]))


# ---- to documents of their own


def split(found):
    """Has each policy and set inside a set that a reference names as a document of its own, and a reference to it where
    it stood. Gives the files with these documents behind them."""
    documents = [each.document for each in found if each.document is not None]
    named = {(kind, each['Id']) for kind, each in references(documents)}
    stored = {key(document): document for document in documents}
    made = []
    for each in found:
        if each.document is not None:
            taken = []
            take(each, each.document, named, stored, taken)
            made += [each, *(each._replace(document=document, part=name_of(document)) for document in taken)]
        else:
            made.append(each)
    return made


def key(document):
    """The kind, the id and the version of a document."""
    kind, body = next(iter(document.items()))
    return kind, body[f'{kind}Id'], body['Version']


def take(brought, document, named, stored, taken):
    """Takes those that are named out of a document, the innermost first."""
    body = next(iter(document.values()))
    for at, child in enumerate(body.get('Children', [])):
        kind, inner = next(iter(child.items()))
        if kind.endswith('IdReference'):
            continue
        take(brought, child, named, stored, taken)
        if (kind, inner[f'{kind}Id']) in named and is_its_own(brought, child, stored):
            if stored.setdefault(key(child), child) is child:
                taken.append(child)
            parts = {'Id': inner[f'{kind}Id'], 'Version': inner['Version']}
            body['Children'][at] = {f'{kind}IdReference': type(inner)(inner.place, inner.place_of, parts)}


def is_its_own(brought, child, stored):
    """Whether no other document has the kind, the id and the version; else that is told."""
    if stored.get(key(child), child) == child:
        return True
    kind, name, version = key(child)
    what, how = f'{kind} {name} {version} stands twice, and not the same', 'give one of them another version'
    brought.told.tell(BY_HAND, next(iter(child.values())).place, what, how)
    return False


def name_of(document):
    """What the file of a document that was inside another is called, behind the name of that one's."""
    return re.sub(r'[^\w.-]+', '-', key(document)[1]).strip('-.') or 'inner'
