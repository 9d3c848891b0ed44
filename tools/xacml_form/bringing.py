"""From files of policies to documents: all that is told of each, and which of them are written."""
import typing

from . import cautions, checked, inside, older, places, policies, times

UNLOOKED = (
    'without --program these weren\'t looked at: ids that are empty, doubled or too long, versions, variables, types of'
    ' arguments, sizes, references'
)
UNCHECKED = 'files with something by hand or impossible weren\'t given to the program'
UNCONVERTED = 'of what is no XACML of its version nothing was converted, so what isn\'t here wasn\'t looked for'


class Brought(typing.NamedTuple):
    """One file: its name, what is told of it, and its document, None where it has none; of one that stood inside
    another the name of its part."""

    file: str
    told: places.Told
    document: typing.Optional[dict]
    part: str = ''


def brought(file, data, as_modern):
    """The document of a file, with what is told of its parts."""
    told = places.Told(file)
    try:
        root, where = places.read(data)
    except places.NotRead as fault:
        told.tell(places.UNREAD, (fault.line, fault.column), fault.why)
        return Brought(file, told, None)
    if older.version_of(root):
        root, where = older.modern(root, where, told)
    document = None if root is None else policies.Policies(told, where, as_modern).document(root)
    return Brought(file, told, document)


def judge(found, options, declared, text_of):
    """Tells what is seen of documents: what can't match, times, and with a program what that says; what has no file
    is given back."""
    documents = [each for each in found if each.document is not None]
    cautions.tell(documents, declared)
    times.tell(documents)
    good = [each for each in documents if options.keep_going or not each.told.stops()]
    beside = checked.check(options.program, options.stored, good, text_of) if options.program and good else []
    if options.program and len(good) == 1 and not options.stored:
        inside.tell_alone(good)
    inside.tell_together(good)
    return beside


def unseen(found, options):
    """What wasn't looked at."""
    if any(each.told.holds(*places.INVALIDS.values()) for each in found):
        yield UNCONVERTED
    documents = [each for each in found if each.document is not None]
    if documents and not options.program:
        yield UNLOOKED
    elif not options.stored and documents and inside.is_unseen(documents):
        yield inside.UNSEEN
    elif not options.keep_going and any(each.told.holds(places.BY_HAND, places.IMPOSSIBLE) for each in documents):
        yield UNCHECKED
