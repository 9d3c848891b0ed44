"""A folder of policies as whoever plans a migration sees it: how many come over, and what stops the others."""
import collections
import re
import typing

from . import bringing, places

# What a file with one of these is called, the first of them that it has; else it comes over.
STATES = [
    ([places.UNREAD], 'can\'t be read'),
    (list(places.INVALIDS.values()), 'are no XACML of their version'),
    ([places.BY_HAND, places.IMPOSSIBLE, places.FAULT], 'have something that isn\'t here'),
]
OVER, WARNED = 'come over', 'come over with a warning'
# What stands at the root of files that aren't policies: they are counted, and nothing more is said of them.
REQUESTS = re.compile(r'(Request|Response) .*at the root')
# Literals of one type are one construct, whatever their values.
LITERAL = re.compile(r'the (date|time|dateTime|integer|boolean|yearMonthDuration|regular expression) .*', re.DOTALL)


class Construct(typing.NamedTuple):
    """What stops files: how it is told, what it is, and what can be done."""

    weight: str
    what: str
    how: str


def files_below(folder):
    """The files of XML in a folder and in those below it."""
    return sorted(each for each in folder.rglob('*') if each.suffix.lower() == '.xml' and each.is_file())


def run(files, read, options):
    """The lines of the survey of some files."""
    found = [bringing.brought(str(file), read(file), options.as_modern) for file in files]
    asked = [each for each in found if any(REQUESTS.fullmatch(what) for _, what, _ in each.told.things)]
    found = [each for each in found if each not in asked]
    beside = bringing.judge(found, options, None, options.text_of)
    others = [f'{len(asked):6} requests and responses beside them'] if asked else []
    return [*counts(found), *others, '', *table(found), *beside]


def state_of(told):
    """What becomes of a file."""
    for weights, words in STATES:
        if told.holds(*weights):
            return words
    return WARNED if told.holds(places.WARNING) else OVER


def counts(found):
    """How many files came to what."""
    states = collections.Counter(state_of(each.told) for each in found)
    yield f'{len(found)} files'
    for words in (OVER, WARNED, *(words for _, words in STATES)):
        if states[words]:
            yield f'{states[words]:6} {words}'


def table(found):
    """A row for each construct that stops a file: the one that stops the most of them first."""
    stops = [weight for weights, _ in STATES for weight in weights]
    files, times, first = collections.defaultdict(set), collections.Counter(), {}
    for each in found:
        for (weight, what, how), where in each.told.things.items():
            if weight in stops:
                construct = Construct(weight, LITERAL.sub(r'a \1', what), how)
                files[construct].add(each.file)
                times[construct] += len(where)
                line, column = next(iter(where))
                first.setdefault(construct, f'{each.file}:{line}:{column}')
    alone = {each.file: [construct for construct in files if each.file in files[construct]] for each in found}
    if not files:
        return
    yield '| What stops them | Files | Of these by it alone | Times | First at | What can be done |'
    yield '|---|---|---|---|---|---|'
    for construct in sorted(files, key=lambda each: (-len(files[each]), each)):
        only = sum(alone[file] == [construct] for file in files[construct])
        counted = f'{len(files[construct])} | {only} | {times[construct]}'
        what, where, how = map(cell, (f'{construct.weight}: {construct.what}', first[construct], construct.how))
        yield f'| {what} | {counted} | {where} | {how} |'


def cell(text):
    """A text as it stands in a table."""
    return text.replace('|', '\\|').replace('\n', ' ')
