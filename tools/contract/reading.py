"""How far a contract goes: which of what a function gives its clauses say by `≡`."""
import re

EQUATION, BUT, OPEN, LAW = 'equation', 'equation but for memory', 'open', ''
SORTS = [EQUATION, BUT, OPEN]
# Words of specs, read: of the value that they are given they say all by `≡`, where it is `Ok`, or by cases.
BUT_WORDS = {'IsReported', 'IsNoticed', 'IsNoticedIn', 'Reads', 'Edits', 'Gives'}
WHOLE_WORDS = {'MatchOption', 'MatchResult', 'HasSeen', 'HasTaken', 'HasGathered'}
# Records of equations, of a result and of what it leaves, by the crate that has the word.
RECORDS = {('ent_walk', 'Comes'), ('memo_plan', 'Comes'), ('ent_walk', 'Adds')}
# Fields of values behind which stands the value itself.
SAME = ('now', 'items', 'entry', 'entries', 'value')


def read(function, types):
    """A function with what it gives, each with its class, and its own class, which is the weakest of them."""
    texts = [inner_of(clause) for clause in function.clauses if clause.startswith('ensures')]
    function.given = {}
    for out, kind in outputs_of(function.signature).items():
        if out == 'result' and kind == '()':
            continue
        function.given[out] = class_of(out, kind, texts, function, types)
    function.sort = max(function.given.values(), key=SORTS.index) if function.given else LAW
    return function


def inner_of(clause):
    """What stands in the braces of a clause, as one line."""
    return re.sub(r'\s+', ' ', clause[clause.index('{') + 1:clause.rindex('}')]).strip()


def split_top(text, sep):
    """A text by a sign that stands in no bracket."""
    depth, found, now = 0, [], ''
    for at, sign in enumerate(text):
        depth += sign in '([{<'
        depth -= sign in ')]}' or sign == '>' and text[at - 1] not in '-=' and depth > 0
        if sign == sep and depth == 0:
            found.append(now)
            now = ''
        else:
            now += sign
    return [one.strip() for one in [*found, now] if one.strip()]


def parameters_of(signature):
    """The parameters of a function, each with its type, and the type of its result."""
    at = re.search(r'fn (?:r#)?\w+', signature).end()
    if signature[at] == '<':
        at = behind(signature, at, '<', '>')
    end = behind(signature, at, '(', ')')
    found = {}
    for one in split_top(signature[at + 1:end - 1], ','):
        name, _, kind = one.partition(':')
        own = re.match(r"^(&(?:'\w+ )?(?:mut )?)?(?:mut )?self$", one)
        found['self' if own else name.replace('mut ', '').strip()] = (own[1] or '') + 'Self' if own else kind.strip()
    return found, signature[end:].partition('->')[2].strip().rstrip('{;').strip()


def outputs_of(signature):
    """What a function gives, with its type: the result, and what stands behind each `&mut`."""
    parameters, result = parameters_of(signature)
    found = {name: mutable[1].strip() for name, kind in parameters.items()
             if (mutable := re.match(r"^&(?:'\w+ )?mut\b(.*)$", kind))}
    return found | ({'result': result} if result else {})


def behind(text, at, opens, closes):
    """The place behind the bracket that closes the one at a place."""
    depth = 0
    for end in range(at, len(text)):
        depth += text[end] == opens
        depth -= text[end] == closes and text[end - 1] != '-'
        if depth == 0:
            return end + 1
    return len(text)


def type_named(kind, function):
    """The name of a type, without what wraps it; `Self` is that of the impl around."""
    wraps = r"^(?:&(?:'\w+ )?(?:mut )?|Option<|Result<|io::Result<|std::result::Result<|Option )"
    while (shorter := re.sub(wraps, '', kind)) != kind:
        kind = shorter
    if kind.startswith('Self'):
        kind = re.sub(r'^<[^>]*(?:<[^>]*>[^>]*)*> ', '', function.around)
    name = re.match(r'(?:\w+::)*(\w+)', kind)
    return name[1] if name else ''


def fields_of(kind, function, types):
    """The fields of a type that clauses see, each with its type, or none."""
    name = type_named(kind, function)
    others = [found for (_, other), found in types.items() if other == name]
    near = types.get((function.crate, name)) or types.get((function.uses.get(name, ''), name))
    return near or (others[0] if len(others) == 1 else {})


def class_of(out, kind, texts, function, types):
    """The class of one thing that a function gives, by its clauses."""
    fields = fields_of(kind, function, types)
    others = set(parameters_of(function.signature)[0]) - {out}
    if '()' in fields and not kind.startswith(('Option', 'Result')):
        return OPEN
    said = {EQUATION: set(), BUT: set(), OPEN: set()}
    says_none = any(text.startswith('IfNone result') for text in texts)
    for text in texts:
        sort, parts = said_of(text, 'result' if out == 'result' else f'{out}.new', fields, others, function.crate, says_none)
        said[sort] |= parts
    for sort, parts in [(EQUATION, said[EQUATION]), (BUT, said[EQUATION] | said[BUT])]:
        if is_whole(kind, parts, function, types):
            return sort
    refused = re.match(r'^Result<\(\), (\w+)>', kind)
    is_fault = not refused or refused[1] == 'AllocError' or refused[1].endswith('Fault')
    return BUT if kind.startswith(('Result<()', 'io::Result<()')) and is_fault else OPEN


def is_whole(kind, paths, function, types, depth=3):
    """Whether paths into a value name all of it: itself, or all of its fields."""
    fields = fields_of(kind, function, types)
    if '' in paths or not depth or not paths:
        return '' in paths
    below = {field: {path.removeprefix(field).removeprefix('.') for path in paths if path.split('.')[0] == field}
             for field in fields}
    return bool(fields) and all(is_whole(fields[field], below[field], function, types, depth - 1) for field in fields)


def said_of(text, name, fields, others, crate='', says_none=False):
    """Which fields of a value a clause says by `≡` ('' is the whole), and where: always, or where the call answers."""
    words = without_binders(text)
    record = re.match(r'^(?:IfOk|OnOk) result \((?:λ \w+\. )?(\w+) ', words)
    if record and (crate, record[1]) in RECORDS and (names(words, name) or name == 'result' and words.startswith('If')):
        return BUT, {''}
    if inner := re.match(r'^IfOk result \(λ (\w+)\. (.*)\)$', words):
        return BUT, parts_said(without_binders(inner[2]), inner[1] if name == 'result' else name, fields, others)
    if inner := re.match(r'^IfSome result \(λ (\w+)\. (.*)\)$', words):
        # (a value, and where there is none a clause says it)
        sort, said = said_of(f'IfOk result (λ {inner[1]}. {inner[2]})', name, fields, others)
        return (EQUATION if says_none else OPEN), said if says_none else set()
    if inner := re.match(r'^OnOk result \((.*)\)$', words):
        return BUT, parts_said(without_binders(inner[1]), name, fields, others)
    word = words.split(' ')[0]
    if word in BUT_WORDS and names(words, name):
        return BUT, {''}
    if word in WHOLE_WORDS and names(words, name) and '→' not in words:
        return EQUATION, {''}
    return EQUATION, parts_said(words, name, fields, others)


def names(text, name):
    return bool(re.search(rf'(?<![\w.]){re.escape(name)}\b', text))


def without_binders(text):
    """A clause without the quantifiers in front of it."""
    while one := re.match(r'^\((?:[^():]+) : [^()]*\) → (.*)$', text):
        text = one[1]
    return text


def parts_said(text, name, fields, others):
    """The fields of a value that an equality says: those that its own side names, or all but those that it leaves. A
    side that names other parameters shows something of both, and not this value."""
    if '⊎' in text or '→' in text or re.match(r'^\(\w+ : [^()]*(?:\([^()]*\)[^()]*)*\) × ', text):
        return set()
    if one := re.match(r'^IsTrue (\S+) ↔ ', text):
        return {''} if one[1] == name else set()
    if ' × ' in text:
        return set().union(*(parts_said(part.strip(' ()'), name, fields, others) for part in text.split(' × ')))
    sides = sides_of(text)
    if len(sides) != 2:
        return set()
    for side, other in (sides, sides[::-1]):
        kept = re.match(r'^record [\w.]+ { (.*) }$', other.strip())
        if side.strip() == name and kept and names(other, name):
            return set(fields) - {one.split(' = ')[0].strip() for one in split_top(kept[1], ';') if names(one, name)}
    told = [names(side, name) for side in sides]
    if told[0] == told[1]:
        return set()
    side = sides[0] if told[0] else sides[1]
    if any(names(side, other) for other in others):
        return set()
    paths = re.findall(rf'(?<![\w.]){re.escape(name)}((?:\.\w+)*)', side)
    return {'.'.join(part for part in path.split('.') if part and part not in SAME) for path in paths}


def sides_of(text):
    """The two sides of an equality at the top of a clause."""
    depth, found, now = 0, [], ''
    for sign in text:
        depth += sign in '({['
        depth -= sign in ')}]'
        if sign == '≡' and depth == 0:
            found.append(now)
            now = ''
        else:
            now += sign
    return [*found, now]
