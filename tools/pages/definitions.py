#!/usr/bin/env python3
"""Keeps what the pages say of the definitions' modules, which stand in crates/*/specs.

    definitions.py             writes the lists of docs/DEFINITIONS.md, and the numbers of lines into docs/READING.md:
                               of a row that says which words of a module are read, those of these definitions
    definitions.py --check     says whether they are up to date; whether the reading list is closed, and how many
                               lines of it the clause of `serve_from` reaches, and how many types of the code with
                               how many lines: each word on it is defined on it, named in the notation, or told in
                               a table that isn't of the standard's evaluation, and at most 640 lines are reached;
                               whether each word on the headline's page is defined on a list or named in the
                               notation; whether each module that holds a definition on which the clauses of
                               `serve_from` and of `run` rest is in a table; whether docs/VERIFIED.md names modules
                               that there are; and whether no module outside of proofs_only rests on one of
                               proofs_only; fails if not
    definitions.py --closure   prints all that the headline's page reaches by imports of modules, and what the other
                               modules reach besides

Lines are counted without imports, comments and blanks; DEFINITIONS has sums alone, so that few lines of it change."""
import re
import sys
import textwrap

sys.dont_write_bytecode = True
from reached import CRATES, MEMBER, ROOT, TOP, USE, Followed, by_crate, closure, defined_in  # noqa: E402
from reached import definitions_of, imports, is_apart, lines, modules, split, type_lines  # noqa: E402
from reached import without_comments, without_imports  # noqa: E402
from standard import citations, order, title  # noqa: E402

DOCS = ROOT / 'docs'
# The name of a crate of ours.
OURS = r'(?:ent|memo|lint|script|law|cli)_\w+'
HEADLINE = 'Rattle.ent_line.specs.Headline'
# The clauses that are read: that of the call which the program makes to serve, and that of the program.
SERVING = (CRATES / 'cli_serve' / 'src' / 'running.rt', 'serve_from')
PROGRAM = (CRATES / 'ent_program' / 'src' / 'acting.rt', 'run')
EVALUATION = "The standard's evaluation"
MOST = 640


# ---- the map

def item(text):
    """An item of a list, in lines of the page's width."""
    filled = textwrap.fill(text, 114, subsequent_indent='  ', break_long_words=False, break_on_hyphens=False)
    return f'- {filled}\n'


def by_section(known):
    """One item for each section of the standard that a module cites; those that the same modules cite share one."""
    found = {}
    for name, path in known.items():
        if not is_apart(name):
            for section in citations(path.read_text()):
                found.setdefault(section, set()).add(name)
    shared = []
    for section in sorted(found, key=order):
        if shared and shared[-1][1] == found[section]:
            shared[-1][0].append(section)
        else:
            shared.append(([section], found[section]))
    text = ''
    for sections, names in shared:
        crates = '; '.join(f'`{crate}` {", ".join(modules_of)}' for crate, modules_of in by_crate(names).items())
        titles = ', '.join(title(section) for section in sections)
        text += item(f'**{", ".join(sections)}** {titles}: {crates}')
    return text


def sum_of(names, known):
    return f'{len(names)} modules with {sum(lines(known[name]) for name in names):,} lines'


def by_use(known):
    """One item a crate: what the headline's page reaches, and what else public contracts speak of."""
    headline, _ = closure([HEADLINE], known)
    apart = {name for name in known if is_apart(name)}
    others = set(known) - headline - apart
    text = (f"In **bold** what the headline's page reaches by imports of whole modules ({sum_of(headline, known)}),\n"
            f'then the other modules ({sum_of(others, known)}); in `proofs_only` stand\n{sum_of(apart, known)}.\n\n')
    for crate in by_crate(known):
        parts = []
        for names, mark in [(headline, '**'), (others, '')]:
            here = sorted(name for name in names if split(name)[0] == crate)
            if here:
                parts.append(mark + ', '.join(split(name)[1] for name in here) + mark)
        text += item(f'`{crate}`: {", ".join(parts)}')
    return text


# ---- what the claims name and reach

def check_claims(page, known):
    """Each module that the table of claims names is there, and none that isn't apart rests on one that is."""
    rows = page.split('<!-- claims -->\n')[1].split('<!-- end of claims -->')[0].split('\n')[2:]
    for row in rows:
        cells = row.split('|')
        if len(cells) < 4:
            continue
        crates = dict.fromkeys(re.findall(OURS, cells[3] + cells[1]))
        for word in re.findall(r'\b[A-Z]\w+', cells[3]):
            if not any(f'Rattle.{crate}.specs.{word}' in known for crate in crates):
                sys.exit(f'docs/VERIFIED.md: no module {word} of {", ".join(crates)}')
    reached, _ = closure([name for name in known if not is_apart(name)], known)
    apart = [name for name in sorted(reached) if is_apart(name)]
    if apart:
        sys.exit('a module that a public contract may speak of reaches ' + ', '.join(apart))


def derived(others):
    """The types whose derived orders or equalities are imported, by trait."""
    found = {}
    for module in others:
        name = re.search(r'\.contracts\.(?:\w+\.)*?(\w+?)(PartialEq|PartialOrd|Ord|Eq)\.TheImpl', module)
        if name:
            found.setdefault(name[2], set()).add(name[1])
    return found


def declared(others):
    """The types of the code that are imported, by crate."""
    found = {}
    for module in others:
        crate, name = split(module)
        if re.match(OURS, crate) and name.startswith('declared.'):
            found.setdefault(crate, set()).add(name.split('.')[2])
    return found


def kit(others):
    """The kit's modules that are imported, by library, each with the words that are."""
    found = {}
    for module, words in sorted(others.items()):
        crate, name = split(module)
        if not re.match(OURS, crate):
            found.setdefault(crate, {})[name] = words
    return found


def listed(names, known):
    """Modules with their lines, one line of text a crate."""
    for crate, modules_of in by_crate(names).items():
        counts = [f'{name} {lines(known[f"Rattle.{crate}.specs.{name}"])}' for name in modules_of]
        yield f'`{crate}`: {", ".join(counts)}'


def print_closure(known):
    """All that the headline's page reaches and the other modules besides, with types of the code and words of the kit."""
    headline, others = closure([HEADLINE], known)
    all_of, more = closure([name for name in known if not is_apart(name)], known)
    more = {module: words for module, words in more.items() if module not in others}
    parts_of = [('The headline', headline, others), ('The other definitions besides', all_of - headline, more)]
    for name, names, found in parts_of:
        print(f'{name}: {sum_of(names, known)}')
        print(''.join(f'  {line}\n' for line in listed(names, known)))
        for crate, types in sorted(declared(found).items()):
            print(f'  declared in {crate}: {", ".join(sorted(types))}')
        for trait, types in sorted(derived(found).items()):
            print(f'  derived {trait}: {", ".join(sorted(types))}')
        for library, names_of in kit(found).items():
            for module, words in names_of.items():
                print(f'  of {library}, {module}: {" ".join(sorted(words))}')
        print()


# ---- the reading list

# A row of the list: a module, and where not all of it is read, the words that are.
ROW = r'^\| `(crates/[^`]*\.antt)`( of it (?:`[^`]*`(?:, )?)+)?'


def lines_of_words(path, words):
    """How many lines each of some definitions of a file has."""
    for word in words:
        found = [text for names, text in definitions_of(path) if word in names]
        if not found:
            sys.exit(f'docs/READING.md: {path.relative_to(ROOT)} has no {word}')
        yield sum(1 for line in found[0].split('\n') if line.strip())


def parts(page, mark):
    """What stands before a mark, up to its end, and from there on."""
    before, rest = page.split(f'<!-- {mark} -->\n')
    inside, after = rest.split(f'<!-- end of {mark} -->\n')
    return before, inside, after


def between(page, mark):
    return parts(page, mark)[1]


def put_between(page, mark, text):
    before, _, after = parts(page, mark)
    return f'{before}<!-- {mark} -->\n{text}<!-- end of {mark} -->\n{after}'


def with_lines(page):
    """The page with the number of lines of each module in its tables."""
    def row(found):
        words = re.findall(r'`([^`]*)`', found[2] or '')
        count = lines(ROOT / found[1]) if not words else sum(lines_of_words(ROOT / found[1], words))
        return f'| `{found[1]}`{found[2] or ""} | {count} |'

    def row_of_crate(found):
        names = [re.sub(r' \d+$', '', name.strip()) for name in found[2].split(',')]
        counts = [lines(CRATES / found[1] / 'specs' / f'{name}.antt') for name in names]
        told = ', '.join(f'{name} {count}' for name, count in zip(names, counts))
        return f'| `{found[1]}` | {sum(counts)} | {told} |'

    page = re.sub(ROW + r' \|[^|]*\|', row, page, flags=re.M)
    return re.sub(rf'^\| `({OURS})` \|[^|]*\|([^|]*)\|', row_of_crate, page, flags=re.M)


def passed_on(path):
    """The words that a module passes on from others."""
    return {word for line in USE.finditer(path.read_text()) if line[1] for word in (line[3] or '').split(', ')}


def missing(known, listed_paths, notation):
    """The words on the headline's page that neither a list nor the notation has."""
    page = known[HEADLINE]
    names, aliases, absent = {}, {}, []
    for module, words, alias in imports(page):
        if alias:
            aliases[alias] = module
        for word in words:
            there, _, here = word.partition(' as ')
            names[here or there.strip('◌')] = (module, there.strip('◌'))
    fields = set().union(*(defined_in(without_imports(path)) for path in listed_paths))

    def is_known(module, word):
        path = known.get(module)
        if path not in listed_paths:
            return word in notation
        return word in defined_in(without_imports(path)) or word in passed_on(path) & fields or word in notation

    text = without_imports(page)
    bound = {name for group in re.findall(r'(?:\(([a-z_][\w ]*?) :|λ ([a-z_][\w ]*?)\.)', text)
             for name in ' '.join(group).split()}
    own = {name for names_of in TOP.findall(text) for name in names_of} | set(MEMBER.findall(text))
    for token in sorted(set(re.findall(r'[A-Za-z_]\w*(?:\.\w+)*|[^\s\w(){},:=.]+', text))):
        first, *rest = token.split('.')
        if first in aliases and rest:
            good = is_known(aliases[first], rest[0])
        elif first in names:
            good = is_known(*names[first])
        else:
            good = first in bound or first in own or first in fields or first in notation
            good = good and all(field.isdigit() or field in fields for field in rest)
        if not good:
            absent.append(token)
    return absent


def paths_in(text):
    """The files of the modules in tables of one module a row."""
    return [ROOT / path for path in re.findall(r'^\| `(crates/[^`]*\.antt)`', text, re.M)]


def of_crates(text):
    """The modules in tables of one crate a row."""
    rows = re.findall(rf'^\| `({OURS})` \|[^|]*\|([^|]*)\|', text, re.M)
    return {f'Rattle.{crate}.specs.{name.split()[0]}' for crate, names in rows for name in names.split(',')}


def untold(page, followed):
    """The modules on whose definitions the clauses of `serve_from` and of `run` rest, and that are in no table."""
    listed_paths = set(paths_in(page))
    told = {name for name, path in followed.known.items() if path in listed_paths} | of_crates(page)
    found, _ = followed.reached(followed.clause(*SERVING) | followed.clause(*PROGRAM))
    return [f'{crate} {module}' for crate, module in map(split, sorted({name for name, _ in found} - told))]


def is_listed(page, followed):
    """Whether a definition is on the reading list."""
    rows = [(ROOT / found[1], re.findall(r'`([^`]*)`', found[2] or '')) for found in
            re.finditer(ROW, between(page, 'reading list'), re.M)]
    names = {path: name for name, path in followed.known.items()}
    whole = {names[path] for path, words in rows if not words}
    parts_of = {followed.place(names[path], word) for path, words in rows for word in words}
    return lambda place: place[0] in whole or place in parts_of


def below(page):
    """The modules of the tables between the reading list and the standard's evaluation, and behind it."""
    before, after = page.split(f'\n## {EVALUATION}\n')
    return of_crates(before) | of_crates(after.split('\n## ', 1)[1])


def skipped(page, followed, found):
    """Fails where the page doesn't name what stands in a module of the list and isn't reached."""
    on_list = is_listed(page, followed)
    apart = [followed.parts[name][number][0] for name in followed.parts for number in range(len(followed.parts[name]))
             if on_list((name, number)) and (name, number) not in found]
    named = set(re.findall(r'`([^`]*)`', between(page, 'skipped')))
    for words in apart:
        if not words & named:
            sys.exit(f'docs/READING.md: what is to be skipped lacks {", ".join(sorted(words))}')
    told = set().union(*apart)
    if not named <= told:
        sys.exit(f'docs/READING.md: {", ".join(sorted(named - told))} is reached, or isn\'t on the list')


def check_closed(page, notation, followed):
    """Says how many lines of the list are reached from the clause of `serve_from`, and how many types of the code have
    which these name; fails where the list isn't closed: a word on it is defined on it, named in the notation, or told
    in a table below it that isn't of the standard's evaluation."""
    starts = followed.clause(*SERVING)
    found, beyond = followed.reached(starts, is_listed(page, followed))
    types = followed.types_of(found)
    told = below(page)
    left = sorted(f'{" ".join(split(place[0]))}.{min(tokens)}' for place, tokens in beyond.items()
                  if place[0] not in told and not any(token.split('.')[-1] in notation for token in tokens))
    if left:
        sys.exit(f'docs/READING.md: the reading list isn\'t closed: it, the notation and the tables below lack '
                 + ', '.join(left))
    skipped(page, followed, found)
    count = sum(map(followed.count, found))
    print(f'closed: {count} lines of it are reached from serve_from, and {len(types)} types of the code with '
          f'{sum(type_lines(*name) for name in types)} lines')
    if count > MOST:
        sys.exit(f'docs/READING.md: of the reading list {count} lines are reached, more than {MOST}')


def check_reading(page, known):
    """Says how long the reading list is; what is wrong with it, if anything."""
    paths = paths_in(between(page, 'reading list'))
    rows = re.findall(ROW + r' \| (\d+) \|', between(page, 'reading list'), re.M)
    count = sum(int(row[2]) for row in rows)
    print(f'docs/READING.md: {len(paths)} modules on the reading list, {count} lines')
    notation = set(re.findall(r'[A-Za-z_]\w*|[^\s\w`]+', ' '.join(re.findall(r'`([^`]*)`', between(page, 'notation')))))
    absent = missing(known, paths_in(page), notation)
    if absent:
        sys.exit('docs/READING.md: neither a list nor the notation has ' + ', '.join(absent))
    followed = Followed(known)
    left = untold(page, followed)
    if f'\n## {EVALUATION}\n' not in page or left:
        sys.exit(f'docs/READING.md: no list, and no table, has ' + ', '.join(left))
    check_closed(page, notation, followed)


def main():
    known = modules()
    if '--closure' in sys.argv:
        print_closure(known)
        return
    check_claims((DOCS / 'VERIFIED.md').read_text(), known)
    map_page, reading = DOCS / 'DEFINITIONS.md', DOCS / 'READING.md'
    wanted = map_page.read_text()
    for mark, made in [('sections', by_section(known)), ('modules', by_use(known))]:
        wanted = put_between(wanted, mark, made)
    for page, new in [(map_page, wanted), (reading, with_lines(reading.read_text()))]:
        if '--check' not in sys.argv:
            page.write_text(new)
        elif page.read_text() != new:
            sys.exit(f'docs/{page.name}: what it says of modules is not up to date; run tools/pages/definitions.py')
    check_reading(reading.read_text(), known)


main()
