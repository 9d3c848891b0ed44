#!/usr/bin/python3
"""Writes one page that shows a review table: people by resources, with a tab for each action.

    page.py [--older FILE ..] [--title TEXT] [--output FILE] [FILE ..]

It reads replies of `review serve`, one JSON object a line, from the files or from standard input, and takes the last
table, the last counts and the last notices of each; every other line is passed over. Tables of several files are shown
as one, and no cell may stand in two of them. What differs from the tables in the older files is marked, --older naming
one each time; without one, what the notices tell. The page is one file that asks for nothing from anywhere. It is
written to standard output unless --output names a file.

The status is 0; 1 where a file's replies have no table, a cell stands twice, or something can't be read, which is said
on standard error.
"""
import argparse
import base64
import hashlib
import json
import pathlib
import sys

import jinja2
import markupsafe

FOLDER = pathlib.Path(__file__).resolve().parent / 'page'
SCRIPTS = ['model.js', 'filters.js', 'grid.js', 'details.js', 'main.js']
DECISIONS = ['Permit', 'Deny', 'NotApplicable', 'Indeterminate{P}', 'Indeterminate{D}', 'Indeterminate{DP}']
NAMES = ['person', 'action', 'resource']
LISTS = ['why', 'obligations', 'advice']


class Fault(Exception):
    """Why no page can be made."""


class Numbered:
    """Things that may be equal, each kept once, with a number for each."""

    def __init__(self):
        self.items, self.numbers = [], {}

    def number(self, item):
        """The number of a thing."""
        key = json.dumps(item, sort_keys=True)
        if key not in self.numbers:
            self.numbers[key] = len(self.items)
            self.items.append(item)
        return self.numbers[key]


def replies(name, lines):
    """The replies of a file, each with its place."""
    for count, line in enumerate(lines, 1):
        if line.startswith(b'{'):
            try:
                yield f'{name}:{count}', json.loads(line.decode('utf-8'))
            except (ValueError, RecursionError) as cause:
                raise Fault(f'{name}:{count}: this is no JSON ({cause})') from None


def require(condition, place, words):
    """Ends with a fault where a condition isn't met."""
    if not condition:
        raise Fault(f'{place}: {words}')


def called(name):
    """What a file is called."""
    return 'standard input' if name == '-' else name


def latest(name):
    """The last table, counts and notices in the file of that name, each with its place, by its key."""
    found = {}
    try:
        file = sys.stdin.buffer if name == '-' else open(name, 'rb')
    except OSError as cause:
        raise Fault(f'{name}: {cause.strerror}') from None
    with file:
        for place, reply in replies(called(name), file):
            found.update({key: (place, reply[key]) for key in ('table', 'counts', 'notices') if key in reply})
    require('table' in found, called(name), 'no reply has a table: send {"do":"table"}')
    return found


def names_of(place, entry):
    """The person, action and resource of an entry."""
    require(isinstance(entry, dict) and all(isinstance(entry.get(name), str) for name in NAMES), place,
            'a cell or a notice has no person, action and resource')
    return tuple(entry[name] for name in NAMES)


def assignments(place, given):
    """Requires the form of an obligation or an advice."""
    found = given.get('AttributeAssignment') if isinstance(given, dict) and isinstance(given.get('Id'), str) else None
    require(isinstance(found, list) and all(isinstance(each, dict) for each in found), place,
            'an obligation or an advice has another form')
    return given


def entry_of(place, entry):
    """Requires the form of an entry of why."""
    path = entry.get('path') if isinstance(entry, dict) else None
    well = isinstance(path, list) and path and all(
        isinstance(key, list) and len(key) == 3 and all(isinstance(part, str) for part in key) for key in path)
    require(well and isinstance(entry.get('rule'), (str, type(None))), place, 'an entry of why has another form')
    return entry


class Answers:
    """The answers of tables, each kept once, and so are the members of their lists."""

    def __init__(self):
        self.all, self.parts = Numbered(), Numbered()

    def number(self, place, cell):
        """The number of the answer of a cell."""
        require(cell.get('decision') in DECISIONS, place, 'a cell has no decision')
        require(isinstance(cell.get('status'), str), place, 'a cell has no status')
        require(all(isinstance(cell.get(key), list) for key in LISTS), place, 'a cell lacks a list')
        lists = [[self.parts.number(entry_of(place, entry)) for entry in cell['why']]]
        lists += [[self.parts.number(assignments(place, given)) for given in cell[key]] for key in LISTS[1:]]
        return self.all.number([DECISIONS.index(cell['decision']), cell['status'], *lists])

    def bare(self, place, decision):
        """The number of an answer of which the decision alone is known; -1 for none."""
        if decision is None:
            return -1
        require(decision in DECISIONS, place, 'a notice has another decision')
        return self.all.number([DECISIONS.index(decision), None, [], [], []])


def table_of(place, cells, answers):
    """A table as its requests with the numbers of their answers, in its order."""
    require(isinstance(cells, list), place, 'a table is no list')
    table = {}
    for cell in cells:
        names = names_of(place, cell)
        require(names not in table, place, f'the cell {json.dumps(names, ensure_ascii=False)} stands twice')
        table[names] = answers.number(place, cell)
    return table


def joined(tables):
    """Tables, each with its place, as one."""
    whole = {}
    for number, (place, table) in enumerate(tables):
        for names in table:
            if names in whole:
                other = next(place for place, table in tables[:number] if names in table)
                raise Fault(f'{place}: the cell {json.dumps(names, ensure_ascii=False)} stands in {other} too')
        whole |= table
    return whole


def differences(table, older):
    """Each request with another answer in the older table, with that answer; -1 where it has none."""
    changed = {names: older.get(names, -1) for names, answer in table.items() if older.get(names, -1) != answer}
    return changed | {names: answer for names, answer in older.items() if names not in table}


def told(place, notices, answers):
    """Each request of the notices with its answer before."""
    require(isinstance(notices, list), place, 'notices are no list')
    return {names_of(place, notice): answers.bare(place, notice.get('before')) for notice in notices}


def other_notices(table, notices, answers):
    """Whether notices tell another decision of a request than the table has."""
    decided = {names: DECISIONS[answers.all.items[answer][0]] for names, answer in table.items()}
    return any(decided.get(tuple(notice[name] for name in NAMES)) != notice.get('after') for notice in notices)


def counted(table, answers):
    """How many cells have each decision, in the order of the decisions."""
    counts = [0] * len(DECISIONS)
    for answer in table.values():
        counts[answers.all.items[answer][0]] += 1
    return counts


def other_counts(counts, given):
    """Whether counts that were told are of another table."""
    ours = {'Permit': counts[0], 'Deny': counts[1], 'NotApplicable': counts[2], 'Indeterminate': sum(counts[3:])}
    return given != ours


def grid(table, changed, answers):
    """What the page's script reads: three lists of names, the answers, and which cell has which."""
    people, actions, resources = (list(dict.fromkeys(names[i] for names in table)) for i in range(3))
    places = [{name: number for number, name in enumerate(names)} for names in (people, actions, resources)]
    cells = [-1] * (len(people) * len(actions) * len(resources))

    def index(names):
        person, action, resource = (place[name] for place, name in zip(places, names))
        return (person * len(actions) + action) * len(resources) + resource

    for names, answer in table.items():
        cells[index(names)] = answer
    return {
        'people': people, 'actions': actions, 'resources': resources, 'decisions': DECISIONS,
        'answers': answers.all.items, 'parts': answers.parts.items, 'cells': cells,
        'changed': None if changed is None else [
            [index(names), was] for names, was in changed.items() if names in table],
        'gone': [[*names, was] for names, was in (changed or {}).items() if names not in table],
    }


def as_script(data):
    """JSON that can stand in a script element: nothing in it begins a tag, and it is ASCII."""
    text = json.dumps(data, separators=(',', ':'))
    return markupsafe.Markup(text.replace('<', '\\u003c').replace('>', '\\u003e').replace('&', '\\u0026'))


def digest(text):
    """What the page's policy says of a script or a style that may stand in it."""
    return "'sha256-" + base64.b64encode(hashlib.sha256(text.encode()).digest()).decode() + "'"


def page(title, data, counts, warnings):
    """The page."""
    style = (FOLDER / 'style.css').read_text(encoding='utf-8')
    parts = [(FOLDER / name).read_text(encoding='utf-8') for name in SCRIPTS]
    script = "(() => {\n'use strict';\n\n" + '\n'.join(parts) + '})();\n'
    loader = jinja2.FileSystemLoader(FOLDER)
    environment = jinja2.Environment(loader=loader, autoescape=True, undefined=jinja2.StrictUndefined)
    return environment.get_template('page.html').render(
        title=title, data=as_script(data), counts=list(zip(DECISIONS, counts)), warnings=warnings,
        style=markupsafe.Markup(style), style_digest=markupsafe.Markup(digest(style)),
        script=markupsafe.Markup(script), script_digest=markupsafe.Markup(digest(script)))


def warned(name, table, found, answers):
    """What is to be warned of, of a file's replies beside its table."""
    warnings = []
    if 'notices' in found and other_notices(table, found['notices'][1], answers):
        warnings.append(f'The notices in {called(name)} are of another table than the one there.')
    if 'counts' in found and other_counts(counted(table, answers), found['counts'][1]):
        warnings.append(f'The counts in {called(name)} are of another table than the one there.')
    return warnings


def read(names, answers):
    """The tables in files, each with its place, the cells that notices tell of, and what is warned of."""
    tables, changed, warnings = [], None, []
    for name in names:
        found = latest(name)
        place, cells = found['table']
        table = table_of(place, cells, answers)
        tables.append((place, table))
        if 'notices' in found:
            changed = (changed or {}) | told(*found['notices'], answers)
        warnings += warned(name, table, found, answers)
    return tables, changed, warnings


def made(options):
    """The page for what the command line asks."""
    answers = Answers()
    tables, changed, warnings = read(options.files or ['-'], answers)
    table = joined(tables)
    if options.older:
        older, _, _ = read(options.older, answers)
        changed = differences(table, joined(older))
    return page(options.title, grid(table, changed, answers), counted(table, answers), warnings)


def main():
    parser = argparse.ArgumentParser(description='Writes one page that shows a review table.')
    parser.add_argument('files', nargs='*', metavar='FILE', help='replies, one a line; standard input if there is none')
    parser.add_argument('--older', action='append', metavar='FILE',
                        help='replies with an older table, once for each: what differs is marked')
    parser.add_argument('--title', default='Review table', metavar='TEXT', help='the heading of the page')
    parser.add_argument('--output', metavar='FILE', help='where the page is written; else to standard output')
    options = parser.parse_args()
    try:
        text = made(options).encode('utf-8', 'replace')
        if options.output is None:
            sys.stdout.buffer.write(text)
        else:
            pathlib.Path(options.output).write_bytes(text)
    except (Fault, OSError) as fault:
        print(f'page.py: {fault}', file=sys.stderr)
        return 1
    return 0


if __name__ == '__main__':
    sys.exit(main())
