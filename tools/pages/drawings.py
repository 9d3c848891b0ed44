#!/usr/bin/env python3
"""Writes the drawings of docs/ARCHITECTURE.md and docs/CELL.md from the calls in the sources: each is a tree of
functions below one, with the crate of each and what its doc comment begins with. Calls through functions that a
drawing doesn't show are followed.

    drawings.py            writes them between <!-- drawing: NAME --> and <!-- end of drawing -->
    drawings.py --check    says whether they are up to date, and whether the list of crates has the order of crates.txt
    drawings.py --calls FUNCTION    prints what a function calls, to choose from

A drawing is a root and the functions that are shown below it, by type or module and name. One that isn't reached any
more is a fault, so that a drawing can't show what nobody calls."""
import pathlib
import re
import sys

sys.path.insert(0, str(pathlib.Path(__file__).resolve().parents[1]))
from drawing import calls

TOP = pathlib.Path(__file__).resolve().parents[2]
PAGES = ['docs/ARCHITECTURE.md', 'docs/CELL.md']
PART = re.compile(r'(<!-- drawing: ([a-z-]+) -->\n).*?(<!-- end of drawing -->\n)', re.S)
LISTED = re.compile(r'^- \[`(\w+)`\]\(\.\./crates/', re.M)
WIDTH = 116
# What is said of a function where its doc comment says it only beside another.
WORDS = {
    'Desk.ask_shared': 'Answers a request, and lends the answer',
    'Service.handle': 'Answers a line, and counts evaluations',
    'Review.ask_shared': 'Answers any request, listed or not, always evaluated',
    'Service.mark': 'Marks the present table for a session',
    'Service.ask': 'Answers `ask`',
    'Service.who': 'Answers `who`',
    'reports.who_text': 'Writes the reply to `who`',
    'joined.join': 'Joins it, element by element',
    'Evaluator.evaluate': 'Evaluates the request of a cell',
    'Evaluator.answer': 'Answers any request',
    'ReviewParts.exchange_and_tell': 'Makes an exchange, and tells which look-ups it changes',
    'Live.exchange': 'Exchanges one thing of what is held',
    'Store.touched': 'Finds the cells that read a changed key of a look-up',
    'Evaluator.exchange': 'Forgets what rests on it, then exchanges it',
    'ReviewParts.add_policy': 'Stores a document where none has its key',
    'ReviewParts.set_attribute': 'Sets the values of a row',
    'Memory.recall': 'Looks for a case for which the same was found for its names',
    'Memory.sign': 'Finds what each test comes to: known, or evaluated alone',
    'Memory.told': 'Looks for a case whose tests came to the same',
    'Memory.joined': 'Joins an answer of what the tests came to',
    'EvaluatorParts.evaluate_untold': 'Joins the answer of results, or else evaluates the request',
    'names.names_in': 'Finds three names, where a request has nothing else',
    'Memory.put': 'Remembers it by what its tests came to',
    'Pdp.evaluate_numbered': 'Evaluates the request by a walk over the policy',
    'Live.settle': 'Makes right again the cells that read a changed key',
    'Live.narrow': 'Drops the cells of a name, and logs their answers',
    'ReviewParts.log_edit': 'Logs the old answers under the new serial',
    'Column.new': 'Begins with the first person',
    'request.read_request': 'Reads a request of the JSON Profile',
}

DRAWINGS = {
    'line': ('serving.serve_review', '''
        serving.serve_within input.take_piece serving.answer_line Service.handle line.read_json asking.command_in
        Service.change Service.question Service.mark making.read_edit Desk.edit Desk.mark reply.send_reply'''),
    'edit': ('Desk.edit', '''
        Review.edit ReviewParts.add_policy ReviewParts.set_attribute ReviewParts.add_name ReviewParts.drop_name
        ReviewParts.make ReviewParts.exchange_and_tell Live.exchange Live.settle Live.add Live.narrow
        ReviewParts.log_edit ReviewParts.take_back Store.touched phases.prepare phases.commit_all phases.give_up_all
        Evaluator.exchange Evaluator.evaluate'''),
    'cell': ('Evaluator.evaluate', '''
        EvaluatorParts.evaluate_listed EvaluatorParts.recalled Memory.recall EvaluatorParts.evaluate_by_tests
        Memory.sign Memory.told Memory.joined joined.join EvaluatorParts.evaluate_signed
        EvaluatorParts.evaluate_untold EvaluatorParts.evaluate_anew Pdp.evaluate_numbered Walk.answer
        EvaluatorParts.keep Memory.put'''),
    'question': ('Service.who', '''
        Desk.who Review.listed Review.answers_to Column.new reports.who_in reports.who_text'''),
    'ask': ('Service.ask', '''
        request.read_request Desk.ask_shared Review.ask_shared Live.answer_to Evaluator.answer names.names_in
        EvaluatorParts.answer_to EvaluatorParts.answer_anew EvaluatorParts.evaluate_listed Pdp.answer Walk.answer
        cell.response_text'''),
}


def label(function):
    return f'{function.owner or function.module.split(".")[-1]}.{function.name}'


def words_of(function, room):
    """What a doc comment begins with: its first sentence, or what of it has room."""
    if label(function) in WORDS:
        return WORDS[label(function)].replace('`', '')
    first = re.split(r'(?<=\w)[.:;](?: |$)', function.doc)[0].replace('`', '').replace('[', '').replace(']', '')
    if len(first) <= room:
        return first
    cut = first[:room - 2]
    at = max(cut.rfind(', '), cut.rfind(' which '), cut.rfind(' that '))
    return cut[:at] if at > room // 3 else cut.rsplit(' ', 1)[0] + ' ..'


class Drawing:
    """One tree: which shown functions each calls, in the order of their texts."""

    def __init__(self, sources, root, shown):
        self.sources = sources
        self.shown = set(shown.split())
        self.used = [name for name in sources.order if name in sources.below('review')]
        self.known = {}
        self.seen = set()
        self.root = self.only(root)
        self.rows = []
        self.draw(self.root, '', '')
        width = max(len(name) for name, _, _ in self.rows) + 2
        self.lines = [self.line(f'{name:<{width}}{function.crate:<16}', function, again)
                      for name, function, again in self.rows]

    def only(self, name):
        found = [function for function in self.sources.by_name[name.split('.')[-1]]
                 if label(function) == name and function.body and function.crate in self.used]
        if len(found) != 1:
            sys.exit(f'{name} is {", ".join(function.path for function in found) or "no function"}')
        return found[0]

    def called(self, function):
        if function not in self.known:
            self.known[function] = list(dict.fromkeys(
                other for other in self.sources.calls(function) if other.crate in self.used and other.body))
        return self.known[function]

    def next_shown(self, function):
        """The shown functions that one leads to, by others that aren't shown."""
        found, passed = {}, {function}
        stack = [iter(self.called(function))]
        while stack:
            other = next(stack[-1], None)
            if other is None:
                stack.pop()
            elif label(other) in self.shown:
                found[other] = True
            elif other not in passed:
                passed.add(other)
                stack.append(iter(self.called(other)))
        return list(found)

    def draw(self, function, start, below):
        again = function in self.seen
        self.rows.append((start + label(function), function, again))
        if again:
            return
        self.seen.add(function)
        others = self.next_shown(function)
        for number, other in enumerate(others):
            last = number == len(others) - 1
            self.draw(other, below + ('└ ' if last else '├ '), below + ('  ' if last else '│ '))

    @staticmethod
    def line(text, function, again):
        return (text + ('(above)' if again else words_of(function, WIDTH - len(text)))).rstrip()

    def faults(self):
        drawn = {label(function) for function in self.seen}
        return [f'{label(self.root)} leads to {name} no more' for name in sorted(self.shown - drawn)]


def main():
    sources = calls.Sources(TOP)
    if len(sys.argv) > 2 and sys.argv[1] == '--calls':
        for function in sources.functions:
            if label(function) in sys.argv[2:]:
                print(function.path)
                for other in dict.fromkeys(sources.calls(function)):
                    print('   ', other.path)
        return
    faults, drawn = [], {}
    for name, (root, shown) in DRAWINGS.items():
        drawing = Drawing(sources, root, shown)
        faults += drawing.faults()
        drawn[name] = ''.join(f'    {line}\n' for line in drawing.lines)
    check = '--check' in sys.argv
    used = set()
    for page in PAGES:
        path = TOP / page
        if not path.exists():
            continue
        text = path.read_text(encoding='utf-8')
        used |= {match[2] for match in PART.finditer(text)}
        got = PART.sub(lambda match: f'{match[1]}\n{drawn[match[2]]}\n{match[3]}', text)
        if got != text and check:
            faults.append(f'{page} has another drawing than the sources: run tools/pages/drawings.py')
        elif got != text:
            path.write_text(got, encoding='utf-8')
    faults += [f'no page has the drawing {name}' for name in drawn if name not in used]
    listed = LISTED.findall((TOP / 'docs/ARCHITECTURE.md').read_text(encoding='utf-8'))
    if listed != sources.order:
        first = next((pair for pair in zip(listed + [''], sources.order + ['']) if pair[0] != pair[1]), ('', ''))
        faults.append(f'docs/ARCHITECTURE.md lists {first[0] or "nothing"} where crates.txt has {first[1]}')
    for name in sources.order:
        faults += [f'crates.txt has {low} behind {name}, which stands on it' for low in sources.stands_on[name]
                   if low in sources.order and sources.order.index(low) > sources.order.index(name)]
    print('\n'.join(faults + [f'{len(drawn)} drawings, {len(faults)} faults']))
    sys.exit(bool(faults))


if __name__ == '__main__':
    main()
