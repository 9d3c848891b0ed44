"""The functions of a crate: which there are, in which of them a line stands, and which of them call which."""
import json
import re

from .edits import Fault

HEAD = re.compile(r'^(?: {4})?(?:pub(?:\([a-z]+\))? )?(?:const |unsafe )*fn (?:r#)?([A-Za-z0-9_]+)')
IMPL = re.compile(r'^(?:unsafe )?(?:impl|trait)\b(.*)')
CLAUSES = ('requires', 'ensures', 'ghost ', 'where')
CYCLE = re.compile(r'^ *#\[cycle\((\w+)\)\]')


class Functions:
    """What a built library says of the functions of its crate: their names, as a check prints them, less the crate's."""

    def __init__(self, crate, library):
        self.crate = crate
        made = library / 'toolchain' / 'mir.json'
        if not made.is_file():
            raise Fault(f'{crate.name} has no library yet: rt lib {crate.name}')
        own = re.compile(rf'"{crate.name}::([^"]+)"')
        self.named = {}
        for name, *body in json.loads(made.read_text(encoding='utf-8')):
            if name.startswith(f'{crate.name}::') and not name.endswith('+decl'):
                self.named[name.removeprefix(f'{crate.name}::')] = set(own.findall(json.dumps(body)))
        self.closures, self.ends, self.called = {}, {}, {}
        for name in self.named:
            for around in re.findall(r'fn::([^:]+)::', name):
                self.closures.setdefault(around, []).append(name)
            if '+' not in name:
                self.ends.setdefault(name.split('::')[-1], []).append(name)
        self.cycles, self.written, self.heads, self.read = {}, [], {}, {}
        self._look_through()
        self._name_recursions()

    def _look_through(self):
        """Finds the functions that stand in the sources, and those in cycles of calls with the cycle's name."""
        members = {}
        for path in sorted((self.crate / 'src').rglob('*.rt')):
            lines = path.read_text(encoding='utf-8').split('\n')
            cycle = None
            for at, line in enumerate(lines):
                if named := CYCLE.match(line):
                    cycle = named[1]
                elif HEAD.match(line):
                    try:
                        name = self.at(path, lines, at)
                    except Fault:
                        # (a trait's own heads, and what macros write, have no function of their own)
                        continue
                    self.written.append(name)
                    self.heads[name] = path.relative_to(self.crate), line, lines[:at].count(line)
                    if cycle:
                        members.setdefault((cycle, name.split('::')[0]), []).append(name)
                if line and not line.lstrip().startswith(('#', '//')):
                    cycle = None
        for (cycle, _), names in members.items():
            places = [name.split('::')[:-1] for name in names]
            shared = [parts[0] for parts in zip(*places) if len(set(parts)) == 1]
            self.cycles |= {name: '::'.join([*shared, f'+{cycle}']) for name in names}

    def _name_recursions(self):
        """Puts functions into cycles that call themselves with no name for it: such a cycle has a member's name."""
        for name in self.written:
            if name not in self.cycles and name in self.reached_from(name):
                members = [other for other in self.reached_from(name) if name in self.reached_from(other)]
                shared = name.split('::')[:-1]
                named = sorted('::'.join([*shared, f'+{other.split("::")[-1]}']) for other in members)
                there = [one for one in named if (self.crate / 'proofs' / one.replace('::', '/')).is_dir()]
                self.cycles |= {other: (there or named)[0] for other in members}

    def texts(self):
        """The texts of the crate's files that a check reads, by path."""
        if not self.read:
            files = (path for part in ['src', 'specs', 'proofs'] for path in (self.crate / part).rglob('*'))
            self.read = {str(path.relative_to(self.crate)): path.read_text(encoding='utf-8')
                         for path in sorted(files) if path.is_file()}
        return self.read

    def reached_from(self, name):
        """The functions to which calls of a function lead."""
        found, todo = set(), [name]
        while todo:
            calls = self.called_by(todo.pop()) - found
            todo += calls
            found |= calls
        return found

    def called_by(self, name):
        """The functions that a function's own code names, itself or by a closure of its own."""
        if name not in self.called:
            bodies = [name, *self.closures.get(name.split('::')[-1], [])]
            self.called[name] = set().union(*(self.named.get(each, ()) for each in bodies)) & self.named.keys()
        return self.called[name]

    def at(self, path, lines, number):
        """The function in which a line of a file stands."""
        head = next((above for above in range(number, -1, -1) if HEAD.match(lines[above])), None)
        if head is None:
            raise Fault(f'{path.name}: line {number + 1} stands in no function')
        name = HEAD.match(lines[head])[1]
        around = None
        if lines[head].startswith(' '):
            blocks = (IMPL.match(lines[above]) for above in range(head, -1, -1))
            around = next((block[1] for block in blocks if block), None)
        found = [other for other in self.ends.get(name, ()) if fits(other.split('::'), around, path.stem)]
        near = [other for other in found if other.split('::')[0] == path.stem]
        if len(found) != 1 and len(near) != 1:
            raise Fault(f'{path.name}: it is not plain which function is `{name}`: {" ".join(found) or "none"}')
        return (found if len(found) == 1 else near)[0]

    def proof_of(self, name):
        """The name of what is proved: the function, or the cycle of calls in which it stands."""
        return self.cycles.get(name, name)

    def proved_with(self, name):
        """The name of what is proved with a function, and the functions that it is."""
        proof = self.proof_of(name)
        return proof, [other for other in self.named if self.proof_of(other) == proof]

    def calls(self, name, other):
        """Whether a function's own code names another."""
        return other in self.called_by(name)


def body_at(lines, head):
    """Where the body of a function begins and ends, by its braces' lines, if it has a body of its own lines."""
    indent = lines[head][:len(lines[head]) - len(lines[head].lstrip())]
    has_clauses = False
    for at in range(head, len(lines)):
        has_clauses = has_clauses or lines[at].lstrip().startswith(CLAUSES)
        if lines[at] == indent + '{' or not has_clauses and lines[at].endswith(' {'):
            return at, next(below for below in range(at, len(lines)) if lines[below] == indent + '}')
        if lines[at] in (indent + '{}', indent + '}') or lines[at].endswith((' {}', ';')) and not has_clauses:
            return None
    return None


def fits(parts, around, stem):
    """Whether a function of a head's name may be that of the head in a file: of a method the type and the trait around
    it are asked for."""
    if around is None:
        return len(parts) == 1 or parts[-2] == stem
    kind, asked = implemented(around)
    return len(parts) > 1 and (parts[-2] == kind if asked is None else parts[-2].startswith(kind + asked))


def implemented(around):
    """The name of the type of an `impl`, and that of its trait, if there is one."""
    text, depth, plain = around, 0, []
    for sign in text:
        depth += sign == '<'
        if not depth:
            plain.append(sign)
        depth -= sign == '>' and depth > 0
    words = ''.join(plain).split(' where ')[0].rstrip('{ ').strip().split(' for ')
    named = [word.strip().split('::')[-1].lstrip('&') for word in words]
    return (named[0], None) if len(named) == 1 else (named[1], named[0])
