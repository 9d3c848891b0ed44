"""What the program with all wrong bodies is run over: stored sessions, documents, calls and trials, by their names."""
import dataclasses
import json
import os
import pathlib
import re
import resource
import subprocess

from try_meant import CASES

from . import shown_random
from .shown_texts import COUNTING, FAILING, TEXTS

CLINIC = 'examples/clinic'
# Calls that neither a session nor a document is, with their words; a path begins with the folder of the repository.
CALLS = {
    'clinic tests': f'test --state {CLINIC}/clinic.jsonl --coverage {CLINIC}/expected.txt',
    'clinic JUnit': f'test --junit /dev/stdout --state {CLINIC}/clinic.jsonl {CLINIC}/expected.txt',
    'clinic list': f'test --list {CLINIC}/expected.txt',
    'clinic compared': f'compare {CLINIC}/clinic.jsonl {CLINIC}/moved.jsonl',
    'clinic compared as text': f'compare --text {CLINIC}/clinic.jsonl {CLINIC}/moved.jsonl',
    'clinic compared as Markdown': f'compare --markdown --fail-on gain {CLINIC}/clinic.jsonl {CLINIC}/moved.jsonl',
    'clinic checked': f'check --all --attributes {CLINIC}/attributes.json --lines {CLINIC}/clinic.jsonl'
                      f' {CLINIC}/policies',
    'rights tests': 'test --state examples/rights/rights.jsonl --coverage examples/rights/expected.txt',
    'todo checked': 'check --all examples/todo/policies',
    'clinic compared with rights': f'compare --text {CLINIC}/clinic.jsonl examples/rights/rights.jsonl',
    'clinic compared for losses': f'compare --fail-on loss {CLINIC}/clinic.jsonl {CLINIC}/moved.jsonl',
    'clinic compared backwards for losses': f'compare --fail-on loss {CLINIC}/moved.jsonl {CLINIC}/clinic.jsonl',
    'clinic covered': f'check --coverage {CLINIC}/clinic.jsonl',
    'nothing compared': 'compare none none',
    'nothing checked': 'check none',
}
# The same, of calls that read a file as standard input.
FED = {
    'clinic served': ('serve', f'{CLINIC}/clinic.jsonl'),
    'clinic dumped': ('lines', f'{CLINIC}/clinic.jsonl'),
    'rights served': ('serve', 'examples/rights/rights.jsonl'),
    'todo served': ('serve', 'examples/todo/todo.jsonl'),
}
# The parts of what lint_told reads, by the words of heads.
TOLD = {'document': b'documents', 'attributes': b'attributes', 'together': b'links'}
PROCESSOR_SECONDS, CLOCK_SECONDS, MOST_MEMORY = 10, 120, 3 << 30
# As many numbers of wrong bodies as shown.c has room for.
MOST_NUMBERS = 4096


@dataclasses.dataclass
class Call:
    """What a head names, the words of the program, and what it reads: the text of its input, or of a file that is named
    by the word FILE."""
    name: str
    words: list[str]
    text: bytes

    @property
    def is_test(self):
        """Whether it is one that has to pass."""
        return self.name.startswith(('session ', 'trial '))

    @property
    def sums(self):
        """All that its answer rests on but the program, for a sum: what it reads, wherever the repository stands."""
        said = [self.name, self.text.decode('utf-8', 'surrogateescape')]
        for word in self.words:
            path = pathlib.Path(word)
            files = sorted(path.rglob('*')) if path.is_dir() else [path]
            if path.is_absolute():
                said += [one.read_text(encoding='utf-8') for one in files if one.is_file()]
            else:
                said.append(word)
        return '\n'.join(said)


def parts_of(whole):
    """The parts of a stored text, each from a line `# NAME` to the next, by their names."""
    parts = [part for part in re.split(rb'(?m)^(?=# )', whole) if part.startswith(b'# ')]
    return {part.split(b'\n', 1)[0][2:].decode().strip(): part for part in parts}


def calls(top, trials):
    """All calls, by the words that heads name them with; those that are cheapest and show most come first."""
    found = {}

    def add(name, words, text=b''):
        found[name] = Call(name, words, text)
    for name, text in parts_of((top / 'crates/conformance/stdin').read_bytes()).items():
        add(f'session {name}', ['test', 'FILE'], text)
    told = (top / 'crates/lint_told/stdin').read_bytes()
    for kind, part in TOLD.items():
        before = heading = b'=== ' + part + b'\n'
        for name, text in parts_of(told.split(heading, 1)[1].split(b'\n=== ', 1)[0] + b'\n').items():
            add(f'{kind} {name}', ['lint-told'], before + text)
            # (attributes that are declared stay so for what comes behind)
            before += text if kind == 'attributes' else b''
    for name in ['review', 'review_with_options']:
        crate = top / 'crates' / name
        add(f'run {name}', (crate / 'args').read_text(encoding='utf-8').split(), (crate / 'stdin').read_bytes())
    for name, words in CALLS.items():
        add(f'run {name}', [str(top / word) if word.startswith('examples/') else word for word in words.split()])
    for name, (word, path) in FED.items():
        add(f'run {name}', [word], (top / path).read_bytes())
    # (the office's rules under other names: other reasons, and no other decision)
    lines = (top / CLINIC / 'clinic.jsonl').read_bytes().splitlines(True)
    renamed = b''.join(re.sub(rb'"RuleId":"', b'"RuleId":"new-', line).replace(b'policy.add', b'policy.replace')
                       for line in lines if b'"PolicyId":"office"' in line and b'policy.add' in line)
    state = str(top / CLINIC / 'clinic.jsonl')
    for form in ['text', 'markdown']:
        add(f'run reasons compared as {form}', ['compare', f'--{form}', state, 'FILE'], renamed)
    add('run reasons compared', ['compare', state, 'FILE'], renamed)
    add('run tests over one state', ['test', '--state', state, 'FILE'], COUNTING)
    failing = (top / FAILING).read_bytes()
    for name, (words, text) in TEXTS.items():
        add(f'run {name}', words.split(), failing if text is None else text)
    for name in trials:
        add(f'trial {name}', [name])
    for name, (document, _) in CASES.items():
        add(f'meant {name}', ['check', '--strict', '-'], json.dumps(document).encode())
    return found


def random_call(name):
    """The call that sends the random lines of a seed, by its name."""
    word, _, seed = name.partition(' ')
    if word == 'random' and seed.isdigit():
        return Call(name, shown_random.WORDS, shown_random.lines(int(seed)))
    if word == 'alike' and seed.isdigit():
        return Call(name, shown_random.ALIKE_WORDS, shown_random.alike_lines(int(seed)))
    return None


def bounded():
    """The program that is started now gets so much of the processor and of memory."""
    resource.setrlimit(resource.RLIMIT_CPU, (PROCESSOR_SECONDS, PROCESSOR_SECONDS + 1))
    resource.setrlimit(resource.RLIMIT_AS, (MOST_MEMORY, MOST_MEMORY))
    resource.setrlimit(resource.RLIMIT_CORE, (0, 0))


@dataclasses.dataclass
class Room:
    """A folder in which the program is run, one call after the other."""
    program: str
    folder: pathlib.Path

    def answer(self, call, number, more=None):
        """What the program says to a call, with the wrong body of a number, or with none: 0; and the numbers of those
        whose functions were called."""
        file, met = self.folder / 'FILE', self.folder / 'met'
        file.write_bytes(call.text)
        met.write_bytes(bytes(MOST_NUMBERS))
        surroundings = {'WRONG_BODY': str(number), 'WRONG_BODIES_MET': str(met), 'PATH': os.environ['PATH'],
                        **(more or {})}
        with open(file, 'rb') as given:
            try:
                ran = subprocess.run([self.program, *call.words], cwd=self.folder, stdin=given, capture_output=True,
                                     timeout=CLOCK_SECONDS, env=surroundings, check=False, preexec_fn=bounded)
                said = ran.returncode, ran.stdout, ran.stderr
            except subprocess.TimeoutExpired:
                said = 'late', b'', b''
        return said, {at for at, byte in enumerate(met.read_bytes()) if byte}
