"""A folder of ALFA, XML and JSON beside what is stored: lines.py writes lines that a service takes, in an order that
references allow, and none where nothing differs."""
import importlib.util
import json
import pathlib
import subprocess
import sys
import tempfile

from xacml_form.names import NAMESPACE

DENY = 'urn:oasis:names:tc:xacml:3.0:rule-combining-algorithm:deny-overrides'
TOP = '''namespace f {
    policy inXml = "in-xml"
    policyset top = "top" { apply denyOverrides one two inXml }
    policy one = "one" { apply denyOverrides rule { permit } }
    /** Of another file, with a version. */
    policy two = "two"
}
'''
JSON = {'Policy': {'PolicyId': 'two', 'Version': '01.2', 'RuleCombiningAlgId': DENY, 'Description': 'a note'}}
XML = (f'<Policy xmlns="{NAMESPACE}" PolicyId="in-xml" Version="1" RuleCombiningAlgId="{DENY}"><Target/>'
       '<Rule RuleId="r" Effect="Permit"/></Policy>')


class Folder:
    """A folder, and what a service holds of it."""

    def __init__(self, tool, program, place):
        self.tool, self.program, self.place = tool, program, pathlib.Path(place)
        self.folder, self.state = self.place / 'policies', self.place / 'state.jsonl'
        self.folder.mkdir()
        self.state.write_text('')
        self.wrong, self.count = [], 0

    def lines(self, *words):
        """What differs from the state: the lines, what is said, and the status."""
        done = subprocess.run([sys.executable, self.tool, str(self.folder), '--state', str(self.state), *words],
                              capture_output=True, text=True)
        return done.stdout.splitlines(), done.stderr, done.returncode

    def expect(self, what, commands, *words, status=0, said=''):
        """Sees that these lines differ, by their words and ids, which a service that holds the state takes."""
        lines, told, found = self.lines(*words)
        self.count += 1
        named = [' '.join([command['do'], self.named(command)]) for command in map(json.loads, lines)]
        if named != commands or found != status or said not in told:
            self.wrong.append(f'lines.py, {what}: {named}, status {found}: {told}')
        self.take(lines)

    def named(self, command):
        """What a line names."""
        if 'document' in command or command.get('reference'):
            (kind, body), = command.get('document', command.get('reference')).items()
            return body.get('Id') or body[f'{kind}Id']
        return command['id']

    def take(self, lines):
        """Gives lines to a service behind the state, and keeps its dump."""
        given = self.state.read_text() + ''.join(line + '\n' for line in lines) + '{"do":"dump"}\n'
        done = subprocess.run([self.program, 'serve'], input=given, capture_output=True, text=True)
        replies = done.stdout.splitlines()
        self.wrong += [f'lines.py: a line is refused: {line}' for line in replies if line.startswith('{"refused"')]
        self.state.write_text(''.join(line + '\n' for line in json.loads(replies[-1])['dump']))


def run(tool, program):
    """How many times the folder was compared, and what was wrong."""
    with tempfile.TemporaryDirectory() as place:
        trial = Folder(tool, program, place)
        (trial.folder / 'a.alfa').write_text(TOP)
        (trial.folder / 'b.json').write_text(json.dumps(JSON))
        (trial.folder / 'c.json').write_text('{"Attributes": []}')
        has_xml = importlib.util.find_spec('lxml') is not None
        if has_xml:
            (trial.folder / 'd.xml').write_text(XML)
        first = ['policy.add one', 'policy.add two', *['policy.add in-xml'] * has_xml, 'policy.add top', 'root.set top']
        trial.expect('all is new', first, said='c.json: note: no document')
        trial.expect('nothing differs', [], said='nothing differs')
        (trial.folder / 'a.alfa').write_text(TOP.replace('{ permit }', '{ deny }'))
        trial.expect('a rule is another', ['policy.replace one'])
        trial.expect('another root', ['root.set one'], '--root', 'one')
        trial.expect('no such root', [], '--root', 'three', status=1, said='nothing in the folder has the id three')
        (trial.folder / 'b.json').unlink()
        trial.expect('one is gone', [], said='note: Policy two 1.2 is stored, and doesn\'t stand in the folder')
        trial.expect('one is withdrawn', ['policy.withdraw two'], '--withdraw')
        again = {'Policy': JSON['Policy'] | {'PolicyId': 'one', 'Version': '1.0'}}
        (trial.folder / 'e.json').write_text(json.dumps(again))
        trial.expect('one stands twice', [], status=1, said='error: Policy one 1.0 stands in')
        (trial.folder / 'e.json').unlink()
        (trial.folder / 'a.alfa').write_text(TOP.replace('one two', 'one tow'))
        trial.expect('a fault', [], status=1, said='a.alfa:3:53: error: no policy or set is called `tow`; did you mean')
        return trial.count, trial.wrong
