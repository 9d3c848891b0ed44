"""What the words of the tool's command line do: what is written where, and the status."""
import json
import pathlib
import subprocess
import sys
import tempfile

DENY = 'urn:oasis:names:tc:xacml:3.0:rule-combining-algorithm:deny-overrides'
TEXT = '''namespace a {
    attribute who { category = subjectCat  id = "who"  type = string }
    obligation tell = "tell"
    policy p { apply denyOverrides rule { permit on permit { obligation tell { who = "ann" } } } }
    policyset s { apply denyOverrides p }
}
'''
ISSUED = {'Policy': {'PolicyId': 'i', 'Version': '1.0', 'RuleCombiningAlgId': DENY, 'ObligationExpressions': [
    {'ObligationId': 'o', 'FulfillOn': 'Permit', 'AttributeAssignmentExpression': [
        {'AttributeId': 'a', 'Issuer': 'b', 'Expression': {'AttributeValue': {'Value': 'c'}}}]}]}}


class Words:
    """Runs the tool in a folder."""

    def __init__(self, tool, folder):
        self.tool, self.folder, self.count, self.wrong = tool, pathlib.Path(folder), 0, []

    def see(self, words, status, *parts, given=None):
        """Sees that the tool ends so, and that its output, errors behind it, has these parts."""
        done = subprocess.run([sys.executable, self.tool, *words], capture_output=True, text=True, cwd=self.folder,
                              input=given)
        self.count += 1
        missing = [part for part in parts if part not in done.stdout + done.stderr]
        if done.returncode != status or missing:
            self.wrong.append(f'alfa.py {" ".join(words)} ended with {done.returncode} without {missing}:'
                              f' {done.stdout[:200]} {done.stderr[:300]}')
        return done.stdout


def compiled(words):
    """Those of compile."""
    words.see(['compile', 'f.alfa', '-o', 'out'], 0, 'without --program')
    if sorted(each.name for each in (words.folder / 'out').iterdir()) != ['a.p.json', 'a.s.json']:
        words.wrong.append('-o writes other files')
    lines = words.see(['f.alfa', '--lines', '--root', 'a.s'], 0).splitlines()
    if json.loads(lines[-1]) != {'do': 'root.set', 'reference': {'PolicySetIdReference': {'Id': 'a.s'}}}:
        words.wrong.append(f'--root writes {lines[-1]}')
    words.see(['f.alfa', '--lines', '--root', 'b'], 1, 'nothing has the id b')
    ids = ['"PolicyId": "urn:x:a.p"', '"RuleId": "urn:x:a.p.1"', '"Id": "urn:x:a.p"']
    words.see(['f.alfa', '--prefix', 'urn:x:'], 0, *ids)
    if '"Category"' in words.see(['f.alfa', '--no-category'], 0):
        words.wrong.append('--no-category leaves a category')
    words.see(['-'], 0, '"PolicyId": "a.p"', given=TEXT)
    words.see(['-', '--strict'], 1, 'warning: nothing is declared in `b`', given='import b.* ' + TEXT)
    words.see(['f.alfa', 'none.alfa'], 2, 'none.alfa: No such file')
    words.see(['out'], 1, 'no file ends in .alfa')


def written(words):
    """Those of write."""
    words.see(['write', 'out', '--namespace', 'b', '-o', 'back.alfa'], 0)
    words.see(['compile', 'back.alfa'], 0, '"PolicyId": "a.p"')
    text = words.see(['write', 'issued.json', '--namespace', 'b'], 1, 'not in ALFA: the issuer of `a`')
    kept = words.see(['write', 'issued.json', '--namespace', 'b', '--keep-going'], 1, 'namespace b {', 'not in ALFA: ')
    if text or not kept:
        words.wrong.append('what ALFA can\'t say is written, or isn\'t with --keep-going')
    words.see(['write', 'state.jsonl'], 0, 'policy p = "p"')
    words.see(['write', 'f.alfa'], 1, 'neither a document nor lines that store some')
    words.see(['write', 'none.json'], 2, 'none.json: No such file')


def run(tool):
    """How often the tool was run, and what was wrong."""
    with tempfile.TemporaryDirectory() as folder:
        words = Words(tool, folder)
        (words.folder / 'f.alfa').write_text(TEXT)
        (words.folder / 'issued.json').write_text(json.dumps(ISSUED))
        one = {'Policy': {'PolicyId': 'p', 'Version': '1.0', 'RuleCombiningAlgId': DENY}}
        (words.folder / 'state.jsonl').write_text(json.dumps({'do': 'policy.add', 'document': one}) + '\n')
        compiled(words)
        written(words)
        return words.count, words.wrong
