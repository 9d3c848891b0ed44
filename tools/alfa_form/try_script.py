"""The script that writes ALFA in a page (tools/page/alfa.js), tried against the tool: of each document both write the
same."""
import json
import pathlib
import shutil
import subprocess

from . import back

PAGE = pathlib.Path(__file__).resolve().parents[1] / 'page'
SCRIPTS = ['alfa-names.js', 'alfa.js']
DRIVER = '''
const lines = require('fs').readFileSync(0, 'utf8').trimEnd().split('\\n');
const written = lines.map((line) => {
  const document = alfaParsed(line);
  try {
    const [, body] = alfaOnly(document);
    return { text: alfaOf([document]), rules: (body.Rule ?? []).map((rule) => alfaOfRule(document, rule.RuleId)) };
  } catch (fault) {
    return { fault: String(fault) };
  }
});
process.stdout.write(JSON.stringify(written));
'''


def of_script(documents):
    """What the script writes of each document; None where there is no program that runs it."""
    node = shutil.which('node')
    if node is None:
        return None
    script = '\n'.join((PAGE / name).read_text(encoding='utf-8') for name in SCRIPTS) + DRIVER
    lines = ''.join(json.dumps(each) + '\n' for each in documents)
    done = subprocess.run([node, '-e', script], input=lines, capture_output=True, text=True, encoding='utf-8')
    return json.loads(done.stdout) if done.returncode == 0 else [{'fault': done.stderr[-500:]}] * len(documents)


def run(documents):
    """How many documents were compared, and of which the script writes another file, or a rule that doesn't stand in
    it; None, and why, where it wasn't tried."""
    found = of_script(documents)
    if found is None:
        return None, ['the script of pages: there is no node (nodejs of Debian)']
    wrong, count = [], 0
    for document, made in zip(documents, found):
        done = back.written([document], 'policies', True)
        if done.text is None:
            continue
        count += 1
        if made.get('text') != done.text:
            wrong.append(f'the script writes {made} of {json.dumps(document)[:300]}, and the tool {done.text}')
        whole = ''.join(done.text.split())
        for rule in made.get('rules', []):
            if rule is None or ''.join(rule[rule.index('{'):].split()) not in whole:
                wrong.append(f'the script writes the rule {rule}')
    return count, wrong
