"""Documents that come back from ALFA as they are: those of the clinic, forty ordinary ones, and all that the
repository's sessions and examples store."""
import json
import pathlib
import subprocess
import sys
import tempfile

from xacml_form.normal import normal
from xacml_form.shown import shown

from . import back, try_script, try_worlds
from .compiling import Compiler
from .preparing import Preparing
from .told import ERROR

ROOT = pathlib.Path(__file__).resolve().parents[2]
CLINIC = ROOT / 'examples' / 'clinic'
TOOL = ROOT / 'tools' / 'xacml.py'
NUMBER = 40


def ordinary():
    """The forty ordinary policies of the XML tool as documents; none where it has no lxml."""
    try:
        from xacml_form import try_ordinary
    except ImportError:
        return []
    with tempfile.TemporaryDirectory() as place:
        files = []
        for each in try_ordinary.ORDINARY:
            files.append(pathlib.Path(place, f'{each.name}.xml'))
            files[-1].write_text(each.text)
        words = [sys.executable, str(TOOL), 'policy', '--lines', *map(str, files)]
        done = subprocess.run(words, capture_output=True, text=True)
    return [json.loads(line)['document'] for line in done.stdout.splitlines()]


def stored():
    """The documents of all lines that the repository has, each once."""
    found = {}
    files = [*(ROOT / 'crates' / 'conformance' / 'sessions').glob('*'), *(ROOT / 'examples').glob('*/*.jsonl'),
             ROOT / 'crates' / 'conformance' / 'stdin']
    for file in sorted(files):
        for line in file.read_text(encoding='utf-8', errors='replace').splitlines():
            try:
                command = json.loads(line.removeprefix('> '))
                document = command['document'] if command['do'] in ('policy.add', 'policy.replace') else None
            except (ValueError, KeyError, TypeError, RecursionError):
                continue
            if isinstance(document, dict):
                found.setdefault(json.dumps(document), document)
    return list(found.values())


def usable(program, documents):
    """Those that `review check` passes."""
    with tempfile.TemporaryDirectory() as place:
        files = [pathlib.Path(place, f'{number}.json') for number, _ in enumerate(documents)]
        for file, document in zip(files, documents):
            file.write_text(json.dumps(document))
        done = subprocess.run([program, 'check', *map(str, files)], capture_output=True, text=True)
    return [document for document, line in zip(documents, done.stdout.splitlines()) if line.startswith('ok ')]


def alone(documents):
    """How many come back as they are, how many but for what was told, how many can't be said; and what is wrong: one
    of which nothing was told and that comes back otherwise."""
    counts, wrong = [0, 0, 0], []
    for document in documents:
        done = back.written([document], 'policies')
        unsaid = [what for weight, _, _, what in done.told if weight == back.UNSAID]
        counts[2 if unsaid else 1 if done.told else 0] += 1
        faults = [what for _, number, _, what in done.told if number is None]
        if faults or done.text is None and not unsaid:
            wrong.append(f'{faults}: {shown(document)[:300]}')
        elif done.text and not done.told and again(done.text) != [normal(document)]:
            wrong.append(f'it comes back otherwise: {shown(document)[:300]}')
    return counts, wrong


def again(text):
    """What a file compiles to."""
    compiler = Compiler([('again', text.encode())])
    found = [normal(each.document) for each in compiler.made()]
    return None if compiler.told.holds(ERROR) else found


def clinic():
    """The clinic's ALFA makes its documents, but for their variables, and has at most a quarter of their bytes; they
    come back to the same."""
    wrong = []
    files = sorted((CLINIC / 'policies').glob('*.json'))
    documents = [json.loads(file.read_text(encoding='utf-8')) for file in files if file.stem != 'records-1.1']
    wanted = sorted(shown(back.sortable(Preparing().document(document))) for document in documents)
    compiler = Compiler([('clinic.alfa', (CLINIC / 'clinic.alfa').read_bytes())])
    made = [each.document for each in compiler.made()]
    wrong += [line for line in compiler.told.lines() if f': {ERROR}: ' in line]
    if sorted(shown(back.sortable(each)) for each in made) != wanted:
        wrong.append('clinic.alfa makes other documents than examples/clinic/policies has')
    size = sum(file.stat().st_size for file in files if file.stem != 'records-1.1')
    if (CLINIC / 'clinic.alfa').stat().st_size * 4 > size:
        wrong.append('clinic.alfa has more than a quarter of the bytes of the JSON')
    done = back.written(made, 'clinic')
    if done.text is None or done.told:
        wrong.append(f'the clinic comes back otherwise: {done.told}')
    return wrong


def table_of(program, lines):
    """The table that lines make."""
    given = ''.join(line + '\n' for line in [*lines, '{"do":"table"}'])
    done = subprocess.run([program, 'serve'], input=given, capture_output=True, text=True)
    return done.stdout.splitlines()[-1]


def same_table(program):
    """The clinic's table is the same over the documents that its ALFA makes."""
    lines = (CLINIC / 'clinic.jsonl').read_text(encoding='utf-8').splitlines()
    made = Compiler([('clinic.alfa', (CLINIC / 'clinic.alfa').read_bytes())]).made()
    of_alfa = iter(shown({'do': 'policy.add', 'document': each.document}) for each in sorted(
        made, key=lambda each: ['records', 'drugs', 'office', 'emergency', 'clinic'].index(each.name.split('.')[-1])))
    others = [next(of_alfa) if line.startswith('{"do":"policy.add"') else line for line in lines]
    return [] if table_of(program, lines) == table_of(program, others) else ['clinic.alfa makes another table']


def random_documents():
    """Documents of random policies."""
    for seed in range(30):
        text = try_worlds.Text(seed).world(try_worlds.Worlds(seed).world())
        yield from (each.document for each in Compiler([('world', text.encode())]).made())


def run(program):
    """What was tried, in words, what couldn't be, and what was wrong."""
    wrong, unseen = clinic() + same_table(program), []
    forty, listed = ordinary(), usable(program, stored())
    if forty:
        counts, told = alone(forty)
        wrong += told + ([] if counts[0] + counts[1] == NUMBER else [f'of forty ordinary policies {counts} come back'])
    else:
        unseen.append('the forty ordinary policies: there is no lxml (python3-lxml of Debian)')
    counts, told = alone(listed)
    wrong += told
    compared, told = try_script.run([*forty, *listed, *random_documents()])
    if compared is None:
        unseen.append(told[0])
    else:
        wrong += told
    said = (f'{len(forty)} ordinary policies back and forth, of {len(listed)} stored documents {counts[0]} as they are,'
            f' {counts[1]} but for what is told, {counts[2]} that can\'t be said,'
            f' {compared or 0} documents written by the script as by the tool')
    return said, unseen, wrong


