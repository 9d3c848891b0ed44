"""XML made to hurt: each file ends with a sentence and status 1 within seconds of a processor and a bounded memory, and
reads nothing else."""
import pathlib
import resource
import subprocess
import sys
import tempfile

from . import names
from .driver import F1

HEAD = (
    f'<Policy xmlns="{names.NAMESPACE}" PolicyId="p" Version="1"'
    ' RuleCombiningAlgId="urn:oasis:names:tc:xacml:3.0:rule-combining-algorithm:deny-overrides">'
)
MOST_MEMORY = 1024 * 1024 * 1024
MOST_SECONDS, MOST_WAITING = 20, 300


def files(folder):
    """Each file's name, what stands in it, and a word of what is told of it; None where it is read."""
    secret = folder / 'secret'
    secret.write_text('told to nobody')
    laughs = (
        '<!DOCTYPE Policy [<!ENTITY a "ha">'
        + ''.join(f'<!ENTITY {chr(98 + n)} "{f"&{chr(97 + n)};" * 10}">' for n in range(12))
        + ']>'
    )
    square = '<!DOCTYPE Policy [<!ENTITY a "' + 'x' * 200000 + '">]>'
    yield 'laughs', f'{laughs}{HEAD}<Description>&m;</Description><Target/></Policy>', 'amplification'
    yield 'square', f'{square}{HEAD}<Description>{"&a;" * 2000}</Description><Target/></Policy>', ''
    told = f'{HEAD}<Description>&a;</Description><Target/></Policy>'
    yield 'outside', f'<!DOCTYPE Policy [<!ENTITY a SYSTEM "file://{secret}">]>{told}', 'outside the file'
    yield 'parameter', f'<!DOCTYPE Policy [<!ENTITY % a SYSTEM "file://{secret}"> %a;]>{told}', 'outside the file'
    yield 'network', f'<!DOCTYPE Policy [<!ENTITY a SYSTEM "http://127.0.0.1:9/a">]>{told}', 'outside the file'
    yield 'definition', f'<!DOCTYPE Policy SYSTEM "file://{secret}">{HEAD}<Target/></Policy>', None
    yield 'defaults', f'<!DOCTYPE Policy [<!ATTLIST Rule Effect CDATA "Permit">]>{HEAD}<Target/></Policy>', 'by default'
    yield 'unknown_entity', f'{HEAD}<Description>&a;</Description><Target/></Policy>', 'undefined entity'
    yield 'levels', HEAD + '<Target>' * 1000 + '</Target>' * 1000 + '</Policy>', 'levels'
    deep = f'<Apply FunctionId="{F1("not")}">' * 190 + '</Apply>' * 190
    yield 'deep', f'{HEAD}<Target/><Rule RuleId="r" Effect="Permit"><Condition>{deep}</Condition></Rule></Policy>', None
    yield 'big', HEAD + ' ' * 100_000_000 + '</Policy>', 'bytes'
    yield 'wide', HEAD + '<Target/>' + ''.join(
        f'<Rule RuleId="r{n}" Effect="Permit"/>' for n in range(200_000)
    ) + '</Policy>', None
    yield 'many', HEAD + ''.join(f'<Rule x="{n}"/>' for n in range(100_000)) + '</Policy>', '100000 times'
    yield 'attribute', HEAD.replace('PolicyId="p"', f'PolicyId="{"p" * 9_000_000}"') + '<Target/></Policy>', None
    yield 'twice', HEAD.replace('Version="1"', 'Version="1" Version="2"') + '<Target/></Policy>', 'duplicate attribute'
    yield 'open', HEAD + '<Target>', 'no XML'
    yield 'nothing', '', 'no XML'
    yield 'comment', '<!-- nothing -->', 'no XML'
    yield 'nul', HEAD + '\0<Target/></Policy>', 'no XML'
    yield 'prefix', '<x:Policy PolicyId="p"/>', 'no XML'
    yield 'other', '<Policy xmlns="urn:other"/>', 'the namespace urn:other'
    yield 'older', '<Policy xmlns="urn:oasis:names:tc:xacml:2.0:policy:schema:os"><Target/></Policy>', 'XACML 2.0'
    yield 'none', '<Policy PolicyId="p"/>', '(none)'
    yield 'json', '{"Policy":{}}', 'no XML'
    yield 'request', f'<Request xmlns="{names.NAMESPACE}"/>', 'Request at the root'


def bounded():
    resource.setrlimit(resource.RLIMIT_AS, (MOST_MEMORY, MOST_MEMORY))
    resource.setrlimit(resource.RLIMIT_CPU, (MOST_SECONDS, MOST_SECONDS))


def run(tool):
    """How many files were tried, and what was wrong."""
    wrong, count = [], 0
    with tempfile.TemporaryDirectory() as name:
        folder = pathlib.Path(name)
        for stem, text, word in files(folder):
            file = folder / f'{stem}.xml'
            file.write_text(text, encoding='utf-8')
            count += 1
            try:
                ran = subprocess.run(
                    [sys.executable, str(tool), 'policy', '-o', str(folder / 'out'), str(file)],
                    capture_output=True,
                    text=True,
                    timeout=MOST_WAITING,
                    preexec_fn=bounded,
                )
            except subprocess.TimeoutExpired:
                wrong.append(f'{stem}: no answer within {MOST_WAITING} seconds')
                continue
            expected = 0 if word is None else 1
            if (
                ran.returncode != expected
                or (word or '') not in ran.stderr
                or 'Traceback' in ran.stderr
                or 'told to nobody' in ran.stdout + ran.stderr
            ):
                wrong.append(f'{stem}: status {ran.returncode}: {ran.stderr[-300:]}')
            file.unlink()
        if any('told to nobody' in made.read_text() for made in (folder / 'out').glob('*.json')):
            wrong.append('a file outside was read')
    return count, wrong
