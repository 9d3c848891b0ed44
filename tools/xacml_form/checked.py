"""What `review check` says of documents, each fault at the place in the XML from which the part of the document
came."""
import pathlib
import re
import subprocess
import tempfile

from .told import FAULT, WARNING, Placed

LINE = re.compile(r'(?:(/\S*): (?:line \d+, column \d+: )?)?(.*)', re.DOTALL)


class NoAnswer(Exception):
    """A program that doesn't say of each document whether it can be used."""


def check(program, stored, brought, text_of):
    """Tells of each document that was brought what the program says of it, and of them together; what it says of the
    state beside them is given back."""
    with tempfile.TemporaryDirectory() as folder:
        files = {str(pathlib.Path(folder) / f'{number}.json'): each for number, each in enumerate(brought)}
        for file, each in files.items():
            pathlib.Path(file).write_text(text_of(each.document), encoding='utf-8')
        words = [program, 'check', '--all', *(['--stored', stored] if stored else []), *files]
        ran = subprocess.run(words, capture_output=True, text=True, encoding='utf-8')
    said = ran.stdout.splitlines()
    if ran.returncode not in (0, 1) or len(said) != len(files):
        raise NoAnswer(ran.stderr.strip() or f'{program} check ended with {ran.returncode}')
    beside = told_lines(ran.stderr.splitlines(), files)
    for each, line in zip(brought, said):
        if not line.startswith('ok ') and not each.told.holds(FAULT):
            each.told.tell(FAULT, place_of(each.document, '/'), f'`review check` says {line}')
    return beside


def told_lines(lines, files):
    """Tells each line at its file; those of the state are given back. Counts and sentences on sub-codes have no
    place."""
    beside = []
    for line in lines:
        weight = WARNING if line.startswith('warning: ') else FAULT
        line = line.removeprefix('warning: ')
        file = next((each for each in files if line.startswith(each + ': ')), None)
        for path, each in files.items():
            line = line.replace(path, each.file)
        if file is not None:
            pointer, what = LINE.fullmatch(line.removeprefix(files[file].file + ': ')).groups()
            files[file].told.tell(weight, place_of(files[file].document, pointer or '/', what), what)
        elif not line.startswith('review: '):
            beside.append(line if weight == FAULT else f'{WARNING}: {line}')
    return beside


def place_of(document, pointer, what=''):
    """The place of the XML from which the part at a JSON pointer came, or the smallest part around it that has one;
    where a list has two members of one id, which is named, that of the second."""
    value, place = document, next(iter(document.values())).place
    for step in pointer.split('/')[1:]:
        outer = value
        if isinstance(value, list) and step.isdigit() and int(step) < len(value):
            value = value[int(step)]
        elif isinstance(value, dict) and step in value:
            value = value[step]
        else:
            break
        if isinstance(value, Placed):
            place = value.place
        elif isinstance(outer, Placed) and not isinstance(value, (dict, list)):
            place = outer.place_of(step)
    if isinstance(value, list):
        ids = re.findall('`(.*?)`', what)
        named = [each for each in value if each.get('RuleId') in ids or each.get('VariableId') in ids]
        return named[1].place if len(named) > 1 else place
    inside = [each for each in value.values() if isinstance(each, Placed)] if isinstance(value, dict) else []
    return inside[0].place if len(inside) == len(value) == 1 and not isinstance(value, Placed) else place
