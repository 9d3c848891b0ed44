"""Forty ordinary policies come over, `check` has no warning of them or of any other that came over, and each decides
what its author meant."""
import json
import pathlib
import subprocess
import sys
import tempfile

from . import driver
from .ordinary_offices import OFFICES
from .ordinary_services import SERVICES
from .written import request

ORDINARY = OFFICES + SERVICES
NUMBER = 40


def checked(program, folder):
    """What `check` says of the documents of a folder beside that each can be used."""
    done = subprocess.run([program, 'check', '--strict', folder], capture_output=True, text=True)
    return done.stderr.splitlines() or [f'check had status {done.returncode}'] if done.stderr or done.returncode else []


def brought(tool, files, folder):
    """The files as documents in a folder, by their stems."""
    done = subprocess.run(
        [sys.executable, str(tool), 'policy', '-o', str(folder), *map(str, files)], capture_output=True, text=True
    )
    documents = {each.stem: json.loads(each.read_text()) for each in folder.iterdir()}
    return documents, [] if len(documents) == len(files) else done.stderr.splitlines()


def decided(program, documents):
    """What is decided otherwise than the authors meant: all are stored, and each is the root of its requests."""
    service = driver.Service(program)
    replies = service.answers([{'do': 'policy.add', 'document': document} for document in documents.values()])
    yield from (f'stored: {reply}' for reply in replies if 'refused' in reply)
    for name, _, asked in ORDINARY:
        kind = next(iter(documents.get(name, {'Policy': None})))
        service.answer(do='root.set', reference={f'{kind}IdReference': {'Id': name}})
        found = service.decisions([request(values) for values, _ in asked])
        meant = [decision for _, decision in asked]
        if found != meant:
            yield f'{name} decided {found}, and not {meant}'
    service.close()


def run(tool, program, others):
    """How many were asked how many requests, and what was wrong; the others are files that came over."""
    wrong = [] if len({each.name for each in ORDINARY}) == NUMBER else [f'{len(ORDINARY)} ordinary policies']
    with tempfile.TemporaryDirectory() as place:
        folders = [pathlib.Path(place, name) for name in ('xml', 'ordinary', 'others')]
        for folder in folders:
            folder.mkdir()
        for each in ORDINARY:
            (folders[0] / f'{each.name}.xml').write_text(each.text)
        documents, told = brought(tool, sorted(folders[0].iterdir()), folders[1])
        _, more = brought(tool, others, folders[2])
        wrong += told + more + [line for folder in folders[1:] for line in checked(program, folder)]
    return sum(len(each.asked) for each in ORDINARY), wrong + list(decided(program, documents))
