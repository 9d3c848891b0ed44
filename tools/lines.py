#!/usr/bin/python3
"""What differs between a folder of policies and what is stored, as lines.

    lines.py FOLDER [--state STATE | --front URL [--token FILE]] [--root ID] [--withdraw] [--try] [--send]

The folder's files in ALFA (.alfa, one world), in XML (.xml) and in JSON (.json) are documents. Against those that the
lines of a dump store, or a front, or nothing, each that is new or another is a line on standard output, behind those to
which it refers; the root, where it is another, is the last. It is the document of the id that --root says; where no
root is set, the only one to which no other refers. A document that is stored and doesn't stand in the folder is told,
and with --withdraw a line too. Descriptions aren't kept by the service, so they aren't compared.

--try     asks the front what the lines would change, and tells who gains and who loses a Permit.
--send    sends the lines to the front, all or none, and only while nothing was edited in between.
--token   the token of whom the front knows, in a file.

The status is 0 where all went well, 1 where something is wrong or the front refuses a line, and 2 where a file can't be
read or the front doesn't answer. XML needs python3-lxml of Debian."""
import argparse
import http.client
import json
import pathlib
import re
import sys
import urllib.error
import urllib.request

from alfa_form import folder
from xacml_form.shown import shown

MOST_EDITS, MOST_BYTES, MOST_TOLD = 1024, 1048576, 50


class NoReply(Exception):
    """A front that doesn't answer as one."""


def say(*lines):
    for line in lines:
        print(line, file=sys.stderr)


class Front:
    """A front, at its address."""

    def __init__(self, address, token):
        self.address, self.headers = address.rstrip('/'), {'Authorization': f'Bearer {token}'} if token else {}

    def asked(self, path, body=None, headers=None):
        """The status of an answer, its text, and the serial that it knows of."""
        request = urllib.request.Request(self.address + path, body, self.headers | (headers or {}))
        try:
            with urllib.request.urlopen(request) as answer:
                return answer.status, answer.read().decode(), answer.headers.get('Review-Serial')
        except urllib.error.HTTPError as problem:
            return problem.code, problem.read().decode(), None

    def answered(self, path, body=None):
        """An answer, and the serial that it knows of."""
        status, text, serial = self.asked(path, body)
        if status != 200:
            raise NoReply(f'{path} is answered {status} {text.strip()[:300]}')
        return text, serial

    def held(self):
        """What it holds, and the serial at which it was asked: who edits meanwhile makes that an older one."""
        text, serial = self.answered('/state')
        root = json.loads(text)['state']['root']
        listed = json.loads(self.answered('/documents')[0])['documents']
        ids = sorted({each['id'] for each in listed})
        asked = ''.join(shown({'do': 'documents', 'id': each}) + '\n' for each in ids)
        replies = self.answered('/lines', asked.encode())[0].splitlines() if ids else []
        found = [each for reply in replies for each in json.loads(reply)['documents']]
        return folder.Held(folder.of_modules((each['module'], each['document']) for each in found), root), serial


def told(status, text, lines):
    """What a front says of lines that it doesn't take, with the file of the line that it names."""
    try:
        problem = json.loads(text)
        refused = [str(problem[key]) for key in ('refused', 'sub') if key in problem]
        what = f'{problem.get("title")}: {problem.get("detail")}'
        what += f' (refused {" ".join(refused)})' if refused else ''
    except ValueError:
        problem, what = {}, text.strip()[:300]
    named = re.search(r'(?:line|edit) (\d+)', str(problem.get('detail', '')))
    number = int(named[1]) if named and 1 <= int(named[1]) <= len(lines) else None
    where = f'{lines[number - 1].file or "line " + str(number)}: ' if number else ''
    say(f'lines.py: {where}the front says {status}, {what}')


def permits(cell):
    """Whether a cell, or none, permits."""
    return cell is not None and cell['decision'] == 'Permit'


def tried(front, lines):
    """Asks what lines would change, and tells it."""
    status, text, _ = front.asked('/lines?dry=1', body_of(lines))
    if status != 200:
        told(status, text, lines)
        return 1 if status < 500 else 2
    found = json.loads(text)
    changed = [(each['before'], each['after']) for each in found['decisions']]
    gains = [after for before, after in changed if permits(after) and not permits(before)]
    losses = [before for before, after in changed if permits(before) and not permits(after)]
    for word, cells in [('gains', gains), ('loses', losses)]:
        for cell in cells[:MOST_TOLD]:
            rules = ', '.join(f'{why["path"][-1][1]} {why["rule"] or "(default)"}' for why in cell['why'])
            say(f'{cell["person"]} {word} {cell["action"]} of {cell["resource"]} ({rules})')
        if len(cells) > MOST_TOLD:
            say(f'and {len(cells) - MOST_TOLD} more')
    others = len(changed) - len(gains) - len(losses)
    say(f'{len(gains)} gain, {len(losses)} lose, {others} have another decision, {len(found["reasons"])} another'
        ' reason')
    return 0


def body_of(lines):
    """Lines as they are sent."""
    return ''.join(shown(each.command) + '\n' for each in lines).encode()


def sent(front, lines, serial):
    """Sends lines, all or none, behind a serial."""
    body = body_of(lines)
    if len(lines) > MOST_EDITS or len(body) > MOST_BYTES:
        say(f'lines.py: more than {MOST_EDITS} edits or {MOST_BYTES} bytes aren\'t made all or none: send them by hand')
        return 1
    status, text, _ = front.asked('/lines?whole=1', body, {'If-Match': serial})
    if status != 200:
        told(status, text, lines)
        return 1 if status < 500 else 2
    changes = [json.loads(line) for line in text.splitlines()]
    say(f'{len(changes)} lines were taken: {sum(each.get("changes", 0) for each in changes)} answers changed')
    return 0


def root_of(options, entries, stored):
    """The reference to the root, or None where it stays; and whether that can be said."""
    if options.root is None and stored.root is not None:
        return None, True
    found = [each for each in entries if options.root in (folder.key(each.document)[1],)]
    if options.root is None:
        found = folder.tops(entries)
        if len(found) != 1:
            say(f'note: no root is set, and {len(found)} documents could be it: say --root')
            return None, True
    if not found:
        say(f'lines.py: nothing in the folder has the id {options.root}')
        return None, False
    kind, one, _ = folder.key(found[0].document)
    return {f'{kind}IdReference': {'Id': one}}, True


def run(options):
    front, serial, stored = None, None, folder.held([])
    if options.front:
        token = options.token.read_text(encoding='utf-8').strip() if options.token else None
        front = Front(options.front, token)
        stored, serial = front.held()
    elif options.state:
        stored = folder.held(pathlib.Path(options.state).read_text(encoding='utf-8').splitlines())
    entries = folder.read(options.folder, say)
    if entries is None:
        return 1
    root, is_good = root_of(options, entries, stored)
    if not is_good:
        return 1
    lines = folder.differing(entries, stored, root, options.withdraw)
    if not options.withdraw:
        say(*(f'note: {folder.called(name)} is stored, and doesn\'t stand in the folder'
              for name in folder.left(entries, stored)))
    sys.stdout.write(body_of(lines).decode())
    sys.stdout.flush()
    if not lines:
        say('nothing differs')
        return 0
    status = tried(front, lines) if options.tries else 0
    return sent(front, lines, serial) if options.send and status == 0 else status


def main():
    parser = argparse.ArgumentParser(description=__doc__, formatter_class=argparse.RawDescriptionHelpFormatter)
    parser.add_argument('folder', metavar='FOLDER')
    beside = parser.add_mutually_exclusive_group()
    beside.add_argument('--state', metavar='STATE', help='compare with the lines of a dump')
    beside.add_argument('--front', metavar='URL', help='compare with what a front serves')
    parser.add_argument('--token', metavar='FILE', type=pathlib.Path, help='the token for the front')
    parser.add_argument('--root', metavar='ID', help='the document that is to be the root')
    parser.add_argument('--withdraw', action='store_true', help='withdraw what doesn\'t stand in the folder')
    parser.add_argument('--try', dest='tries', action='store_true', help='tell who gains and who loses')
    parser.add_argument('--send', action='store_true', help='send the lines, all or none')
    options = parser.parse_args()
    if (options.tries or options.send) and not options.front:
        parser.error('--try and --send need --front')
    try:
        return run(options)
    except (ValueError, KeyError) as fault:
        say(f'lines.py: no lines of a dump: {fault}')
        return 1
    except NoReply as fault:
        say(f'lines.py: {fault}')
    except (OSError, http.client.HTTPException) as fault:
        say(f'lines.py: {fault}')
    return 2


if __name__ == '__main__':
    sys.exit(main())
