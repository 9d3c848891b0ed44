#!/usr/bin/env python3
"""Tries tools/leave.py over a pipe of the program that is named: try_leave.py PROGRAM.

Of a person of the clinic who leaves, and of none else, nothing is left in the dump, and what she asks isn't permitted
any more. Who was dropped before loses her values, a name of which nothing is known is told, and so is a pipe that gives
no reply, or refuses."""
import json
import pathlib
import subprocess
import sys

TOP = pathlib.Path(__file__).resolve().parents[1]
CLINIC = TOP / 'examples' / 'clinic' / 'clinic.jsonl'
SUBJECT = 'urn:oasis:names:tc:xacml:1.0:subject-category:access-subject'
WRITES = {'Request': {
    'AccessSubject': [{'Attribute': [{'AttributeId': 'urn:oasis:names:tc:xacml:1.0:subject:subject-id',
                                      'Value': 'ada'}]}],
    'Action': [{'Attribute': [{'AttributeId': 'urn:oasis:names:tc:xacml:1.0:action:action-id', 'Value': 'write'}]}],
    'Resource': [{'Attribute': [{'AttributeId': 'urn:oasis:names:tc:xacml:1.0:resource:resource-id',
                                 'Value': 'record-moss'}]}]}}


class Service:
    """A service with the clinic."""

    def __init__(self, program):
        self.process = subprocess.Popen([program, 'serve'], stdin=subprocess.PIPE, stdout=subprocess.PIPE, bufsize=0)
        for line in CLINIC.read_text(encoding='utf-8').splitlines():
            self.asked(json.loads(line))

    def asked(self, line):
        self.process.stdin.write(json.dumps(line).encode() + b'\n')
        return json.loads(self.process.stdout.readline())

    def dump(self):
        return [json.loads(line) for line in self.asked({'do': 'dump'})['dump']]

    def decision(self):
        return self.asked({'do': 'ask', 'request': WRITES})['Response'][0]['Decision']

    def leaves(self, name):
        """The status of the tool, and what it says."""
        return leaves(name, self.process.stdout, self.process.stdin)


def leaves(name, replies, lines):
    words = [sys.executable, str(TOP / 'tools' / 'leave.py'), name]
    ran = subprocess.run(words, stdin=replies, stdout=lines, stderr=subprocess.PIPE, text=True)
    return ran.returncode, ran.stderr


def is_hers(line, name):
    if line['do'] == 'person.add':
        return line['name'] == name
    return line.get('entity') == name and line['category'] == SUBJECT


def faults(program):
    service = Service(program)
    before = service.dump()
    if service.decision() != 'Permit':
        yield 'who is to leave may not write before'
    status, told = service.leaves('ada')
    if status or 'dropped: 60 answers went' not in told or 'of medical board' not in told:
        yield f'ada leaves: status {status}: {told}'
    after = service.dump()
    if after != [line for line in before if not is_hers(line, 'ada')] or len(after) == len(before):
        yield f'the dump behind it is {after}'
    if service.decision() == 'Permit':
        yield 'who left may still write'
    if service.leaves('ada') != (1, 'ada: was not listed\nada: nothing is known of that name\n'):
        yield 'who left leaves again'
    service.asked({'do': 'person.drop', 'name': 'emil'})
    status, told = service.leaves('emil')
    if status or not told.startswith('emil: was not listed\n') or any(is_hers(line, 'emil') for line in service.dump()):
        yield f'emil, who was dropped, leaves: status {status}: {told}'
    if leaves('ada', subprocess.DEVNULL, subprocess.DEVNULL)[0] != 2:
        yield 'a pipe that is closed'
    refusing = subprocess.Popen(['echo', '{"refused":15}'], stdout=subprocess.PIPE)
    if leaves('ada', refusing.stdout, subprocess.DEVNULL) != (1, 'ada: attributes: {"refused": 15}\n'):
        yield 'a service without memory'
    refusing.wait()
    service.process.stdin.close()
    service.process.wait()


def main():
    if len(sys.argv) != 2:
        print('try_leave.py PROGRAM', file=sys.stderr)
        return 2
    found = list(faults(str(pathlib.Path(sys.argv[1]).resolve())))
    for fault in found:
        print(f'try_leave.py: {fault}')
    print('somebody leaves: as it should be' if not found else 'somebody leaves: not as it should be')
    return 1 if found else 0


if __name__ == '__main__':
    sys.exit(main())
