#!/usr/bin/env python3
"""Tries the client: try_client.py ADDRESS, at which a front answers that was told the clinic's lines."""
import asyncio
import json
import socket
import sys
import threading
import time
import unittest
import urllib.request
from http.server import BaseHTTPRequestHandler, ThreadingHTTPServer

from review_client import NO_ANSWER, Client, Refused, made, request_of

BASE = sys.argv.pop(1)
PATIENCE = 120


def call(path, what=None):
    """What the front answers a path, by POST where something is sent."""
    body = None if what is None else json.dumps(what).encode()
    with urllib.request.urlopen(BASE + path, body) as answer:
        return json.load(answer)


def set_role(person, *roles):
    """Sets somebody's roles, and gives the edit's serial."""
    row = {'category': 'AccessSubject', 'entity': person, 'attribute': 'role', 'type': 'string', 'values': roles}
    return call('/commands/attr.set', row)['serial']


def eventually(is_so):
    until = time.monotonic() + PATIENCE
    while time.monotonic() < until:
        if is_so():
            return True
        time.sleep(0.01)
    return False


class Fake:
    """A front that answers what it is told to: `answers` has a function for each path's beginning."""

    def __init__(self, test, answers):
        self.asked = asked = []

        class Handler(BaseHTTPRequestHandler):
            protocol_version = 'HTTP/1.1'

            def do_POST(self):
                self.rfile.read(int(self.headers.get('Content-Length') or 0))
                asked.append(self.path)
                [answer] = [answers[one] for one in answers if self.path.startswith(one)]
                answer(self)

            do_GET = do_POST

            def log_message(self, *_):
                pass

        self.server = ThreadingHTTPServer(('127.0.0.1', 0), Handler)
        self.server.daemon_threads = True
        threading.Thread(target=self.server.serve_forever, daemon=True).start()
        test.addCleanup(self.server.shutdown)
        self.base = 'http://127.0.0.1:%d' % self.server.server_port


def sends(status, what, serial=7):
    """Answers with JSON."""

    def answer(handler):
        body = json.dumps(what).encode()
        handler.send_response(status)
        handler.send_header('Review-Serial', str(serial))
        handler.send_header('Content-Length', str(len(body)))
        handler.end_headers()
        handler.wfile.write(body)

    return answer


def cell_of(serial=7):
    """Answers with the cell that is asked for."""

    def answer(handler):
        person, action, resource = handler.path.split('/')[2:]
        cell = {'person': person, 'action': action, 'resource': resource, 'decision': 'Permit'}
        sends(200, {'cell': cell}, serial)(handler)

    return answer


PERMIT = {'Response': [{'Decision': 'Permit', 'Status': {'StatusCode': {'Value': 'a:ok'}}}]}


class Real(unittest.TestCase):
    """Over a real front."""

    def client(self, **more):
        client = Client(BASE, timeout=60, **more)
        self.addCleanup(client.close)
        return client

    def test_table(self):
        """Cells of the table are answered as the table says, by a client with and without a cache."""
        for client in (self.client(), self.client(cache=1000)):
            for cell in call('/table')['table'][::7]:
                found = client.ask(cell['person'], cell['action'], cell['resource'])
                self.assertEqual(found.decision, cell['decision'].split('{')[0])
                self.assertEqual(list(found.obligations), cell['obligations'])
                self.assertEqual(list(found.advice), cell['advice'])
                self.assertEqual(found.status, cell['status'])

    def test_obligations(self):
        """Obligations are handed over, and who fulfils none of them lets nobody in."""
        found = self.client().ask('ada', 'break-glass', 'record-moss')
        given = []
        self.assertEqual((found.decision, bool(found), found.allowed()), ('Permit', False, False))
        self.assertTrue(found.allowed(lambda one: given.append(one['Id']) is None))
        self.assertEqual(given, ['tell-the-privacy-officer'])
        self.assertFalse(found.allowed(lambda one: False))
        self.assertFalse(found.allowed(lambda one: None))

    def test_more(self):
        """Further attributes go with a question."""
        asked = request_of('a', 'b', 'c', {'Environment': {'n': [1, 2]}, 'Action': {'urgent': True}})['Request']
        self.assertEqual(asked['Environment'], {'Attribute': [{'AttributeId': 'n', 'Value': [1, 2]}]})
        self.assertEqual(asked['Action']['Attribute'][1], {'AttributeId': 'urgent', 'Value': True})
        client = self.client()
        found = client.ask('new', 'read', 'record-moss', {'AccessSubject': {'role': ['doctor']}})
        self.assertIn(found.decision, ('Permit', 'Deny', 'NotApplicable'))
        self.assertEqual(client.decide({'Request': 7}).decision, NO_ANSWER)
        self.assertIn('400', client.decide({'Request': 7}).why)

    def test_at_least(self):
        """Who asks for his own edit's serial is answered of a state that has it."""
        client = self.client()
        serial = set_role('hana', 'trainee')
        found = client.ask('hana', 'write', 'record-moss', at_least=serial)
        self.assertGreaterEqual(found.serial, serial)
        late = Client(BASE, timeout=0.2).ask('hana', 'write', 'record-moss', at_least=serial + 1_000_000)
        self.assertEqual((late.decision, late.allowed(lambda _: True)), (NO_ANSWER, False))

    def test_cache(self):
        """Kept answers aren't asked for, and change with the table; others are asked for each time."""
        client = self.client(cache=100)
        key = 'hana', 'write', 'record-moss'
        set_role('hana', 'trainee')
        self.assertTrue(eventually(lambda: client.ask(*key) is client.ask(*key)))
        for role in ('doctor', 'trainee', 'doctor'):
            set_role('hana', role)
            cell = call('/cells/hana/write/record-moss')['cell']['decision']
            self.assertTrue(eventually(lambda: client.ask(*key).decision == cell))
        sent = client.sent
        self.assertTrue(eventually(lambda: client.ask(*key) is client.ask(*key)))
        serial = set_role('hana', 'trainee')
        self.assertGreaterEqual(client.ask(*key, at_least=serial).serial, serial)
        sent = client.sent
        for _ in range(3):
            client.ask('nobody', 'write', 'record-moss')
        self.assertGreaterEqual(client.sent, sent + 3)
        sent = client.sent
        for _ in range(3):
            client.ask(*key, more={'Environment': {'n': 1}})
        self.assertEqual(client.sent, sent + 3)
        call('/commands/person.add', {'name': 'nobody'})
        self.assertTrue(eventually(lambda: client.ask('nobody', *key[1:]) is client.ask('nobody', *key[1:])))
        call('/commands/person.drop', {'name': 'nobody'})
        sent = client.sent
        self.assertTrue(eventually(lambda: client.ask('nobody', *key[1:]) is not client.ask('nobody', *key[1:])))

    def test_guard(self):
        """A guarded function is called where it is allowed alone, also one that is awaited."""
        client = self.client()
        person = lambda who, _: who
        record = lambda _, name: name

        @client.guard('break-glass', record, person, fulfil=lambda one: True)
        def opened(who, name):
            return who + name

        @client.guard('break-glass', record, person)
        async def opened_later(who, name):
            return who + name

        self.assertEqual(opened('ada', 'record-moss'), 'adarecord-moss')
        with self.assertRaises(Refused):
            opened('nobody', 'record-moss')
        with self.assertRaises(Refused) as raised:
            asyncio.run(opened_later('ada', 'record-moss'))
        self.assertEqual(raised.exception.decision.decision, 'Permit')
        found = asyncio.run(client.ask_async('ada', 'break-glass', 'record-moss'))
        self.assertEqual(found.decision, 'Permit')


class NoAnswer(unittest.TestCase):
    """Where there is no answer, or none yet."""

    def denied(self, client, why):
        found = client.ask('a', 'b', 'c')
        self.assertEqual((found.decision, bool(found), found.allowed(lambda _: True)), (NO_ANSWER, False, False))
        self.assertIn(why, found.why)

    def test_nobody(self):
        with socket.socket() as closed:
            closed.bind(('127.0.0.1', 0))
            self.denied(Client('http://127.0.0.1:%d' % closed.getsockname()[1]), 'no answer')

    def test_silence(self):
        """A front that says nothing is asked twice, and isn't waited for."""
        hang = threading.Event()
        self.addCleanup(hang.set)
        fake = Fake(self, {'/authorize': lambda _: hang.wait(PATIENCE)})
        self.denied(Client(fake.base, timeout=0.1), 'no answer')
        self.assertEqual(len(fake.asked), 2)

    def test_again(self):
        """503 is asked once more; what is wrong with the question isn't."""
        first = [sends(503, {'title': 'not available', 'detail': 'it starts'})]
        fake = Fake(self, {'/authorize': lambda handler: (first.pop() if first else sends(200, PERMIT))(handler)})
        found = Client(fake.base).ask('a', 'b', 'c')
        self.assertEqual((bool(found), len(fake.asked), found.serial), (True, 2, 7))
        fake = Fake(self, {'/authorize': sends(503, {'title': 'not available', 'detail': 'it starts'})})
        self.denied(Client(fake.base), '503 not available: it starts')
        self.assertEqual(len(fake.asked), 2)
        fake = Fake(self, {'/authorize': sends(401, {'title': 'not known'})})
        self.denied(Client(fake.base), '401 not known')
        self.assertEqual(len(fake.asked), 1)

    def test_no_response(self):
        twice, other = PERMIT['Response'] * 2, [{'Decision': 'Yes'}]
        for what in (7, {}, {'Response': []}, {'Response': twice}, {'Response': other}, {'Response': [7]}):
            self.denied(Client(Fake(self, {'/authorize': sends(200, what)}).base), '')
        self.assertEqual(made('Indeterminate{DP}', None, None, 'ok', 1).decision, 'Indeterminate')


class Told(unittest.TestCase):
    """What is told of changes, by a front that says what a test wants."""

    def test_forbidden(self):
        """Who may not listen keeps nothing, and is answered."""
        fake = Fake(self, {'/authorize': sends(200, PERMIT), '/notices': sends(403, {'title': 'not allowed'})})
        client = Client(fake.base, cache=2)
        self.addCleanup(client.close)
        self.assertTrue(eventually(lambda: '/notices' in fake.asked))
        self.assertFalse(self.keeps(client))
        self.assertTrue(client.ask('a', 'b', 'c'))

    def front(self, cell=cell_of()):
        self.events, self.happens = [], threading.Condition()

        def notices(handler):
            handler.send_response(200)
            handler.send_header('Connection', 'close')
            handler.end_headers()
            while True:
                with self.happens:
                    self.assertTrue(self.happens.wait_for(lambda: self.events, PATIENCE))
                    event = self.events.pop(0)
                if event is None:
                    handler.close_connection = True
                    return
                handler.wfile.write(event.encode())

        self.fake = Fake(self, {'/authorize': sends(200, PERMIT), '/cells': cell, '/notices': notices})
        client = Client(self.fake.base, cache=2, silence=PATIENCE)
        self.addCleanup(client.close)
        return client

    def tell(self, event):
        with self.happens:
            self.events.append(event)
            self.happens.notify()

    def keeps(self, client, key=('a', 'b', 'c')):
        return client.ask(*key) is client.ask(*key)

    def test_end(self):
        """Nothing is kept before it is told from where on, and once the telling ends, or says that it does."""
        client = self.front()
        for end in (None, '{"title":"not known","status":401}\n'):
            self.assertFalse(self.keeps(client))
            self.tell('event: from\nid: 7\ndata: {"serial":7}\n\n')
            self.assertTrue(eventually(lambda: self.keeps(client)))
            self.tell(end)
            self.assertTrue(eventually(lambda: not self.keeps(client)))
        self.tell(None)

    def test_older(self):
        """What is of an older state than was told last isn't kept, as what changed in between would stay."""
        client = self.front(cell_of(serial=6))
        self.tell('event: from\nid: 7\ndata: {"serial":7}\n\n')
        self.assertTrue(eventually(lambda: client._cache._told == 7))
        self.assertFalse(self.keeps(client))

    def test_changes(self):
        """A change takes its request away alone, `anew` all; the oldest make room."""
        client = self.front()
        self.tell('event: from\nid: 5\ndata: {"serial":5}\n\n')
        self.assertTrue(eventually(lambda: self.keeps(client)))
        self.assertTrue(self.keeps(client, ('d', 'b', 'c')))
        sent = client.sent
        for serial in (4, 5, 6):
            client.ask('a', 'b', 'c', at_least=serial)
        self.assertEqual(client.sent, sent + 1)
        sent = client.sent
        change = {'person': 'a', 'action': 'b', 'resource': 'c', 'before': 'Permit', 'after': 'Deny'}
        self.tell(':\n\nevent: notices\nid: 6\ndata: ' + json.dumps({'notices': [change]}) + '\n\n')
        self.assertTrue(eventually(lambda: client._cache._told == 6))
        self.assertTrue(self.keeps(client, ('d', 'b', 'c')) and client.sent == sent)
        self.assertTrue(self.keeps(client) and client.sent == sent + 1)
        self.tell('event: anew\nid: 7\ndata: {"serial":7}\n\n')
        self.assertTrue(eventually(lambda: client._cache._told == 7))
        self.assertTrue(self.keeps(client) and client.sent == sent + 2)
        for name in 'def':
            self.keeps(client, (name, 'b', 'c'))
        self.assertEqual(len(client._cache._answers), 2)


if __name__ == '__main__':
    unittest.main(warnings='ignore')
