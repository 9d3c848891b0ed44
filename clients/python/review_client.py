"""Asks a front of `review` for decisions, and denies where there is no answer.

    client = Client('http://127.0.0.1:8080', token='..', cache=10_000)
    if client.ask('ann', 'read', 'record-moss').allowed(fulfil): ..

Python 3.8 and its own library; one client serves any number of threads.
"""
import asyncio
import functools
import http.client
import inspect
import json
import socket
import threading
import time
import urllib.parse
from dataclasses import dataclass
from typing import Any, Tuple

NO_ANSWER = 'NoAnswer'
DECISIONS = ('Permit', 'Deny', 'NotApplicable', 'Indeterminate')
NAMES = {
    'AccessSubject': 'urn:oasis:names:tc:xacml:1.0:subject:subject-id',
    'Action': 'urn:oasis:names:tc:xacml:1.0:action:action-id',
    'Resource': 'urn:oasis:names:tc:xacml:1.0:resource:resource-id',
}
# After which statuses a question is asked once more: there was no reply of the program.
AGAIN = (502, 503, 504)
PAUSE = 0.05


class Refused(PermissionError):
    """What a guarded function raises in place of being called; `decision` says why."""

    def __init__(self, decision):
        super().__init__(decision.why or decision.decision)
        self.decision = decision


@dataclass(frozen=True)
class Decision:
    """What was decided. As a condition it is true for a Permit without obligations alone."""

    decision: str
    obligations: Tuple[Any, ...] = ()
    advice: Tuple[Any, ...] = ()
    status: str = ''
    serial: int = -1
    why: str = ''  # why there is no answer

    def __bool__(self):
        return self.decision == 'Permit' and not self.obligations

    def allowed(self, fulfil=None):
        """Whether access is to be given: a Permit each of whose obligations `fulfil(obligation)` says it fulfilled.

        Those of another decision are handed over too. Without `fulfil` an obligation refuses.
        """
        done = [fulfil is not None and fulfil(one) is True for one in self.obligations]
        return self.decision == 'Permit' and all(done)


class Client:
    """Asks one front. One that says nothing for `timeout` (seconds) has no answer, as one that can't be reached or
    answers 502, 503 or 504; then it is asked once more."""

    def __init__(self, base, token=None, timeout=2.0, cache=0, silence=40.0, context=None):
        """With `cache` answers of so many listed requests of three ids are kept, as long as `/notices` tells what
        changes; after `silence` of it they aren't. That needs the roles read and audit."""
        self._base = urllib.parse.urlsplit(base.rstrip('/'))
        if self._base.scheme not in ('http', 'https') or not self._base.hostname:
            raise ValueError(f'{base} is no address of a front')
        self._head = {} if token is None else {'Authorization': f'Bearer {token}'}
        self._timeout, self._context = timeout, context
        self._own = threading.local()
        self._count, self._counting = 0, threading.Lock()
        self._cache = _Cache(self, cache, silence) if cache > 0 else None

    @property
    def sent(self):
        """How many questions went to the front."""
        return self._count

    def close(self):
        """Ends the listening to what changes."""
        if self._cache is not None:
            self._cache.close()

    def ask(self, person, action, resource, more=None, at_least=None):
        """Asks whether a person may do an action to a resource. `more` has further attributes: by category
        (`Environment` too), then by name, a value or a list of values. `at_least` is a serial that has to be known."""
        if self._cache is not None and not more:
            return self._cache.ask((person, action, resource), at_least)
        return self.decide(request_of(person, action, resource, more), at_least)

    def decide(self, request, at_least=None):
        """Asks any request of one question, as the JSON Profile of XACML has it."""
        status, serial, told = self._send('POST', '/authorize', json.dumps(request), at_least)
        if status != 200:
            return nothing(status, told)
        results = told.get('Response') if isinstance(told, dict) else None
        if not isinstance(results, list) or len(results) != 1 or not isinstance(results[0], dict):
            return Decision(NO_ANSWER, why='the response has not one result')
        one = results[0]
        code = (one.get('Status') or {}).get('StatusCode') or {}
        return made(
            one.get('Decision'), one.get('Obligations'), one.get('AssociatedAdvice'), code.get('Value', ''), serial
        )

    async def ask_async(self, person, action, resource, more=None, at_least=None):
        """As `ask`; where it isn't answered from the cache a thread waits."""
        call = functools.partial(self.ask, person, action, resource, more, at_least)
        return await asyncio.get_running_loop().run_in_executor(None, call)

    def guard(self, action, resource, person, fulfil=None, more=None):
        """A decorator: the function is called where it is allowed, and else `Refused` is raised. Each of `action`,
        `resource`, `person` and `more` may be a function of the call's arguments."""

        def guarded(function):
            def parts(words, keys):
                given = (person, action, resource, more)
                return [one(*words, **keys) if callable(one) else one for one in given]

            def pass_on(decision):
                if not decision.allowed(fulfil):
                    raise Refused(decision)

            @functools.wraps(function)
            def called(*words, **keys):
                pass_on(self.ask(*parts(words, keys)))
                return function(*words, **keys)

            @functools.wraps(function)
            async def awaited(*words, **keys):
                pass_on(await self.ask_async(*parts(words, keys)))
                return await function(*words, **keys)

            return awaited if inspect.iscoroutinefunction(function) else called

        return guarded

    def _send(self, method, path, body, at_least):
        """The status, the serial and the JSON of an answer; status 0, and why, where there is none."""
        head = {**self._head, 'Content-Type': 'application/json'}
        if at_least is not None:
            head['Review-At-Least'] = str(at_least)
        answer = 0, -1, 'no answer'
        for again in (False, True):
            if again:
                time.sleep(PAUSE)
            try:
                answer = self._send_once(method, path, body, head)
            except (OSError, http.client.HTTPException, ValueError) as error:
                answer = 0, -1, f'no answer: {error!r}'
            if answer[0] != 0 and answer[0] not in AGAIN:
                return answer
            self._drop()
        return answer

    def _send_once(self, method, path, body, head):
        with self._counting:
            self._count += 1
        connection = getattr(self._own, 'connection', None)
        if connection is None:
            connection = self._own.connection = self._connect(self._timeout)
        connection.request(method, self._base.path + path, body, head)
        answer = connection.getresponse()
        content = answer.read()
        serial = int(answer.headers.get('Review-Serial', -1))
        return answer.status, serial, json.loads(content)

    def _connect(self, timeout):
        if self._base.scheme == 'https':
            return http.client.HTTPSConnection(
                self._base.hostname, self._base.port, timeout=timeout, context=self._context
            )
        return http.client.HTTPConnection(self._base.hostname, self._base.port, timeout=timeout)

    def _drop(self):
        connection = getattr(self._own, 'connection', None)
        if connection is not None:
            connection.close()
            self._own.connection = None


class _Cache:
    """Answers of listed requests, which are those of the table. One is kept if it is of a state at least as new as what
    was told last: what changes it later is told later."""

    def __init__(self, client, most, silence):
        self._client, self._most, self._silence = client, most, silence
        self._lock, self._answers = threading.Lock(), {}
        self._told = None  # up to which serial changes were told; None: nobody tells
        self._closed, self._stream = threading.Event(), None
        threading.Thread(target=self._listen, name='review-notices', daemon=True).start()

    def close(self):
        self._closed.set()
        self._begin(None)
        if self._stream is not None:
            try:
                self._stream.shutdown(socket.SHUT_RDWR)
            except OSError:
                pass

    def ask(self, key, at_least):
        with self._lock:
            fresh = self._told is not None and (at_least is None or at_least <= self._told)
            kept, listening = self._answers.get(key) if fresh else None, self._told is not None
        if kept is not None:
            return kept
        if not listening:
            return self._client.decide(request_of(*key, None), at_least)
        path = '/cells/' + '/'.join(urllib.parse.quote(one, safe='') for one in key)
        status, serial, told = self._client._send('GET', path, None, at_least)
        cell = told.get('cell') if status == 200 and isinstance(told, dict) else None
        if not isinstance(cell, dict) or tuple(cell.get(one) for one in ('person', 'action', 'resource')) != key:
            # It isn't listed, or who asks may not read the table.
            return self._client.decide(request_of(*key, None), at_least)
        found = made(cell.get('decision'), cell.get('obligations'), cell.get('advice'), cell.get('status', ''), serial)
        with self._lock:
            if self._told is not None and serial >= self._told and found.decision != NO_ANSWER:
                self._answers.pop(key, None)
                while len(self._answers) >= self._most:
                    self._answers.pop(next(iter(self._answers)))
                self._answers[key] = found
        return found

    def _begin(self, serial):
        with self._lock:
            self._told = serial
            self._answers.clear()

    def _listen(self):
        while not self._closed.is_set():
            try:
                self._hear()
            except (OSError, http.client.HTTPException, ValueError, KeyError, TypeError):
                pass
            self._begin(None)
            self._closed.wait(1.0)

    def _hear(self):
        connection = self._client._connect(self._silence)
        try:
            connection.request('GET', self._client._base.path + '/notices', headers=self._client._head)
            self._stream = connection.sock
            answer = connection.getresponse()
            event = {}
            while answer.status == 200 and not self._closed.is_set():
                line = answer.readline().decode()
                word, _, rest = line.rstrip('\n').partition(': ')
                if word in ('event', 'id', 'data'):
                    event[word] = rest
                elif line == '\n' and 'data' in event:
                    self._tell(event['event'], int(event['id']), event['data'])
                    event = {}
                elif not line.startswith(('\n', ':')):
                    return  # the end, or a line that says why it ends
        finally:
            connection.close()

    def _tell(self, kind, serial, data):
        if kind != 'notices':
            self._begin(serial)
            return
        changed = [(one['person'], one['action'], one['resource']) for one in json.loads(data)['notices']]
        with self._lock:
            self._told = serial
            for key in changed:
                self._answers.pop(key, None)


def request_of(person, action, resource, more):
    """A request of three ids, with further attributes."""
    asked = {}
    for category, name in zip(NAMES, (person, action, resource)):
        asked[category] = {'Attribute': [{'AttributeId': NAMES[category], 'DataType': 'string', 'Value': name}]}
    for category, attributes in (more or {}).items():
        those = asked.setdefault(category, {'Attribute': []})['Attribute']
        those += [{'AttributeId': name, 'Value': value} for name, value in attributes.items()]
    return {'Request': asked}


def made(decision, obligations, advice, status, serial):
    """A decision of what was answered. An Indeterminate of the table says more behind a brace."""
    word = decision.split('{')[0] if isinstance(decision, str) else ''
    if word not in DECISIONS:
        return Decision(NO_ANSWER, why=f'the decision {decision!r} is none')
    return Decision(word, tuple(obligations or ()), tuple(advice or ()), status.split(':')[-1], serial)


def nothing(status, told):
    """What stands for a decision where there is none."""
    if isinstance(told, dict):
        told = ': '.join(str(told[key]) for key in ('title', 'detail') if key in told)
    return Decision(NO_ANSWER, why=f'{status} {told}' if status else str(told))
