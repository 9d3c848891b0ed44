"""A run over wrong bodies: of each crate what has to be tried, in batches, and what became of each body."""
import signal
import subprocess
import sys
import threading
import time

from . import batches, functions, kept, trying, verdicts
from .behind import Dropped
from .edits import Fault


class Trial:
    """Tries the wrong bodies of crates, and gathers what became of each."""

    def __init__(self, libraries, lanes, waiting, is_anew, count):
        self.libraries, self.lanes, self.waiting, self.is_anew = libraries, lanes, waiting, is_anew
        self.version = subprocess.run(['rt', 'version'], capture_output=True, text=True, check=True).stdout.strip()
        self.told, self.count, self.alone = [], count, threading.Lock()

    def tell(self, body, verdict):
        """Prints what became of a body."""
        by = f' ({", ".join(verdict.by)})' if verdict.by else f': {verdict.said}' if verdict.said else ''
        right = is_right(body, verdict)
        asked = '' if right or body.as_control or not verdict.by else f'; its head says {body.edit.by or "nothing"}'
        asked += '; answered by hand, so it shows nothing' if right and body.edit.by_hand else ''
        place = body.function or 'no function'
        self.say(f'{"ok    " if right else "FAILED"} {body.label} in {place}: {verdict.kind}{by}{asked}')
        with self.alone:
            self.told.append((body, verdict))

    def say(self, line):
        with self.alone:
            sys.stdout.write(line + '\n')
            sys.stdout.flush()

    def of_crate(self, crate, found):
        """Tells what is known of these edits of a crate and their controls; the others wait, in batches."""
        try:
            named = functions.Functions(crate, self.libraries.built(crate.name))
            memory = kept.Kept(named, kept.sum_below(crate.name, self.libraries, self.version), self.is_anew)
        except (Fault, OSError) as fault:
            for edit in found:
                self.tell(batches.Body(edit, False, ''), verdicts.Verdict(verdicts.NOT_TRIED, [], str(fault)))
            return
        fresh = []
        for edit, as_control in asked_of(found):
            try:
                body = batches.body_of(edit, named, as_control)
            except Fault as fault:
                self.tell(batches.Body(edit, as_control, ''), verdicts.Verdict(verdicts.BAD, [], str(fault)))
                continue
            known = memory.get(body)
            if known:
                self.tell(body, verdicts.Verdict(*known))
            else:
                fresh.append(body)
        for batch in batches.in_batches(crate, fresh, named):
            # (each check reads the whole crate, and so takes as long as some bodies before it comes to the first)
            length = len(named.written) * (len(batch.bodies) + 4)
            self.waiting.put(length, lambda batch=batch: self.batch(named, batch, memory))

    def batch(self, named, batch, memory):
        """Tries a batch. A text that can't be read shows nothing of the others: they are tried again in halves."""
        status, lines = self.check(named, batch)
        unseen = []
        for body in batch.bodies:
            proved = (body.tried, [body.tried]) if body.is_beside else named.proved_with(body.function)
            verdict = verdicts.of(lines, named.crate.name, *proved, status)
            if verdict.kind in (verdicts.BAD, verdicts.NOT_TRIED) and len(batch.bodies) > 1:
                unseen.append(body)
                continue
            if verdict.kind != verdicts.NOT_TRIED:
                memory.put(body, [verdict.kind, verdict.by, verdict.said])
            self.tell(body, verdict)
        middle = (len(unseen) + 1) // 2
        for half in filter(None, (unseen[:middle], unseen[middle:])):
            for smaller in batches.in_batches(named.crate, half, named):
                self.batch(named, smaller, memory)

    def check(self, named, batch):
        """What a check says of a batch. One that was killed, most likely for memory, is done once more, alone."""
        for is_alone in [False, True]:
            with self.lanes.lane(is_alone):
                if self.waiting.is_dropped:
                    raise Dropped
                began = time.monotonic()
                status, lines = trying.check(named, self.libraries, batch, self.lanes.is_beside())
                took = time.monotonic() - began
            how = f'{len(batch.bodies)} in {took:.0f} s; {len(self.told)} of {self.count} were told before'
            self.say(f'wrong bodies of {named.crate.name}: {how}')
            if status != -signal.SIGKILL:
                break
        return status, lines


def asked_of(found):
    """Each body that edits make: the wrong one and its control, or one that is to be seen to be a control alone."""
    for edit in found:
        if not edit.is_sought:
            yield edit, False
        if edit.has_control:
            yield edit, True


def is_right(body, verdict):
    """Whether a body was refused by what its head says, or a control not at all."""
    if body.as_control:
        return verdict.kind == verdicts.NOT_REFUSED
    return verdict.kind in verdicts.REFUSED and body.edit.by in verdict.by
