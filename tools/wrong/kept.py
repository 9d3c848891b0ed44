"""What was tried on this machine and may be taken as it was: verdicts, by a sum of all that they rest on."""
import hashlib
import json
import os
import pathlib

from . import batches, trying

FOLDER = pathlib.Path(os.environ.get('XDG_CACHE_HOME') or pathlib.Path.home() / '.cache') / 'review-wrong-bodies'


def sum_below(crate, libraries, version):
    """A sum of the prover, of what reads its words, and of the libraries below a crate as they were built."""
    reader = pathlib.Path(__file__).parent / 'verdicts.py'
    said = [version, *libraries.named[crate], reader.read_text(encoding='utf-8')]
    said += [(libraries.built(name) / 'format').read_text(encoding='utf-8') for name in libraries.below(crate)]
    return hashlib.sha256('\n'.join(said).encode()).hexdigest()


class Kept:
    """The verdicts on bodies of a crate, each by a sum of the copy in which the body is tried alone. So an edit of another
    function, of its proof, or of a page loses none."""

    def __init__(self, functions, below, is_anew):
        self.functions, self.below, self.is_anew = functions, below, is_anew

    def _path(self, body):
        texts = trying.copied(self.functions, batches.alone(body))
        proved = self.functions.proved_with(body.function)
        said = json.dumps([self.below, self.functions.crate.name, body.function, proved, sorted(texts.items())])
        return FOLDER / hashlib.sha256(said.encode()).hexdigest()

    def get(self, body):
        if self.is_anew:
            return None
        try:
            return json.loads(self._path(body).read_text(encoding='utf-8'))
        except (OSError, ValueError):
            return None

    def put(self, body, verdict):
        try:
            FOLDER.mkdir(parents=True, exist_ok=True)
            new = self._path(body).with_suffix(f'.{os.getpid()}')
            new.write_text(json.dumps(verdict), encoding='utf-8')
            new.replace(self._path(body))
        except OSError:
            pass
