"""Which wrong bodies the gate's prover tries. Always those whose refusal tells something that nothing else does: of a
function whose contract leaves something open, with a control, and those whose head says `always`. Of the others a part
that changes with the commit, by crates where nothing of a crate is tried otherwise, since most of a check is to read
it. Those that are answered by hand show nothing of the contract."""
import hashlib
import pathlib
import subprocess

from contract import reading, sources
from .hand import place_of

# Of the others one in so many is tried at a commit.
ONE_IN = 8


def commit_of(top):
    """What the part is chosen by: the commit that is checked out."""
    said = subprocess.run(['git', 'rev-parse', 'HEAD'], cwd=top, capture_output=True, text=True, check=False)
    return said.stdout.strip()


def is_chosen(commit, name):
    """Whether what has a name is in the part of a commit."""
    return int(hashlib.sha256(f'{commit} {name}'.encode()).hexdigest(), 16) % ONE_IN == 0


class Contracts:
    """How far the contracts of functions go that edits change."""

    def __init__(self, top):
        self.types, self.functions = sources.types_of(top), {}

    def sort(self, edit):
        """The class of the contract of an edit's function."""
        if edit.crate not in self.functions:
            self.functions[edit.crate] = {(one.file, one.line): one for one in sources.functions_of(edit.crate)}
        path, _, head, _ = place_of(edit)
        function = self.functions[edit.crate].get((str(pathlib.PurePosixPath(path)), head + 1))
        return reading.read(function, self.types).sort if function else reading.OPEN


def must_be_tried(edit, contracts):
    """Whether an edit is tried at each commit."""
    return edit.is_always or edit.has_control and not edit.by_hand and contracts.sort(edit) == reading.OPEN


def chosen(found, top):
    """The edits that are tried at this commit."""
    contracts, commit = Contracts(top), commit_of(top)
    must = {edit.label for edit in found if must_be_tried(edit, contracts)}
    crates = {edit.crate.name for edit in found if edit.label in must}
    return [edit for edit in found if edit.label in must or not edit.by_hand
            and is_chosen(commit, edit.label if edit.crate.name in crates else edit.crate.name)]
