"""What a check says of each function: proved, refused by itself, or refused only through what it calls."""

import re
from dataclasses import dataclass, field

# A proof file names what an edit took away, which says little of the contract.
TAKEN_AWAY = re.compile(r"has no field|is not in scope|has no `|was not admitted")
# A text that can't be read, so that no contract was tried.
UNREAD = re.compile(r"is not in scope|has no field|is no name|operand is missing|expected the end|cannot continue")
FUNCTION = re.compile(r"^fn ([^ :]+(?:::[^ :]+)*): (.*)$")
IN_PROOF = re.compile(r"^(?:\./)?proofs/(\S+?):\d+:\d+: error: (?:`([^`]*)`: )?(.*)")
IN_SOURCE = re.compile(r"^(?:\./)?((?:src|specs)/\S+?):(\d+):\d+: error")
GOAL = re.compile(r"^note: (src/\S+?):(\d+):\d+: it is not proved")


@dataclass
class Said:
    """What a check said of one function."""

    line: str = ""
    evidence: list = field(default_factory=list)
    taken_away: list = field(default_factory=list)

    @property
    def is_proved(self):
        return self.line.startswith("proved")

    @property
    def is_refused(self):
        """Refused by itself: a goal of its own isn't proved."""
        return not self.is_proved and bool(self.evidence)


def judged(sources, lines):
    """What a check's lines say, by function (its path below the crate); None where the text could not be read."""
    names = [FUNCTION.match(it) for it in lines]
    said = {it[1].partition("::")[2]: Said(it[2]) for it in names if it}
    if not said or any(is_unread(it) for it in lines):
        return None
    places = {it: sources.named(it) for it in said}
    for line in lines:
        in_proof, goal, function = IN_PROOF.match(line), GOAL.match(line), FUNCTION.match(line)
        if in_proof:
            for path in blamed(in_proof[1], in_proof[2] or "", said):
                kind = said[path].taken_away if TAKEN_AWAY.search(in_proof[3]) else said[path].evidence
                kind.append(line)
        elif goal:
            # (no edit changes the number of lines)
            for path in [it for it in said if any(item.has(goal[1], int(goal[2]) - 1) for item in places[it])]:
                said[path].evidence.append(line)
        elif function and "expected answers" in function[2] and is_own(sources, function):
            said[function[1].partition("::")[2]].evidence.append(line)
    return said


def is_own(sources, function):
    """Whether a function's line speaks of a goal of its own. Those of a cycle of calls have one line, which names the
    goals of all: each begins with the member that it is of."""
    path = function[1].partition("::")[2]
    return not sources.is_of_several(path) or f"`{path.rpartition('::')[2]}-" in function[2]


def is_unread(line):
    """Whether the front end or antt could not read a text of src/ or specs/."""
    if line.startswith(("error", "rattle: error")):
        return True
    at = IN_SOURCE.match(line)
    return bool(at) and (not re.search(r"error: `[^`]*`: ", line) or bool(UNREAD.search(re.sub(r"`[^`]*`", "", line))))


def blamed(file, declaration, said):
    """The functions that an error in a proof file speaks of: the one whose folder it is in, or, in the folder of a
    cycle (its name begins with +), the member that the declaration names first; the names of a cycle of one function
    don't begin so."""
    folder = file.rpartition("/")[0]
    own = folder.replace("/", "::")
    if own in said:
        return [own]
    above, _, last = folder.rpartition("/")
    if not last.startswith("+"):
        return []
    prefix = above.replace("/", "::")
    members = [it for it in said if it.rpartition("::")[0].startswith(prefix)]
    fitting = [it for it in members if declaration.startswith(it.rpartition("::")[2] + "-")]
    if fitting:
        return [max(fitting, key=lambda it: len(it.rpartition("::")[2]))]
    return [it for it in members if it == f"{prefix}::{last[1:]}"]
