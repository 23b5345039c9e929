"""What a refusal shows. A wrong body that adds a path, as an early return, has goals there for which the stored proof
has no answer, and others whose answers no longer fit. Where those alone are left, the contract may allow the body, and
only an answer is lacking: it is told so, and tried once more with all that the stored proof has to offer."""

import os
import re
import tempfile
from dataclasses import dataclass, field

import edits
import judge
import rounds

# What is said of a body that may be refused for want of an answer.
UNANSWERED = "refused, perhaps for want of an answer"
# A goal that neither an answer nor the search proved.
OPEN = re.compile(r"^note: src/\S+: it is not proved .*\(`([^`]+)`\)(?:;|$)")
# The goals that a function's line lists: those that the search left, or all that it has where nothing is searched for.
LISTED = re.compile(r"(?:`search` did not prove|`#\[tactic\(none\)\]` leaves) ((?:`[^`]+`(?:, | and )?)+)")
# The prover knows values at which the goal is false, unless it didn't look into a definition or stopped at a limit.
VALUES = re.compile(r"allow values at which this goal is false|the goal fails at")
UNSURE = re.compile(r"did not look into|may hold")
# An answer names what the edited body doesn't have.
NAMES = re.compile(judge.TAKEN_AWAY.pattern + r"|\(nearest: ")
# What a body branches by.
BRANCH = re.compile(r"\b(?:if|match|while|for|loop|return|break|continue)\b|&&|\|\||\?|=>")
# How an answer is offered: the function's folder, then lines with a goal's name and its variables.
OFFER = re.compile(r"^help: .*?\./proofs/(\S+)/Answers\.antt")
OFFERED = re.compile(r"^    (\S+)((?: \S+)*) = \?$")
# The lemmas that answers cite, and what they open.
LEMMAS = re.compile(r"^use Rattle\.(?:\S+\.)?proofs\.\S+?(?<!\.Common)(?<!\.Goals)(?<!\.Given)\.\{([^}]*)\}", re.M)
OPENED = re.compile(r"^unfolding (.+)$", re.M)
# What offered answers are proved by beside what the stored ones cite.
OF_STD = {"arith": "Rattle.std.proofs.Common", "common_steps": "Rattle.std.proofs.lemmas.Grind"}


@dataclass
class Refusal:
    """By what an edit's function was refused: the goals that are left, those that are false at some values, those whose
    stored answers don't prove them, and those whose answers name what isn't there; and the answers that are offered."""

    edit: edits.Edit
    open: set = field(default_factory=set)
    false: set = field(default_factory=set)
    wrong: set = field(default_factory=set)
    unnamed: set = field(default_factory=set)
    offered: dict = field(default_factory=dict)

    def is_unclear(self):
        """Whether it may be for want of an answer: the edit adds a path or takes away what answers name, and no values
        are known at which a goal is false."""
        return not self.false and (adds_a_path(self.edit) or bool(self.unnamed))

    def is_unanswered(self, of_the_right):
        """Whether, of one that is unclear, no goal is left that is proved by the search in the right body, which has these,
        and no answer is wrong where no path was added: what is left is of a new path or name, or has an answer there."""
        return not self.open & of_the_right and not (self.wrong and not adds_a_path(self.edit))

    def takes(self, later):
        """Takes what a later check found of it; whether other answers are then to be tried."""
        is_more = later.offered.keys() - self.offered.keys() or later.unnamed - self.unnamed
        is_lost = later.wrong & self.offered.keys()
        self.open, self.wrong, self.unnamed = self.open | later.open, self.wrong | later.wrong, self.unnamed | later.unnamed
        self.offered |= later.offered
        return bool(is_more and not is_lost)


def adds_a_path(edit):
    """Whether an edit's new text branches more often than the old one."""
    return sum(len(BRANCH.findall(new)) - len(BRANCH.findall(old)) for _, old, new in edit.pairs) > 0


def listed(line):
    """The goals that a function's line lists."""
    return {name for it in LISTED.findall(line) for name in re.findall(r"`([^`]+)`", it)}


def offered(lines, folder):
    """The answers that a check offers for the function of this folder: of each goal its name and its variables."""
    is_of_it = False
    for line in lines:
        offer, answer = OFFER.match(line), OFFERED.match(line)
        is_of_it = offer[1] == folder if offer else is_of_it and line.startswith("    ")
        if answer and is_of_it:
            yield answer.groups()


class Trial(rounds.Trial):
    """A trial that also tells which refusals may be for want of an answer."""

    refused = ()

    def settle(self, edit, of_it):
        super().settle(edit, of_it)
        if self.found[edit.name].is_well and edit not in self.controls:
            self.refused = [*self.refused, self.refusal_of(edit, of_it)]

    def refusal_of(self, edit, said):
        """The refusal of an edit, of what the last check said of its function; of a cycle of calls, its goals alone."""
        found, function = Refusal(edit), edit.function
        for line in [*said.evidence, *said.taken_away]:
            goal, answer = OPEN.match(line), judge.IN_PROOF.match(line)
            name = goal[1] if goal else answer[2] if answer else None
            if goal:
                found.open.add(name)
            elif name:
                (found.unnamed if NAMES.search(answer[3]) else found.wrong).add(name)
            if name and VALUES.search(line) and not UNSURE.search(line):
                found.false.add(name)
        prefix = f"{function.rpartition('::')[2]}-" if self.sources.is_of_several(function) else ""
        found.open = {it for it in found.open | listed(said.line) if it.startswith(prefix)}
        found.offered = {name: it for name, it in offered(self.lines, function.replace("::", "/")) if name in found.open}
        return found

    def run(self):
        super().run()
        unclear = [it for it in self.refused if it.is_unclear()]
        right = self.goals_of_the_right({it.edit.function for it in unclear if it.open})
        again = {}
        for it in unclear:
            is_unanswered = it.is_unanswered(right.get(it.edit.function, set()))
            if is_unanswered:
                goals = ", ".join(sorted(it.open | it.wrong | it.unnamed))
                self.tell(it.edit, True, f"{UNANSWERED}: {it.edit.function}: {goals}")
            if (is_unanswered or adds_a_path(it.edit)) and self.answers_of(it.edit.function):
                again[it.edit.name] = it
        left = [it.edit for it in again.values()]
        while left:
            taken, left = self.next_round(left)
            self.try_again(taken, [again[it.name] for it in taken])
        return [self.found[it.name] for it in [*self.controls, *self.given]]

    def goals_of_the_right(self, functions):
        """The goals of these functions as they stand, by one check in which nothing is searched for."""
        if not functions:
            return {}
        named = [it for path in functions for it in self.sources.named(path)]
        places, cycles = {it.place for it in named}, {it.cycle for it in named if it.cycle}
        is_kept = lambda it: it.place in places or it.cycle in cycles
        sources, gone = edits.Sources(self.crate.folder).emptied(self.sources.files, is_kept)
        for item in [it for it, _ in self.sources.items if it.is_function and is_kept(it)]:
            lines = sources.text(item.file).split("\n")
            edits.search_not(lines, item)
            sources.texts[item.file] = "\n".join(lines)
        self.check(sources, functions, gone, dict.fromkeys(functions, ""))
        return {it[1].partition("::")[2]: listed(it[2]) for it in filter(None, map(judge.FUNCTION.match, self.lines))}

    def try_again(self, taken, left):
        """Tries edits without the answers that don't fit them, and with what the stored answers cite for the goals that
        are left, up to three times where more are left then: what is proved so, its contract allows."""
        sources, gone = self.emptied(taken)
        for _ in range(3):
            answers = {it.edit.function: answers_for(it, self.answers_of(it.edit.function)) for it in left}
            said, again = (self.check(sources, list(answers), gone, answers) if left else None) or {}, []
            for it in left:
                of_it = said.get(it.edit.function, judge.Said())
                later = self.refusal_of(it.edit, of_it)
                has_own = of_it.evidence or of_it.taken_away or "it calls" not in of_it.line
                if of_it.is_proved or not has_own:
                    how = f"{it.edit.function} is proved with other answers than the stored ones"
                    self.tell(it.edit, False, f"LET THROUGH: {how}")
                elif later.false:
                    self.tell(it.edit, True, f"refused, as it must be: {it.edit.function}")
                elif it.takes(later):
                    again.append(it)
            left = again

    def answers_of(self, function):
        """The stored answers of a function; an empty text where there are none."""
        file = f"{self.crate.folder}/proofs/{function.replace('::', '/')}/Answers.antt"
        return edits.text_of(file) if os.path.isfile(file) else ""


def answers_for(refusal, text):
    """These answers without those that don't fit an edit, and with what they cite and open for what it leaves."""
    lemmas = [it.strip() for names in LEMMAS.findall(text) for it in names.split(",") if re.fullmatch(r"\s*[\w-]+\s*", it)]
    opened = [it.strip() for names in OPENED.findall(text) for it in names.split(",")]
    unfolding = f"unfolding {', '.join(dict.fromkeys(opened))}\n" if opened else ""
    tactic = f"grind ({', '.join(dict.fromkeys([*OF_STD, *lemmas]))})"
    for name in refusal.wrong | refusal.unnamed | refusal.open:
        is_of_it = re.compile(rf"^(?:pub |abbrev )*{re.escape(name)} :", re.M)
        text = "\n\n".join(it for it in text.split("\n\n") if not is_of_it.search(it))
    for name, module in OF_STD.items():
        if not re.search(rf"^use [^\n]*\b{name}\b", text, re.M):
            text = f"use {module}.{{{name}}}\n{text}"
    text = text.rstrip("\n") + "\n"
    for name, variables in refusal.offered.items():
        text += f"\npub {name} : goal.{name}\n{unfolding}{name}{variables} = {tactic}\n"
    return text


def try_crate(crate, given, controls, jobs=lambda: 1):
    """Tries a crate's edits and its controls, each check with as many jobs as there are by then; returns what came of
    each, and what that took."""
    with tempfile.TemporaryDirectory(prefix="syc-edits-") as room:
        trial = Trial(crate, given, controls, jobs, room)
        return trial.run(), f"{trial.checks} checks, {trial.seconds:.0f} processor seconds"
