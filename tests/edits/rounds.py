"""Tries a crate's edits: many of different functions in one check, what isn't clear there alone."""

import collections
import os

import edits
import judge
import toolchain

# What came of an edit: whether that is what must come of it, and the words for it.
Tried = collections.namedtuple("Tried", "label is_well text")


class Trial:
    """The edits of one crate, tried in checks over the same kept work.

    A function is judged by what those promise that it calls, not by how they keep it. So a first round empties all
    functions that it doesn't edit: nothing is to be proved of them, and they call nothing themselves. Such a round can only
    show that an edit is refused. One of whose function no goal of its own is refused there, and a control that isn't proved,
    is tried again in a round of whole texts, and what isn't clear in that, alone."""

    def __init__(self, crate, given, controls, jobs, room):
        self.crate, self.room, self.kept, self.jobs = crate, f"{room}/source", f"{room}/kept", jobs
        self.sources, self.controls, self.given = edits.Crate(crate.folder), controls, given
        self.checks, self.seconds, self.found, self.alone, self.lines = 0, 0.0, {}, [], []
        os.makedirs(self.room)

    def run(self):
        """Tries all, and returns what came of each."""
        left = list(filter(self.applies, [*self.controls, *self.given]))
        others = [it for it in left if not self.is_of_bodies(it)]
        unclear = self.in_rounds([it for it in left if it not in others], is_whole=False)
        for edit in [*self.in_rounds(unclear + others, is_whole=True), *self.alone]:
            self.try_alone(edit)
        return [self.found[it.name] for it in [*self.controls, *self.given]]

    def applies(self, edit):
        """Whether an edit can be applied, to a function that is there."""
        try:
            self.after([edit])
            if not self.sources.named(edit.function):
                raise edits.BadEdit(f"the crate has no function {edit.function}")
        except edits.BadEdit as why:
            self.tell(edit, False, f"BAD EDIT: {why}")
            return False
        return True

    def is_of_bodies(self, edit):
        """Whether an edit changes functions, constants and comments alone: no type, no definition and no proof, which
        functions would show that a round empties."""
        _, places = self.after([edit])
        return all(path.startswith("src/") and self.sources.is_of_body(path, line) for path, line in places)

    def after(self, taken):
        """The sources with these edits, and the places that they change."""
        sources, places = edits.Sources(self.crate.folder), []
        for edit in taken:
            sources, more = sources.with_edit(edit)
            places += more
        return sources, places

    def in_rounds(self, left, is_whole):
        """Tries edits in rounds of those that go together; returns those that aren't clear then."""
        unclear = []
        while left:
            taken, left = self.next_round(left)
            unclear += self.try_together(taken, is_whole)
        return unclear

    def next_round(self, left):
        """Of these edits those that go together, none of which changes the function of another one or a constant that it
        uses, and those that are left for later."""
        sources, names, taken, later = edits.Sources(self.crate.folder), set(), [], []
        for edit in left:
            try:
                after, places = sources.with_edit(edit)
            except edits.BadEdit:
                later.append(edit)
                continue
            own = {(it.file, it.name, it.owner) for it in [*self.sources.changed_by(places), *self.sources.named(edit.function)]}
            if own & names:
                later.append(edit)
            else:
                sources, names, taken = after, names | own, [*taken, edit]
        return taken, later

    def try_together(self, taken, is_whole):
        """Tries edits in one check, in halves where the text can't be read; returns those that aren't clear there."""
        gone, said = [], None
        if not is_whole or len(taken) > 1:
            sources, gone = (self.after(taken)[0], []) if is_whole else self.emptied(taken)
            said = self.check(sources, [it.function for it in taken], gone)
        if said is None and len(taken) == 1:
            self.alone += taken
            return []
        if said is None:
            half = len(taken) // 2
            return self.try_together(taken[:half], is_whole) + self.try_together(taken[half:], is_whole)
        if self.stray(taken, said, gone):
            return taken
        unclear = []
        for edit in taken:
            of_it = said.get(edit.function, judge.Said())
            if of_it.is_proved or of_it.is_refused and edit not in self.controls:
                self.settle(edit, of_it)
            else:
                unclear.append(edit)
        return unclear

    def emptied(self, taken):
        """The sources with these edits and with all functions emptied that they don't change and that are in no cycle with
        one that they do; and those functions."""
        sources, places = self.after(taken)
        named = {it.place for edit in taken for it in self.sources.named(edit.function)}
        is_own = lambda it: it.place in named or any(it.has(*place) for place in places)
        items = [it for file in self.sources.files for it in edits.items_of(file, sources.text(file))]
        cycles = {it.cycle for it in items if it.cycle and is_own(it)}
        return sources.emptied(self.sources.files, lambda it: is_own(it) or it.cycle in cycles)

    def check(self, sources, functions, gone=(), answers=None):
        """What a check says of these functions in a copy of the crate with these sources, without the proofs of those that
        are gone, and with these answers in place of the stored ones (an empty text: none)."""
        toolchain.copy_of(self.crate, self.room)
        sources.write(self.room)
        self.drop_proofs(gone)
        for path, text in (answers or {}).items():
            file = f"{self.room}/proofs/{path.replace('::', '/')}/Answers.antt"
            if text:
                with open(file, "w", encoding="utf-8") as it:
                    it.write(text)
            elif os.path.isfile(file):
                os.remove(file)
        status, self.lines, seconds = toolchain.check(self.crate, self.room, self.kept, functions, self.jobs())
        self.checks, self.seconds = self.checks + 1, self.seconds + seconds
        return judge.judged(self.sources, self.lines) if status in (0, 1, 3) else None

    def drop_proofs(self, gone):
        """Removes the proof files of emptied functions from the copy: they name what isn't there."""
        places, cycles = {it.place for it in gone}, {it.cycle for it in gone}
        for at, _, files in os.walk(f"{self.room}/proofs") if gone else []:
            path = os.path.relpath(at, f"{self.room}/proofs").split("/")
            items = {it.place for it in self.sources.named("::".join(path))}
            is_gone = bool(items) and items <= places
            if is_gone or path[-1].startswith("+") and path[-1][1:] in cycles:
                for name in {"Answers.antt", "Invariants.antt", "Proof.antt"} & set(files):
                    os.remove(f"{at}/{name}")

    def try_alone(self, edit):
        """Tries one edit in a check of its own."""
        said = self.check(self.after([edit])[0], [edit.function])
        stray = said is not None and self.stray([edit], said)
        if said is None:
            unread = next(filter(judge.is_unread, self.lines), self.lines[-1])
            self.tell(edit, False, f"BAD EDIT: it did not reach the prover, or could not be read: {unread[:200]}")
        elif stray:
            self.tell(edit, False, f"NOT CLEAR: {stray} is refused too, which the edit does not change")
        else:
            self.settle(edit, said.get(edit.function, judge.Said()))

    def stray(self, taken, said, gone=()):
        """A function that is refused by itself though it wasn't emptied and none of these edits changes it, a constant
        that it uses, or its cycle of calls; None where there is none."""
        changed = self.sources.changed_by(self.after(taken)[1])
        cycles, places = {it.cycle for it in changed if it.cycle}, {it.place for it in [*changed, *gone]}
        is_excused = lambda items: not items or any(it.place in places or it.cycle in cycles for it in items)
        return next((it for it in said if said[it].is_refused and not is_excused(self.sources.named(it))), None)

    def settle(self, edit, of_it):
        """Judges what a check said of an edit's function."""
        if edit in self.controls:
            self.tell(edit, of_it.is_proved, "proved, as it must be" if of_it.is_proved else "CONTROL NOT PROVED")
        elif of_it.is_proved:
            self.tell(edit, False, f"NOT REFUSED: {edit.function} is still proved")
        elif of_it.is_refused:
            self.tell(edit, True, f"refused, as it must be: {edit.function}")
        elif of_it.taken_away:
            self.tell(edit, False, f"REFUSED FOR NAMES ALONE: a proof file of {edit.function} names what it took away")
        elif "it calls" in of_it.line:
            self.tell(edit, False, f"REFUSED BY ANOTHER ALONE: {edit.function}: {of_it.line[:160]}")
        else:
            self.tell(edit, False, f"NOT JUDGED: {edit.function}: {of_it.line[:160] or 'the check has no line for it'}")

    def tell(self, edit, is_well, text):
        self.found[edit.name] = Tried(edit.label, is_well, text)
