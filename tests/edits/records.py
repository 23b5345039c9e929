"""Records of which edits of a crate were refused, by the sum of all that the refusals rest on."""

import hashlib
import json
import os
import pathlib
import re
import subprocess
import sys

import edits
import rounds

HERE = os.path.dirname(os.path.realpath(__file__))
# What decides how an edit is tried and judged.
JUDGES = ("edits.py", "judge.py", "paths.py", "rounds.py", "toolchain.py")
# A file of lemmas where another one imports it.
LEMMAS = re.compile(r"\bRattle\.(\w+)\.proofs\.([\w.]*\w)")
# How the lines begin that decide no refusal, after blanks: comments, and what says why an edit is there.
COMMENTS = {".rt": "//", ".antt": "--", ".edit": "why:"}
# Where empty lines may decide one: in sources, whose attributes end at them, and in answers, which paths.py parts by them.
PARTED = re.compile(r"\.rt$|/proofs/.*/Answers\.antt$")


def deciding(path, text):
    """What of a file's text may decide a refusal."""
    comment, is_parted = COMMENTS.get(os.path.splitext(path)[1], "\n"), PARTED.search(path)
    lines = [it for it in text.split("\n") if not it.lstrip().startswith(comment)]
    return "\n".join(it for it in lines if is_parted or it.strip())


def parts_of(top, *patterns):
    """The files below a folder that fit these patterns, in order: of each its path there, and what of its text may decide a
    refusal."""
    found = [it for pattern in patterns for it in sorted(pathlib.Path(top).glob(pattern)) if it.is_file()]
    return [(path, deciding(path, edits.text_of(f"{top}/{path}"))) for path in (str(it.relative_to(top)) for it in found)]


def shown_by(top, crate):
    """What a crate shows those above it, but for its lemmas: its definitions and its sources, with their functions emptied
    down to their contracts, without empty lines, and without what only says to the compiler which calls to put into the
    callers."""
    parts = parts_of(top, f"crates/{crate}/src/**/*", f"crates/{crate}/specs/**/*")
    after, _ = edits.Sources(top).emptied([path for path, _ in parts if path.endswith(".rt")], lambda _: False)
    for path, text in parts:
        if path in after.texts:
            lines = [it.rstrip() for it in deciding(path, after.texts[path]).split("\n")]
            text = "\n".join(it for it in lines if it and not it.lstrip().startswith("#[inline"))
        yield path, text


def lemmas_named(top, below, texts):
    """The files of lemmas of these crates that some texts import, and those that these import in turn."""
    found, left = {}, list(texts)
    while left:
        for crate, name in LEMMAS.findall(left.pop()):
            path = f"crates/{crate}/proofs/{name.replace('.', '/')}.antt"
            if crate in below and path not in found:
                parts = dict(parts_of(top, path))
                found |= parts
                left += parts.values()
    return sorted(found.items())


def sum_of(top, crate, below):
    """The sum of all that the refusals of a crate's edits rest on; `below` are the crates that it stands on."""
    kit = subprocess.run(["rt", "version"], stdout=subprocess.PIPE, stdin=subprocess.DEVNULL, text=True, check=True).stdout
    own = parts_of(top, *(f"crates/{crate}/{it}/**/*" for it in ("src", "specs", "proofs", "must-fail")))
    shown = [it for name in sorted(below) for it in shown_by(top, name)]
    lemmas = lemmas_named(top, below, [text for _, text in own + shown])
    controls = parts_of(top, f"tests/edits/controls/{crate}.edit")
    judges = [edits.text_of(f"{HERE}/{it}") for it in JUDGES]
    return hashlib.sha256(json.dumps([kit, judges, controls, own, shown, lemmas]).encode()).hexdigest()


def edits_of(top, crate, wanted=()):
    """The crate's edits that are named (all where none is), and those that can't be read or applied, with the reason."""
    folder, good, bad = pathlib.Path(top, "crates", crate), [], []
    for name in wanted or sorted(it.stem for it in folder.glob("must-fail/*.edit")):
        try:
            edit = edits.read_edit(crate, f"{folder}/must-fail/{name}.edit")
            edits.Sources(folder).with_edit(edit)
            good.append(edit)
        except FileNotFoundError:
            sys.exit(f"tests/edits/run: {crate} has no edit {name}")
        except edits.BadEdit as why:
            bad.append(rounds.Tried(f"{crate}/{name}", False, f"BAD EDIT: {why}"))
    return good, bad


class Record:
    """Which edits of a crate were refused when all that this rests on was as it is now: a sum, and their names."""

    def __init__(self, top, crate, below):
        self.file, self.given = f"{top}/tests/edits/refused/{crate}", (top, crate, set(below))
        self.sum, self.refused = sum_of(*self.given), set()
        if os.path.isfile(self.file):
            state, *names = edits.text_of(self.file).split() or [""]
            self.refused = set(names) if state == self.sum else set()

    def is_current(self):
        """Whether every edit of the crate was refused as all is now."""
        good, bad = edits_of(*self.given[:2])
        return not bad and self.refused.issuperset(it.name for it in good)

    def write(self, tried, refused):
        """Writes which of the edits that were tried were refused; what is recorded of others stays. Where something has
        changed since they were begun nothing is written."""
        if sum_of(*self.given) == self.sum:
            self.refused = self.refused - set(tried) | set(refused)
            os.makedirs(os.path.dirname(self.file), exist_ok=True)
            pathlib.Path(self.file).write_text("\n".join([self.sum, *sorted(self.refused), ""]), encoding="utf-8")
