"""Edits, and what of a crate's sources each of them changes."""

import os
import re
from dataclasses import dataclass

# The head of a function, of what methods stand in, of a constant or a table; as `rt fmt` lays them out.
FUNCTION = re.compile(r"^(\s*)(?:pub(?:\([^)]*\))? )?(?:const )?(?:unsafe )?fn (\w+)")
OWNER = re.compile(r"^(?:unsafe )?(?:impl|(?:pub )?trait)\b(.*)")
CONSTANT = re.compile(r"^(?:pub(?:\([^)]*\))? )?(?:const|static) (\w+)\b")
CYCLE = re.compile(r"#\[cycle\((\w+)\)\]")


class BadEdit(Exception):
    """An edit that can't be tried, with the reason."""


def text_of(file):
    with open(file, encoding="utf-8", errors="surrogateescape") as it:
        return it.read()


@dataclass
class Item:
    """A function, or a constant or table, of a source: the line (from 0) where its attributes begin, its first and last one,
    and of a function the type that it belongs to and the cycle of calls that it is declared to be in."""

    file: str
    name: str
    head: int
    first: int
    last: int
    is_function: bool
    owner: str = ""
    cycle: str = ""

    @property
    def place(self):
        return self.file, self.first

    def has(self, file, line):
        return self.file == file and self.head <= line <= self.last


class Edit:
    """An edit: the function that its crate's proof must refuse by itself, and the texts to replace."""

    def __init__(self, crate, name):
        self.crate, self.name, self.function, self.pairs = crate, name, "", []

    @property
    def label(self):
        return f"{self.crate}/{self.name}"


def read_edit(crate, file):
    """Reads an edit; lines of another form are passed over, as `rt` does."""
    edit, path, old = Edit(crate, os.path.basename(file).removesuffix(".edit")), "", None
    for line in text_of(file).split("\n"):
        if line.startswith("function: "):
            edit.function = line.removeprefix("function: ").strip()
        elif line.startswith("file: "):
            path = line.removeprefix("file: ").strip()
        elif line.startswith("old: "):
            old = line.removeprefix("old: ")
        elif line.startswith("new:"):
            if not path or not old:
                raise BadEdit("a line 'new:' stands before any 'file:' or 'old:'")
            edit.pairs.append((path, old, line.removeprefix("new:").removeprefix(" ")))
            old = None
    if not edit.function:
        raise BadEdit("it has no line 'function: PATH'")
    if not edit.pairs:
        raise BadEdit("it has no pair of lines 'old:' and 'new:'")
    return edit


class Sources:
    """The texts of a crate's files, by their path in the crate, as edits change them."""

    def __init__(self, folder, texts=None):
        self.folder, self.texts = folder, dict(texts or {})

    def text(self, path):
        if path not in self.texts:
            try:
                self.texts[path] = text_of(f"{self.folder}/{path}")
            except OSError:
                raise BadEdit(f"there is no file {path}") from None
        return self.texts[path]

    def with_edit(self, edit):
        """The sources with the edit, and the places (file, line) that it changes, in the sources before it."""
        after, places = Sources(self.folder, self.texts), []
        for path, old, new in edit.pairs:
            text = after.text(path)
            if text.count(old) != 1:
                raise BadEdit(f"an 'old:' text stands in {path} {text.count(old)} times, and not once")
            at = text.index(old) + len(old) - len(old.lstrip())
            places.append((path, text.count("\n", 0, at)))
            after.texts[path] = text.replace(old, new)
        return after, places

    def write(self, room):
        for path, text in self.texts.items():
            with open(f"{room}/{path}", "w", encoding="utf-8", errors="surrogateescape") as it:
                it.write(text)

    def emptied(self, files, is_kept):
        """The sources with every function of these files emptied that isn't to be kept, and those functions."""
        after, gone = Sources(self.folder, self.texts), []
        for path in files:
            lines = after.text(path).split("\n")
            for item in items_of(path, after.texts[path]):
                if item.is_function and not is_kept(item) and empty(lines, item):
                    gone.append(item)
            after.texts[path] = "\n".join(lines)
        return after, gone


def items_of(file, text):
    """The functions and constants of a source."""
    lines, found, owner = text.split("\n"), [], ""
    for at, line in enumerate(lines):
        function, constant, head = FUNCTION.match(line), CONSTANT.match(line), at
        if function:
            indent, name = function.groups()
            while head > 0 and lines[head - 1].strip().startswith(("#[", "//")):
                head -= 1
            cycle = CYCLE.search("\n".join(lines[head:at]))
            last = end_of_function(lines, at, indent)
            found.append(Item(file, name, head, at, last, True, owner if indent else "", cycle[1] if cycle else ""))
        elif OWNER.match(line):
            owner = OWNER.match(line)[1]
        elif constant:
            found.append(Item(file, constant[1], at, at, end_of_constant(lines, at), False))
    return found


def end_of_function(lines, at, indent):
    """The last line of the function that begins at a line: the bracket that closes its body, or, where it has none, the
    semicolon after its contract."""
    has_body = False
    for later in range(at, len(lines)):
        line = lines[later].rstrip()
        if has_body and line == indent + "}" or not has_body and line.endswith((";", "{}")):
            return later
        if later == at and line.endswith("}"):
            return at
        has_body = has_body or line.endswith("{")
    return len(lines) - 1


def end_of_constant(lines, at):
    """The last line of the constant or table that begins at a line: that one, or a closing bracket below its head."""
    if lines[at].rstrip().endswith((";", "}")):
        return at
    return next((it for it in range(at + 1, len(lines)) if re.match(r"[\]})]+;?$", lines[it])), len(lines) - 1)


def empty(lines, item):
    """Takes a function's body away, with the attributes that only a body has, and leaves its contract, so that nothing is
    to be proved of it, and those that call it are judged as before. No line is added or lost. Returns whether it has a
    body that can go: not where that stands in one line with its head, nor of a `const fn`, which may be computed."""
    head, last = lines[item.first], lines[item.last]
    indent = head[: len(head) - len(head.lstrip())]
    within = range(item.first, item.last - 1)
    opened = [at for at in within if lines[at] == indent + "{"] or [at for at in within if lines[at].endswith("{")]
    has_body = last == indent + "}" and opened or last == indent + "{}" and item.first < item.last
    if not has_body or "const fn" in head:
        return False
    search_not(lines, item, ("#[cycle(", "#[tactic("))
    if last == indent + "{}":
        lines[item.last] = indent + "{ unreachable!() }"
    else:
        lines[opened[0] + 1 : item.last] = [indent + "    unreachable!()", *[""] * (item.last - opened[0] - 2)]
    return True


def search_not(lines, item, without=("#[tactic(",)):
    """Leaves all goals of a function open, in place of a search for them, and takes such attributes away."""
    for at in range(item.head, item.first):
        if lines[at].lstrip().startswith(without):
            lines[at] = ""
    head = lines[item.first].lstrip()
    lines[item.first] = f"{lines[item.first][: -len(head)]}#[tactic(none)] {head}"


class Crate:
    """What the judge asks of a crate's sources: which functions an edit may change, and what is in a cycle."""

    def __init__(self, folder):
        self.folder, self.items, self.files = folder, [], []
        for at, _, names in sorted(os.walk(f"{folder}/src")):
            self.files += [os.path.relpath(f"{at}/{it}", folder) for it in sorted(names) if it.endswith(".rt")]
        for path in self.files:
            text = text_of(f"{folder}/{path}")
            for item in items_of(path, text):
                self.items.append((item, "\n".join(text.split("\n")[item.first : item.last + 1])))

    def named(self, path):
        """The functions of the sources that a check calls by this path: of that name, and of that type or file."""
        *above, name = path.split("::")
        owner, found = (above[-1] if above else ""), []
        for item, _ in self.items:
            if not item.is_function or item.name != name:
                continue
            if item.owner:
                heads = item.owner.partition(" where ")[0].partition(" for ")
                words, of_box = re.findall(r"\w+", " ".join(heads)), re.findall(r"\w+", heads[2] + heads[0])
                fits = owner in words or owner and owner in {a + b for a in words for b in words}
                # `impl Tr for Box<dyn Tr + Send>` is called BoxDynTrSendTr
                fits = fits or owner == "".join(it[0].upper() + it[1:] for it in of_box)
                # the second `impl` of methods of one name, `impl<T> A<B<T>>`, is called A+B+T
                fits = fits or "+" in owner and set(owner.split("+")) <= set(words)
            else:
                stem = re.sub(r"/(lib|main)$", "", item.file[len("src") : -len(".rt")])
                fits = stem.split("/")[1:] == above
            if fits:
                found.append(item)
        return found

    def is_of_several(self, path):
        """Whether a function is declared to be in a cycle of calls with others."""
        cycles = {it.cycle for it in self.named(path) if it.cycle}
        return any(sum(it.cycle == cycle for it, _ in self.items) > 1 for cycle in cycles)

    def is_of_body(self, path, line):
        """Whether a line is one of a function, of a constant or table, an import, or a comment."""
        text = text_of(f"{self.folder}/{path}").split("\n")[line]
        return text.lstrip().startswith(("//", "use ")) or any(it.has(path, line) for it, _ in self.items)

    def changed_by(self, places):
        """The functions that edits at these places change, by a constant too, which they speak of directly or through
        other constants."""
        touched = [it for it, _ in self.items if any(it.file == path and it.first <= at <= it.last for path, at in places)]
        functions, seen, more = [it for it in touched if it.is_function], set(), {it.name for it in touched if not it.is_function}
        while more:
            seen |= more
            words = re.compile(r"\b(" + "|".join(map(re.escape, sorted(seen))) + r")\b")
            more = {it.name for it, text in self.items if not it.is_function and words.search(text)} - seen
        return functions + [it for it, text in self.items if it.is_function and seen and words.search(text)]
