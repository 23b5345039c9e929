#!/usr/bin/env -S python3 -B
"""Writes the pages of the no-loss theorem from the definitions: bin/theorem [-h | --check]

Each text tests/pages/stating/PAGE.text becomes docs/PAGE.md. A line of it that begins with `@` stands for

  @clause FILE FUNCTION NAME  this clause of a contract; all that it names, and what that names in turn, is on the page
  @quote FILE FUNCTION NAME   the same, but what it names isn't brought to the page
  @without NAME..             nothing: these definitions aren't brought to the page, nor what they alone name
  @part MODULE..              the definitions of these modules, each with its sentence, as they are first needed
  @types                      the types of the code that are named
  @words                      std's words that are named, each with what tests/pages/stating/words says of it

and a name in braces for a number: {definitions} and their {lines}, the {minutes} that they take at 200 words each, those of
the {first} three parts; the definitions of another page. What an earlier page has is on no other one. With --check it
writes nothing, prints a line for each page that is stale, then 'theorem: N passed, M failed', and ends with 1 where one is.
"""

import os
import pathlib
import re
import sys
import textwrap

TOP = os.path.realpath(f"{__file__}/../../..")
sys.path.insert(0, f"{TOP}/tests/gate")

from definitions import Definitions, items_of, text_of, uses_of  # noqa: E402

DECLARED = re.compile(r"Rattle\.(?!std\.)(\w+)\.specs\.declared\.(.*?)\.(\w+)(?:\.The\w+)?")
# What is said of a definition or a type (CRATE.MODULE.NAME) in place of its comment. These sentences belong into the specs and
# the sources, at what they are of; with the next change of each file they go there, as comments, and from here.
SENTENCES = dict(line.split(": ", 1) for line in text_of(f"{TOP}/tests/pages/stating/sentences").splitlines())


def clause_of(path, function, name):
    """A clause of a function's contract, and what its file imports."""
    text = text_of(f"{TOP}/crates/{path}")
    clauses = "".join(it.clauses for it in items_of(text) if it.name == function)
    found = re.search(rf"(?ms)^    ensures {name} {{.*?}}$(?=\n    (?:ensures|//)|\n{{)", clauses)
    if not found:
        raise SystemExit(f"bin/theorem: {function} of crates/{path} has no clause {name}")
    return found[0], uses_of(text)


def block(text):
    return ["```", *textwrap.dedent(text).strip("\n").split("\n"), "```", ""]


def entry(name, said, path, text):
    """What is shown of a definition or a type: its name, its sentence, its file and its text."""
    first = said[:1].upper() if re.match(r"\w+\b(?![.`]\w)", said) else said[:1]
    return [f"**{name}** {first}{said[1:]}{'' if said.endswith(('.', ':', '.)')) or not said else '.'} <sub>{path}</sub>".replace("  ", " "), "", *block(text)]


class Page:
    """A page: its text and its parts, each with its definitions, and all that these name."""

    def __init__(self, name, definitions, before):
        self.lines, self.before = text_of(f"{TOP}/tests/pages/stating/{name}.text").splitlines(), before
        words = [line.split() for line in self.lines if line.startswith("@")]
        texts = [clause_of(*it[1:]) for it in words if it[0] == "@clause"]
        roots = [it for clause, uses in texts for it in definitions.named(clause, uses)]
        reached = definitions.reached(roots, {name for it in words if it[0] == "@without" for name in it[1:]})
        self.found = {it: group for it, group in reached.items() if not any(it in page.found for page in before)}
        self.parts = {tuple(it[1:]): {} for it in words if it[0] == "@part"}
        for it, group in self.found.items():
            modules = [module for part in self.parts for module in part if f"{it[0]}.".startswith(f"Rattle.{module}.")]
            if not modules:
                raise SystemExit(f"bin/theorem: {name} has no part for {it[1]} of {it[0]}")
            next(of for part, of in self.parts.items() if max(modules, key=len) in part)[id(group)] = it[0], group
            texts.append(("\n".join(group["lines"]), definitions.uses[it[0]]))
        self.named = {it for text, uses in texts for it in definitions.places(text, uses)}
        parts = [[group for _, group in of.values()] for of in self.parts.values()]
        shown = "\n".join("\n".join(it["shown"]).rstrip() for it in sum(parts, []))
        texts = [[word for it in sum(of, []) for word in " ".join([it["said"], *it["shown"]]).split()] for of in (parts, parts[:3])]
        minutes, first = (round(len(it) / 200) for it in texts)
        self.numbers = {"definitions": len(self.found), "lines": len(shown.split("\n")), "minutes": minutes, "first": first}

    def part(self, *part):
        for module, group in self.parts[part].values():
            _, crate, path = module.split(".", 2)
            is_two = any(name in group["names"] and other != module for other, name in self.found)
            name = ", ".join(f"`{it}`" for it in group["names"]) + (f" of `{crate}`" if is_two else "")
            yield from entry(name, group["said"], f"{crate}/{path.replace('.', '/')}.antt", "\n".join(group["shown"]))

    def clause(self, *place):
        return block(clause_of(*place)[0])

    quote, without = clause, lambda *_: []

    def new(self, of):
        """What is made of the names that isn't made of those of an earlier page, in order."""
        return sorted({*map(of, self.named)} - {it for page in self.before for it in map(of, page.named)} - {None})

    def types(self):
        for crate, path, name in self.new(lambda it: (found := DECLARED.fullmatch(it[0])) and found.groups()):
            key, path = f"{crate}.{path}.{name}", f"{crate}/src/{path.replace('.', '/')}.rt"
            of = rf"(?ms)((?:^///[^\n]*\n)*)(?:^#[^\n]*\n)*(^pub (?:struct|enum) {name}\b[^{{;]*?(?:{{.*?^}}|;))"
            source = text_of(f"{TOP}/crates/{path}")
            said, text = re.search(of, source).groups()
            said = said.replace("///", "") or source.split("\n")[0].removeprefix("//!")
            yield from entry(f"`{name}`", SENTENCES.pop(key, " ".join(said.split())), path, text)

    def words(self):
        says = dict(line.split("\t") for line in text_of(f"{TOP}/tests/pages/stating/words").splitlines())
        words = self.new(lambda it: it[1] if it[0].startswith("Rattle.std.") else None)
        if lacking := {*words} - {*says}:
            raise SystemExit(f"bin/theorem: tests/pages/stating/words says nothing of {' '.join(sorted(lacking))}")
        shown = [f"| `{it.replace('◌', ' ').strip()}` | {says[it]} |".replace("||", "\\|\\|") for it in words]
        return ["| Word | In words |", "|---|---|", *shown, ""]

    def text(self, numbers):
        out = []
        for line in self.lines:
            word, *words = line.split() or [""]
            out += getattr(self, word[1:])(*words) if word.startswith("@") else [line.format(**numbers, **self.numbers)]
        return re.sub(r"\n{3,}", "\n\n", "\n".join(out)).strip() + "\n"


def main(words):
    if words not in ([], ["--check"]):
        print(__doc__, end="", file=sys.stdout if words == ["-h"] else sys.stderr)
        return 0 if words == ["-h"] else 2
    definitions, pages, stale = Definitions(TOP), {}, 0
    for (module, name), group in definitions.group.items():
        group["said"] = SENTENCES.pop(module.removeprefix("Rattle.").replace(".specs.", ".", 1) + f".{name}", group["said"])
    for name in "THEOREM", "THEOREM_FILES", "THEOREM_CHECK":
        pages[name] = Page(name, definitions, [*pages.values()])
    for name, page in pages.items():
        text, path = page.text({other: len(it.found) for other, it in pages.items()}), f"{TOP}/docs/{name}.md"
        if not words:
            pathlib.Path(path).write_text(text, encoding="utf-8")
        elif not os.path.exists(path) or text_of(path) != text:
            stale += 1
            print(f"theorem: docs/{name}.md isn't what the definitions say; bin/theorem writes it anew")
    if SENTENCES:
        raise SystemExit(f"bin/theorem: tests/pages/stating/sentences has what isn't there, or a type of no page: {' '.join(SENTENCES)}")
    if words:
        print(f"theorem: {len(pages) - stale} passed, {stale} failed")
    return int(stale > 0)


if __name__ == "__main__":
    sys.exit(main(sys.argv[1:]))
