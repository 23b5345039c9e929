"""The definitions of a tree and the contracts of a source: what each names, and where that is defined."""

import collections
import pathlib
import re

USE = re.compile(r"^ *(?:ghost )?(pub )?use (Rattle\.[\w.+-]*?)(?:\.\{([^}]*)\}| as (\w+));?$", re.M)
HEAD = re.compile(r"^(?:(?:abbrev|unfoldable|pub|record|data)\s+)+([^\s:({]+)|^([^\s:(){}]+) : ")
IN_BLOCK = re.compile(r"^  (?:(?:abbrev|unfoldable|pub|record|data)\s+)+([^\s:({]+)")
CHAIN = re.compile(r"[^\s(){}\[\],;.]+(?:\.[^\s(){}\[\],;.]+)*")
# What a source has: the head of an impl or a trait, where that ends, a ghost item, a function up to its body.
ITEM = re.compile(
    r"""^(?:(?P<block>(?:pub\ )?(?:unsafe\ )?(?:impl|trait)\b[^{]*) | (?P<end>\})
    | \ *ghost\ (?!use)(?P<ghost>\w+)(?:.*\n)*?.*;\ *$
    | (?=(?P<indent>\ *)(?P<pub>pub\ )?(?:const\ )?(?:unsafe\ )?fn\ (?P<fn>\w+)) (?:.*\n)*?
      (?:(?P=indent)\{ | .*\{\} | .*; | (?!.*\b(?:requires|ensures)\b).*\{)\ *$)""",
    re.M | re.X,
)
# Of the latter two: the trait that they are part of, or the type and the trait of the impl; a function up to its contract, and
# that, or all of a ghost item.
Item = collections.namedtuple("Item", "is_ghost is_pub name of signature clauses")
Of = collections.namedtuple("Of", "is_trait name trait")


def text_of(path):
    return pathlib.Path(path).read_text(encoding="utf-8")


def files_of(folder, ending):
    """The files below a folder, each with the names of its path there."""
    for path in sorted(pathlib.Path(folder).rglob(f"*{ending}")):
        yield path.relative_to(folder).with_suffix("").parts, text_of(path)


def uses_of(text):
    """What a text imports: of each name its module and its name there, the modules that have a short name, and what of the
    names it shows."""
    names, modules, shown = {}, {}, set()
    for pub, module, listed, alias in USE.findall(text):
        modules |= {alias: module} if alias else {}
        for there, here in re.findall(r"([^\s,]+)(?: as ([^\s,]+))?", listed):
            names[here or there] = module, there
            shown |= {here or there} if pub else set()
    return names, modules, shown


class Definitions:
    """All definitions of a tree, by module and name: of each its group, the text, as it is shown, and what is said of it."""

    def __init__(self, top):
        self.group, self.uses, self.own = {}, {}, {}
        for crate in sorted(pathlib.Path(top, "crates").iterdir()):
            for path, text in files_of(crate / "specs", ".antt"):
                self.read(".".join(["Rattle", crate.name, "specs", *path]), text)

    def read(self, module, text):
        self.uses[module], self.own[module] = uses_of(text), {}
        group, in_block, before = None, False, []
        for line, shown in zip(re.sub(r"(?m)[ \t]*(^|[ \t])--.*", "", text).split("\n"), text.split("\n")):
            said, is_said = before, shown.startswith("--")
            before = [*before, shown.lstrip("- ")] if is_said else before if shown.startswith("infix") else []
            in_block = in_block and line[:2] in ("", "  ") or re.match(r"(module|mutual)\b", line) is not None
            head = (IN_BLOCK if in_block else HEAD).match(line)
            if line.startswith(("use ", "pub use ", "pub mod ", "infix")):
                continue
            if re.match(r"(module|mutual)\b", line) or head and not in_block:
                group = {"names": [], "lines": [], "shown": [], "said": " ".join(said)}
            if head:
                name = head[1] if in_block else head[1] or head[2]
                group["names"].append(name)
                self.group[module, name] = self.own[module][name] = group
            if group:
                group["lines"].append(line)
                group["shown"] += [] if before else [shown]

    def found(self, module, name):
        """Where a name that a module shows is defined."""
        while (module, name) not in self.group and name in self.uses.get(module, ((), (), ()))[2]:
            module, name = self.uses[module][0][name]
        return (module, name) if (module, name) in self.group else None

    def places(self, text, uses, own=None):
        """Where a text has the names from that are imported or its module's own, in their order."""
        names = {**{it: (own, it) for it in self.own.get(own, ())}, **uses[0]}
        words, found = set(re.sub(r"[()]", " ", text).split()), []
        for chain in CHAIN.findall(text):
            first, *rest = chain.split(".")
            if rest and first in uses[1]:
                found.append((uses[1][first], rest[0]))
            found += [names[it] for it in (first, first.lstrip("λ!")) if it in names]
        return found + [names[it] for it in names if "◌" in it and words.issuperset(filter(None, it.split("◌")))]

    def named(self, text, uses, own=None):
        """The definitions that a text names where these are imported, in their own module or outside, in their order."""
        return [it for place in self.places(text, uses, own) if (it := self.found(*place))]

    def reached(self, names, without=()):
        """These and all that they name in turn, in the order in which they are met; none of those that are left out."""
        found, left = {}, [*reversed(names)]
        while left:
            it = left.pop()
            if it not in found and it[1] not in without:
                found[it] = group = self.group[it]
                left += reversed(self.named("\n".join(group["lines"]), self.uses[it[0]], it[0]))
                left += [(it[0], other) for other in reversed(group["names"])]
        return found


def of_block(head):
    """What an impl or a trait is of."""
    head = " ".join(head.replace("->", "").split())
    while re.search(r"<[^<>]*>", head):
        head = re.sub(r"<[^<>]*>", "", head)
    word, head = re.match(r"(?:pub )?(?:unsafe )?(impl|trait) *(.*)", head).groups()
    trait, _, name = head.split(" where ")[0].rpartition(" for ")
    return Of(word == "trait", re.split(r"[: ]+", name.strip(" &"))[0], trait.strip())


def items_of(text):
    """The functions and ghost items of a source."""
    of = None
    for it in ITEM.finditer(text):
        if it["block"] or it["end"]:
            of = of_block(it[0]) if it["block"] else None
        else:
            cut = 0 if it["ghost"] else re.search(r"(?m)^\s*(requires|ensures|ghost)\b|\Z", it[0]).start()
            yield Item(bool(it["ghost"]), bool(it["pub"]), it["ghost"] or it["fn"], of, it[0][:cut], it[0][cut:])
