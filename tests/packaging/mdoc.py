"""Reads manual pages in mdoc(7), as far as those of packaging/man use it."""

import os
import re
import shlex

# Macros that leave no text of their own, those that open brackets up to the end of their line, and brackets by themselves.
SILENT = {"Ar", "Cm", "Ic", "It", "Li", "Nd", "Pa", "Ql", "Va", "Xr"}
AROUND = {"Op": ("[", "]"), "Pq": ("(", ")"), "Brq": ("{", "}"), "Qq": ('"\0', '\0"')}
OPENING, CLOSING = {"Oo": "[", "Po": "(", "Bro": "{"}, {"Oc": "]", "Pc": ")", "Brc": "}"}
MARKS = {",", ".", ";", ":"}
ESCAPES = {r"\&": "", r"\e": "\\", r"\(dq": '"', r"\-": "-"}


def unescaped(text):
    return re.sub(r"\\(?:\(dq|[&e-])", lambda it: ESCAPES[it[0]], text)


def words_of(line):
    """The words of a line of a macro; those in double quotes are one."""
    lexer = shlex.shlex(line, posix=True, punctuation_chars=False)
    lexer.whitespace_split, lexer.commenters, lexer.escape, lexer.quotes = True, "", "", '"'
    return list(lexer)


def joined(words):
    """Words as a page shows them: without a space before marks, after opening brackets, and at a NUL."""
    text = ""
    for word in words:
        glued = not text or not word or text[-1] in "[({\0" or word[0] in "\0])}" or word in MARKS
        text += word if glued else f" {word}"
    return text.replace("\0", "")


def text_of_macro(line, name):
    """What a line that begins with a macro shows."""
    line = re.sub(r"\bXr (\S+) (\d)", r"Xr \1(\2)", line[1:])
    words, shown, closing, flag = words_of(line), [], [], False
    if words[0] == "Nm":
        words = words[1:] or [name]
    for word in words:
        if word in SILENT:
            flag = False
        elif word == "Fl":
            flag = True
        elif word == "Ns":
            shown.append("\0")
        elif word in AROUND:
            shown, closing = [*shown, AROUND[word][0]], [AROUND[word][1], *closing]
        elif word in OPENING or word in CLOSING:
            shown.append(OPENING.get(word) or CLOSING[word])
        else:
            shown.append(f"-{word}" if flag and word not in {*MARKS, "|", "..."} else unescaped(word))
    last = [shown.pop()] if closing and shown[-1] in MARKS else []
    return joined([*shown, *closing, *last])


def parts_of(lines, macro):
    """The lines under each heading, by its name."""
    parts, name = {"": []}, ""
    for line in lines:
        if line.startswith(f".{macro} "):
            name = line[4:]
            parts[name] = []
        else:
            parts[name].append(line)
    return parts


class Page:
    """A page: its name, its section, and the lines under its headings."""

    def __init__(self, path):
        with open(path, encoding="utf-8") as it:
            self.lines = it.read().rstrip("\n").split("\n")
        self.file = os.path.basename(path)
        self.name, _, self.section = self.file.rpartition(".")
        self.parts = parts_of(self.lines, "Sh")

    def subsections(self, heading):
        return parts_of(self.parts.get(heading, []), "Ss")

    def shown(self, lines):
        """The text of lines, as one line."""
        kept = [it for it in lines if not re.match(r"\.(Bl|El|Bd|Ed|Pp|Ss|Sh|Sm|Dd|Dt|Os)\b", it)]
        return " ".join(text_of_macro(it, self.name) if it.startswith(".") else unescaped(it) for it in kept).strip()

    def paragraphs(self):
        """The texts between macros that part them, without literal blocks."""
        part, literal = [], False
        for line in self.lines:
            literal = line.startswith(".Bd ") or literal and not line.startswith(".Ed")
            if literal or re.match(r"\.(Bl|El|Bd|Ed|Pp|Ss|Sh|It)\b", line):
                yield self.shown(part)
                part = []
            else:
                part.append(line)
        yield self.shown(part)

    def items(self, lines):
        """The items of lists: for each its head as it is written and as it is shown, and its lines."""
        items, lists = [], False
        for line in lines:
            if line.startswith((".Bl ", ".El")):
                lists = line.startswith(".Bl ")
            elif lists and line.startswith(".It "):
                items.append((line[4:], self.shown([line]), []))
            elif lists:
                items[-1][2].append(line)
        return items

    def blocks(self, heading):
        """The literal blocks: the text before each, and its lines."""
        before, block = [], None
        for line in self.parts.get(heading, []):
            if line.startswith(".Bd "):
                block = []
            elif line.startswith(".Ed"):
                yield self.shown(before), block
                before, block = [], None
            elif block is None:
                before.append(line)
            else:
                block.append(unescaped(line))


def marked(lines, macro):
    """The words that a macro marks."""
    found = []
    for line in lines:
        on = False
        for word in words_of(line[1:]) if line.startswith(".") else []:
            on = word == macro or on and not re.fullmatch(r"[A-Z][a-z]c?|Bro|Brc", word)
            if on and word != macro and word not in MARKS:
                found.append(unescaped(word))
    return found
