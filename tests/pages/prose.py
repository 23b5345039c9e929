"""How long pages and their sentences are."""

import glob
import os
import re

MOST_WORDS, OF_THE_BOOK, LINES_OF_README = 60_000, 12_000, 150
IN_README, ELSEWHERE = 30, 40
ITEM = re.compile(r"\s*(?:[-*]|\d+\.) ")


def pages(top):
    """The pages of the repository, README first."""
    named = [f"{top}/README.md", *sorted(glob.glob(f"{top}/docs/*.md")), *sorted(glob.glob(f"{top}/docs/book/*.md"))]
    named += [f"{top}/tests/README.md", *sorted(glob.glob(f"{top}/crates/*/README.md"))]
    return [os.path.relpath(it, top) for it in named]


def texts(page):
    """What stands by itself on a page: its headings, paragraphs, items and cells, without blocks of code."""
    page = re.sub(r"(?s)<!--.*?-->", "", re.sub(r"(?ms)^```.*?^```$", "", page))
    part, blank = [], True
    for line in page.split("\n"):
        code = blank and line.startswith("    ") and not ITEM.match(line)
        if part and (code or not line.strip() or line.startswith(("#", "|")) or ITEM.match(line)):
            yield " ".join(part)
            part = []
        if code:
            continue
        blank = not line.strip()
        if line.startswith("|"):
            kept = re.sub(r"`[^`]*`", lambda it: it[0].replace("|", "\0"), line)
            yield from (it.replace("\0", "|") for it in re.split(r"(?<!\\)\|", kept))
        elif line.strip():
            part.append(re.sub(r"^[\s>]*(?:(?:[-*]|\d+\.|#+) )?", "", line))
    yield " ".join(part)


def sentences(text):
    """A text's sentences; a stop within code ends none."""
    kept = re.sub(r"`[^`]*`", lambda it: re.sub(r"[.?!]", "\0", it[0]), text)
    return [it.replace("\0", ".") for it in re.split(r"(?<=[.?!])[)*\"']*\s+", kept)]


def judge(top):
    """What is wrong with the pages, and how many were looked at; README by itself, the book and all together are three more."""
    wrong, words, of_book, named = [], 0, 0, pages(top)
    for page in named:
        with open(f"{top}/{page}", encoding="utf-8") as it:
            text = it.read()
        most = IN_README if page == "README.md" else ELSEWHERE
        long = [it for part in texts(text) for it in sentences(part) if len(it.split()) > most]
        found = [f"{page}: {len(it.split())} words, of at most {most}: {' '.join(it.split()[:8])} .." for it in long]
        wrong.append("\n".join(found))
        words += 0 if page.startswith("docs/THEOREM") else len(text.split())
        of_book += len(text.split()) if page.startswith("docs/book/") else 0
        if page == "README.md":
            lines = text.count("\n")
            wrong.append(f"README has {lines} lines, of at most {LINES_OF_README}" if lines > LINES_OF_README else "")
    wrong.append(f"the book has {of_book} words, of at most {OF_THE_BOOK}" if of_book > OF_THE_BOOK else "")
    wrong.append(f"the pages have {words} words, of at most {MOST_WORDS}" if words > MOST_WORDS else "")
    return [it for it in wrong if it], len(wrong)
