"""Compares the pages of formats, and what other pages have of them, with docs/FORMATS.md and with the program."""

import re
import subprocess

import mdoc

# The objects of a script, each with what it needs; an action of each module.
OBJECTS = {
    "module": {"load": "imtcp"},
    "global": {},
    "main_queue": {},
    "input": {"type": "imtcp", "port": "6514"},
    "ruleset": {"name": "list"},
    "omfile": {"type": "omfile", "file": "file"},
    "omfwd": {"type": "omfwd", "target": "hub", "protocol": "tcp", "TCP_Framing": "octet-counted"},
}
LIMIT = r"\b[\d,]+ (?:inputs|rulesets|actions|workers|occurrences|statements|levels|deep)\b"


def plain(text):
    """A text of a page of docs without its marks and links."""
    return re.sub(r"\[([^\]]*)\]\([^)]*\)", r"\1", text).replace("`", "")


def part_of(text, heading):
    """What is under a heading, up to the next one of its level."""
    level = heading.split(" ")[0]
    part = f"\n{text}".split(f"\n{heading}\n", 1)[1]
    return re.split(rf"(?m)^#{{1,{len(level)}}} ", part)[0]


def table(text, heading, first):
    """The rows of the table under a heading whose first line begins so."""
    part = f"\n{part_of(text, heading)}".split(f"\n{first}", 1)[1]
    lines = re.match(r"(?s).*?((?:\n\|[^\n]*)+)", part)[1].strip("\n").split("\n")[1:]
    return [[it.strip() for it in line.strip("|").split("|")] for line in lines]


def numbers(text):
    """The numbers of a text, but for those of sections of pages."""
    text = re.sub(r"[\w-]+\(\d\)", "", text)
    return sorted(set(re.findall(r"(?<![\w.-])-?\d+(?:,\d{3})*", text)))


def codes(text):
    """The words in code that are values: those that begin with a letter."""
    return sorted(set(re.findall(r"`([A-Za-z][\w:-]*)`", text)))


def of_cell(text, default=""):
    """What a cell says of a parameter."""
    found = re.search(r"`(\w+)` \(default\)|(\S+) by default", text)
    default = default or (found and (found[1] or found[2])) or ""
    return {"required": "(required)" in text, "without effect": "without effect" in text,
            "values": codes(f"{text} {default}"), "numbers": numbers(f"{text} {default}"), "default": plain(default)}


def of_object(cell):
    """The parameters of a cell of the table of objects; those of a queue are one of them."""
    pieces = [re.match(r"`?([\w. ]+)`?(.*)", it) for it in cell.replace(", those", "; those").split("; ")]
    return {it[1]: of_cell(it[2]) if it[0].startswith("`") else {} for it in pieces}


def documented(text):
    """The parameters of docs/FORMATS.md by object."""
    objects = {re.search(r"`(\w+)`", name)[1]: of_object(cell) for name, cell in table(text, "## Parameters", "| Object |")}
    queues = {name: of_cell(cell, default) for names, cell, default in table(text, "## Parameters", "| Queue parameter |")
              for name in re.findall(r"`(queue\.\w+)`", names)}
    hosts = {of: {plain(name).split(" ")[0]: of_cell(cell) for name, cell, _ in table(text, "### Parameters for the host", first)}
             for of, first in (("Host of omfile", "| On an action "), ("Host of input", "| On `input`"))}
    return {**objects, "Queues": queues, **hosts}


def of_item(page, body):
    """What an item of the page says of a parameter."""
    text = page.shown(body)
    return {"text": text, "required": "Required." in text, "without effect": "ithout effect" in text,
            "values": sorted(set(mdoc.marked(body, "Cm"))), "numbers": numbers(text),
            "default": text.partition("Default: ")[2].rstrip(".")}


def on_page(page):
    """The parameters of the page by object."""
    parts = page.subsections("PARAMETERS")
    objects = {name: {it: of_item(page, body) for _, shown, body in page.items(lines) for it in shown.split(", ")}
               for name, lines in parts.items() if name}
    for name, lines in parts.items():
        if name and "parameters of a queue." in page.shown(lines):
            objects[name]["those of a queue"] = {}
    return objects


def script(name, changes):
    """A script in which an object has other parameters; those that are None are left out."""
    text = ""
    for it, base in OBJECTS.items():
        words = {**base, **changes} if it == name else base
        body = " ".join(f'{key}="{value}"' for key, value in words.items() if value is not None)
        text += f'{"action" if it in {"omfile", "omfwd"} else it}({body})' + (" { stop }\n" if it == "ruleset" else "\n")
    return text


def faulty(program, room, tries):
    """Which of at most 64 tries the program finds a fault in: each is a relay of one site."""
    site = "entry hub0 6514\nprotect *.* hub0 action-0\n"
    for number, (place, parameter, value, _) in enumerate(tries):
        with open(f"{room}/{number}", "w", encoding="utf-8") as it:
            it.write(script(place, {parameter: value}))
        site += f"relay hub{number} {number}\n"
    with open(f"{room}/site", "w", encoding="utf-8") as it:
        it.write(site)
    done = subprocess.run([program, "check", "--all", "site"], cwd=room, stdin=subprocess.DEVNULL, capture_output=True,
                          timeout=300, check=False)
    found = re.findall(r"(?m)^syc: 4\d \w+ of hub(\d+): (\S+)$", done.stderr.decode("utf-8", "replace"))
    return {int(number) for number, word in found if word == tries[int(number)][1]}


def values_of(said):
    """Values of a parameter, each with whether the page says that the program takes it."""
    if "octal" in said["text"]:
        return [("0640", True), ("0777", True), ("640", False), ("0680", False), ("1640", False)]
    values = [(it, True) for it in said["values"]] + ([("neither", False)] if said["values"] else [])
    found = re.search(r"(-?\d+)(?: \(off\))? to (\d+)", said["text"])
    if found:
        low, high = int(found[1]), int(found[2])
        values += [(low, True), (high, True), (low - 1, False), (high + 1, False), ("x", False)]
    return (values or [("text", True)]) + ([(None, False)] if said["required"] else [])


def tries_at(place, parameters):
    """Tries of parameters of an object: the place, the parameter, a value, and whether it fits."""
    tries = [(name, *it) for name, said in parameters.items() if said for it in values_of(said)]
    elsewhere = [("queue.workerFlow", "main_queue")] + [("Direct", it) for it in OBJECTS if it != "omfile"]
    return [(place, name, value, fits and (name, place) not in elsewhere and (value, place) not in elsewhere)
            for name, value, fits in tries]


def tried(program, room, page):
    """What the program takes of what the page says of parameters."""
    places = {"action": ["omfile"], "Queues": ["main_queue", "ruleset", "omfile"], "Host of omfile": ["omfile"], "Host of input": ["input", "module"]}
    tries = [it for name, parameters in on_page(page).items() for place in places.get(name, [name])
             for it in tries_at(place, parameters)]
    starts = range(0, len(tries), 64)
    wrong = {start + number for start in starts for number in faulty(program, room, tries[start:start + 64])}
    for at, (place, parameter, value, fits) in enumerate(tries):
        yield f"whether the program takes {parameter}={value} of {place}", fits, at not in wrong


def compared_parameters(page, text):
    """The parameters of the page beside those of docs/FORMATS.md."""
    wanted, got = documented(text), on_page(page)
    yield "the objects", sorted(wanted), sorted(got)
    yield from ((f"the parameters of {it}", sorted(wanted[it]), sorted(got.get(it, []))) for it in wanted)
    for name, parameter, said in [(it, *more) for it in wanted for more in wanted[it].items()]:
        shown = got.get(name, {}).get(parameter, {})
        yield f"{parameter} of {name}", said, {it: shown.get(it) for it in said}


def compared(page, text):
    """What syc-conf.5 has, beside docs/FORMATS.md."""
    yield from compared_parameters(page, text)
    yield "the properties", properties(text), properties_on(page)
    shown = page.shown(page.subsections("DESCRIPTION")["Selectors"])
    for kind in ("Facilities", "Severities"):
        names = re.search(rf"{kind}: ([^.]*)\.", part_of(text, "## Selectors"))[1]
        yield kind, re.sub(r" \d+( to \d+)?(?=,|$)", "", names), re.search(rf"{kind}: ([^.]*)\.|$", shown)[1]
    scripts, shown = part_of(text, "## Scripts (RainerScript)"), page.shown(page.parts["LIMITS"])
    limits = {*re.findall(LIMIT, scripts), *re.findall(LIMIT, part_of(text, "## Parameters"))}
    yield "the limits", sorted(limits), sorted(set(re.findall(LIMIT, shown)))
    most = re.search(r"at most ([\d,]+)\.", scripts)[1]
    yield "the bytes of a configuration", 1, shown.count(f"at most {most} bytes")


def properties(text):
    """The operators of each property of docs/FORMATS.md."""
    found, operators = {}, []
    for names, cell, *_ in table(text, "## Expressions", "| Property |"):
        operators = operators if cell == "the same" else sorted(re.findall(r"`([^`]+)`", cell))
        found.update((it, operators) for it in re.findall(r"`(\$[\w-]+)`", names))
    return found


def properties_on(page):
    """The operators of each property of the page."""
    found = {}
    for _, shown, body in page.items(page.subsections("DESCRIPTION")["Expressions"]):
        operators = re.search(r"Operators: (.*?), with|$", page.shown(body))[1]
        found.update((it, sorted(operators.split(", "))) for it in shown.split(", ") if it.startswith("$"))
    return found


def of_words(page, text):
    """The words of a site file, with their numbers: those behind `listen` are one with the others."""
    said = {it[1]: page.shown(it[2]) for it in page.items(page.subsections("DESCRIPTION")["Words"])}
    rows = [(row[0].removeprefix("`listen` "), row[1]) for row in table(text, "## Site file", "| Word |")]
    yield "the words", sorted({it[0] for it in rows}), sorted(said)
    for word in said:
        what = " ".join(what for name, what in rows if name == word)
        yield f"the numbers of {word}", numbers(re.sub(r"IPv\d", "", what)), numbers(said[word])


def of_site(page, text):
    """The lines, words, limits and faults of a site file beside those of docs/FORMATS.md."""
    part, parts = part_of(text, "## Site file"), page.subsections("DESCRIPTION")
    heads = {name: [it[1] for it in page.items(lines)] for name, lines in parts.items()}
    lines = re.findall(r"(?m)^    (.+)$", part)
    yield "the lines", [it.lower() for it in lines], [it.lower() for it in heads["Lines"]]
    yield from of_words(page, text)
    yield "the faults", [" ".join(it[:2]) for it in table(text, "## Site file", "| | Fault |")], heads["Faults"]
    limits, shown = re.search(r"At most (.*?)\.", part)[1], page.shown(parts["Limits"])
    yield "other limits", numbers(limits), numbers(shown)
    for it in limits.split(", "):
        yield f"the limit {it}", 1, shown.count(it.removeprefix("and "))


def of_findings(page, text):
    kinds = [" ".join(it[:2]) for it in table(text, "## Certificates", "| | Kind |")]
    shown = [it[1] for it in page.items(page.subsections("DESCRIPTION")["Kinds of findings"])]
    yield "the kinds of findings", sorted(kinds), sorted(shown)


def of_events(page, text):
    events = [code for line, _ in table(text, "## Events", "| Line |") for code in re.findall(r"`([^`]* [^`]*)`", line)]
    yield "the events", sorted(events), sorted(it[1] for it in page.items(page.subsections("DESCRIPTION")["Events"]))
