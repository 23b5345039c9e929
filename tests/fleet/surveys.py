"""`syc survey` of each configuration beside what it is to find there."""

import json
import os
import re
import subprocess

from room import Failure, same, shown, test

HERE = os.path.dirname(os.path.realpath(__file__))
FINDING = re.compile(r"\S+\.conf:(\d+):\d+: (.*)")
TOLD = re.compile(r"(.*):(\d+):(\d+): (?:(\d+) )?(\w+)(?: (.*?))?: (\S+(?: \(\d+ classes\))?)")
ASSUMPTION = re.compile(r"\S+\.conf: assumed of line ([\d, ]+): (.*)")


def rows():
    """The rows of the table: of each configuration what is wanted."""
    with open(f"{HERE}/findings", encoding="utf-8") as it:
        for row in it:
            name, *wanted = row.split() if not row.startswith("#") else [""]
            if wanted:
                yield name, wanted


def has_surveys(program):
    done = subprocess.run([program, "--help"], stdin=subprocess.DEVNULL, stdout=subprocess.PIPE, check=False)
    return b"\n  survey " in done.stdout


def is_there(said, form, line, word):
    """Whether a line of this form names that line and has the word."""
    found = [it for it in map(form.fullmatch, said.splitlines()) if it]
    return any(line in re.findall(r"\d+", it[1]) and word in it[2] for it in found)


def asked(room, *words):
    """The exit status of a survey, and what it says."""
    done = subprocess.run([room.program, "survey", *words], stdin=subprocess.DEVNULL, stdout=subprocess.PIPE,
                          stderr=subprocess.STDOUT, check=False)
    return done.returncode, done.stdout.decode("utf-8", "replace")


def told(said):
    """The findings that a text tells: file, line, column, kind, name, subject, number of classes, why and what to change."""
    lines = said.splitlines()
    for at, line in enumerate(lines):
        found = TOLD.fullmatch(line)
        if found:
            file, row, column, kind, name, subject, classes = found.groups()
            count = re.search(r"\((\d+) classes\)$", classes)
            yield (file, int(row), int(column), kind and int(kind), name, subject or "", int(count[1]) if count else 1,
                   lines[at + 1].removeprefix("  why: ").split("; stops: ")[0], lines[at + 2].removeprefix("  change: "))


def documents(room, path, status, said):
    """Whether the documents say what the text says."""
    wanted = list(told(said))
    came = asked(room, "--json", path)
    same("status with --json", came[0], status)
    document = json.loads(came[1])
    (host,) = document["hosts"]
    same("statuses", (document["format"], document["command"], document["status"], host["status"]), (1, "survey", status, status))
    same("findings", [(it["file"], it["line"], it["column"], it["kind"], it["name"], it["subject"], len(it["classes"]), it["why"],
                       it["change"]) for it in host["findings"]], wanted)
    same("assumed", [it["what"] for it in host["assumed"]], [it.split(": ", 2)[2] for it in said.splitlines() if ": assumed of" in it])
    same("changes", {(it["kind"], it["name"], it["subject"], it["change"]) for it in document["changes"]},
         {it[3:6] + it[8:] for it in wanted})
    came = asked(room, "--sarif", path)
    same("status with --sarif", came[0], status)
    (run,) = json.loads(came[1])["runs"]
    places = [(it["ruleId"], it["locations"][0]["physicalLocation"]["region"]) for it in run["results"]]
    same("results", places, [(it[4], {"startLine": it[1], "startColumn": it[2]}) for it in wanted])
    same("exit code", run["invocations"][0]["exitCode"], status)


def survey(room, name, wanted):
    path = f"{HERE}/configurations/{name}.conf"
    status, said = asked(room, path)
    if status < 2:
        documents(room, path, status, said)
    if wanted == ["nothing"]:
        same(f"status ({shown(said)})", status, 0)
    elif wanted[0] == "assumed":
        if status > 1 or not is_there(said, ASSUMPTION, *wanted[1:]):
            raise Failure(f"wanted {' '.join(wanted)!r}, came {shown(said)}")
    else:
        same(f"status ({shown(said)})", status, 1)
        if not is_there(said, FINDING, *wanted):
            raise Failure(f"wanted {' '.join(wanted)!r}, came {shown(said)}")


def add(name, wanted):
    def body(room):
        survey(room, name, wanted)
    body.__name__ = f"survey_{name.replace('/', '_')}"
    test(body)


def add_all():
    for it in rows():
        add(*it)
