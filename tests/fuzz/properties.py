"""What holds of each case, by kind. None of it is a second model of the program: its answers are compared with each other,
and with what the formats allow."""

import json
import re

from mutate import cuttings
from program import hold

ACCEPTED = re.compile(rb"accepted: \d+ protected classes\n")
REFUSED = re.compile(rb"refused: [a-z0-9]+\.[a-z]+ at [A-Za-z0-9._-]+ \d+: \d+ [A-Z][A-Za-z]+( [A-Za-z0-9._-]+ [^\n]*)?\n(  [A-Za-z0-9._-]+ \d+ by \d+\n)*", re.DOTALL)
WRONG_ROW = re.compile(rb"refused: certificate line \d+: (cert|class|reach|branch|rank|inner|path)\n")
LOSS = re.compile(rb"loss line (\d+) message (\d+) at ([A-Za-z0-9._-]+) ([a-z0-9]+\.[a-z]+) (take|expire|grab|giveup|post|postlost)( spare)?")
EVENTS = re.compile(rb"events (\d+) messages (\d+) losses (\d+)")
SURVEYED = re.compile(rb"fleet\.conf: (?:may lose: (\d+) findings?|nothing found) for \d+ class(?:es)?, \d+ assumptions?\n")
FOUND = re.compile(rb"(?m)^fleet\.conf:(\d+):(\d+): (?:\d+ )?[A-Z][A-Za-z]+[^\n]*\n  why: [^\n]+\n  change: [^\n]+$")
SEVERITIES = b"emerg alert crit err warning notice info debug".split()
FACILITIES = b"kern user mail daemon auth syslog lpr news uucp cron authpriv ftp 12 13 14 15 local0 local1 local2 local3 local4 local5 local6 local7".split()


def of_stream(runner, random, text):
    """A stream: one answer for every cutting; a prefix of it has a prefix of its lines, and its fault or none of its own."""
    whole = runner.run("pass", given=text)
    hold(whole.status in (0, 2), f"pass ended with {whole.status}")
    hold(len(whole.out) <= len(text), "more was written than was read")
    for _ in range(2):
        cut = runner.run("pass", pieces=cuttings(random, text))
        hold(cut == whole, f"another answer for another cutting: {cut.status} {cut.said[:99]!r} {len(cut.out)} for {whole.status} {whole.said[:99]!r} {len(whole.out)}")
    front = runner.run("pass", given=text[: random.randint(0, len(text))])
    hold(whole.out.startswith(front.out), "a prefix has other lines")
    hold(front.status == 0 or b" 13 Truncated " in front.said or front == whole, f"a prefix has a fault of its own: {front.said[:99]!r}")


def of_site(runner, random, files):
    """A site: check, certify, --explain, --all and verify agree."""
    runner.put(files)
    checked = runner.run("check", "site")
    certified = runner.run("certify", "site")
    if checked.status == 0:
        hold(ACCEPTED.fullmatch(checked.out), f"check wrote {checked.out[:200]!r}")
        hold(certified.status == 0, f"check accepts, certify ends with {certified.status}")
        runner.put({**files, "fuzz.cert": certified.out})
        verified = runner.run("verify", "site", "fuzz.cert")
        hold(verified == checked, f"the certificate that certify wrote: {verified.status} {verified.out[:200]!r}")
        hold(runner.run("check", "--all", "site") == checked, "check --all answers otherwise")
        return
    hold(certified == checked, f"certify answers otherwise: {certified.status} {certified.out[:99]!r} {certified.said[:99]!r}")
    more = runner.run("check", "--explain", "site")
    told = runner.run("check", "--all", "site")
    hold((more.status, told.status) == (checked.status, checked.status), f"--explain or --all: {more.status}, {told.status}")
    if checked.status == 1:
        hold(REFUSED.fullmatch(checked.out), f"check wrote {checked.out[:200]!r}")
        hold(more.out.startswith(checked.out), "check --explain begins with other lines")
        count = re.match(rb"refused: (\d+) findings? for \d+ class", told.out)
        hold(count and told.out.count(b"\n") == int(count[1]) + 1, f"check --all wrote {told.out[:200]!r}")
    else:
        hold(checked.out == b"" and told.out == b"", "a faulty site, with an answer")
        hold(more.said.startswith(checked.said), "check --explain begins with another fault")
        hold(told.said.startswith(checked.said), "check --all begins with another fault")


def named_alike(told):
    """What is told of a configuration, whether by itself or by another file that includes it: of stops the lines alone, since
    those of another file than the input's have its name; and nothing of where a text ends within something, which is the end of
    the file that includes it."""
    told = re.sub(rb"(?m)^syc: [^\n]*: (?=not read: the text ends within)", b"", told)
    told = told.replace(b"./host.conf", b"fleet.conf").replace(b"./fleet.conf", b"fleet.conf")
    return re.sub(rb"; stops: [^\n]*", lambda it: b" ".join(re.findall(rb"\d+", it[0])), told)


def of_conversion(runner, text):
    """What is made of that configuration for a relay: what stands at its end is what `check` says of the site there, with all that
    was printed as the relay's file."""
    made = runner.run("convert", "fleet.conf")
    if made.status > 1:
        return
    site = b"".join(it + b"\n" for it in re.findall(rb"(?m)^#   ((?:relay|entry|protect) [^\n]*)$", made.out.rsplit(b"\n# A site file for", 1)[-1]))
    if b"\n# A site file for" not in made.out:
        hold(made.status == 1 and made.out.endswith(b"let syc check read that.\n"), f"convert ended with {made.status} and wrote {made.out[-200:]!r}")
        return
    runner.put({"fleet.conf": text, "plan": made.out, "site": site})
    checked = runner.run("check", "site")
    hold(checked.status <= made.status, f"check ends with {checked.status}, convert with {made.status}")
    hold(made.out.endswith(b"\n#   " + checked.out), f"check says {checked.out!r}, convert {made.out[-200:]!r}")


def of_fleet(runner, text):
    """A configuration of rsyslogd: its lines are of the documented form, its document has the same findings, and it is judged
    the same where another file includes it. What a relay is made of it is judged as it says."""
    runner.put({"fleet.conf": text, "host.conf": b'include(file="/fleet.conf")\n'})
    alone = runner.run("survey", "fleet.conf")
    included = runner.run("survey", "--root", ".", "/host.conf")
    told = [named_alike(it) for it in (included.out, included.said)]
    of_conversion(runner, text)
    hold((included.status, *told) == (alone.status, *map(named_alike, alone[1:])),
         f"another answer where it is included: {included.status} {told[0][:300]!r} {told[1][:99]!r}")
    if alone.status > 1:
        hold(alone.out == b"", "not judged, with an answer")
        return
    first = SURVEYED.match(alone.out)
    hold(first, f"survey wrote {alone.out[:200]!r}")
    found = FOUND.findall(alone.out)
    hold(len(found) == int(first[1] or 0), f"{first[0]!r} with {len(found)} findings")
    hold(found or alone.status == 0, "status 1 with nothing found")
    written = runner.run("survey", "--json", "fleet.conf")
    (host,) = json.loads(written.out)["hosts"]
    hold((written.status, len(host["findings"])) == (alone.status, len(found)), "the document has other findings")


def freed(certificate):
    """A certificate without what may be chosen freely in it: the numbers of ranks and lists, and the occurrences of paths."""
    rows = []
    for row in certificate.split(b"\n"):
        words = row.split(b" ")
        rows.append(b" ".join(words[: {b"rank": 2, b"inner": 3, b"path": 5}.get(words[0])]))
    return rows


def of_certificate(runner, random, files, text):
    """A mutant of a certificate that certify wrote, for its site: it is accepted only where it is fit, so far as may be said
    without knowing the site: its rows are the certificate's, but for ranks, which fall along each path, numbers of lists, and paths."""
    runner.put(files)
    own = runner.run("certify", "site")
    runner.put({**files, "fuzz.cert": text})
    ended = runner.run("verify", "site", "fuzz.cert")
    if ended.status == 1 and own.status == 0:
        hold(WRONG_ROW.fullmatch(ended.out), f"verify wrote {ended.out[:200]!r}")
    if own.status == 0 and text == own.out:
        hold(ended.status == 0, f"verify ends with {ended.status} for what certify writes")
    if ended.status != 0:
        return
    hold(own.status == 0, "verify accepts where certify refuses")
    hold(freed(text) == freed(own.out), "verify accepts other rows")
    ranks = {}
    for words in (row.split(b" ") for row in text.split(b"\n")):
        if words[0] == b"class":
            ranks = {}
        if words[0] == b"rank":
            ranks[words[1]] = int(words[2])
        if words[0] == b"path":
            hold(words[1] == words[3] or ranks[words[1]] > ranks[words[3]], "verify accepts ranks that don't fall along a path")
            hold(words[1] == words[3] or len(words) > 5, "verify accepts a path without forwards between two relays")


def protected(certificate):
    """The protected classes of a site, by name, and its entries."""
    classes, entries = set(), set()
    for words in (row.split(b" ") for row in certificate.split(b"\n")):
        if words[0] == b"class":
            number = int(words[1])
            classes.add(FACILITIES[number // 8] + b"." + SEVERITIES[number % 8])
        if words[0] == b"path":
            entries.add((words[1], words[2]))
    return classes, entries


def of_events(runner, random, files, text):
    """Events over a site: the lines that are told are of the format and add up; where the site is accepted, no message of a
    protected class that came in at an entry is lost, but at or after a spare action."""
    runner.put({**files, "fuzz.events": text})
    ended = runner.run("replay", "site", "fuzz.events")
    lines = text.split(b"\n")
    brought = [it.split(b" ")[1:3] for it in lines if re.match(rb"take [^ ]+ \d+ \d+ new ", it)]
    rows = ended.out.split(b"\n")[:-1]
    hold(ended.out == b"" or ended.out.endswith(b"\n"), "an unended line")
    if ended.status == 0:
        last = EVENTS.fullmatch(rows.pop() if rows else b"")
        hold(last, f"no last line: {ended.out[-200:]!r}")
        made = sum(1 for it in lines if it and not it.startswith(b"#"))
        hold((int(last[1]), int(last[2]), int(last[3])) == (made, len(brought), len(rows)), f"{last[0]!r} after {made} events, {len(brought)} messages, {len(rows)} losses")
    losses = [LOSS.fullmatch(it) for it in rows]
    hold(all(losses), f"replay wrote {ended.out[:200]!r}")
    if not losses:
        return ended
    own = runner.run("certify", "site")
    if own.status == 0:
        classes, entries = protected(own.out)
        for it in losses:
            hold(it[6] or it[4] not in classes or tuple(brought[int(it[2])]) not in entries, f"an accepted site lost a protected message: {it[0]!r}")
    return ended
