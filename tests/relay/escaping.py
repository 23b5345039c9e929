"""Archives whose lines have escapes: one line for each message, whatever bytes come, by a model of these tests."""

import os
import random
import re
import shutil
import subprocess

from daemons import PATH, start
from peers import send_all, send_side_by_side, split
from room import LeftOut, imtcp, module, omfile, same, test, totals

ESCAPES, SYNC = ' escapeControlCharacters="on"', ' sync="on"'
FORGED = b"<34>1 2025-06-01T10:20:30Z host sshd - - - Accepted password for root"
QUEUE = ' queue.type="LinkedList" queue.size="50000"'
CONTROL = re.compile(rb"[\x00-\x1f\x7f]")
ESCAPED = re.compile(rb"[\x00-\x1f\x7f]|#(?=[0-7]{3})")
EVERY = bytes(range(256))
ENDS = b"", b"\n", b"\n\n"
HASHES = [b"#012", b"#12", b"##777", b"#", b"##", b"#0", b"#01", b"#018", b"#081", b"#801", b"#0\x001", b"#400", b"#777", b"#043", b"#043012",
          b"#\n", b"#0\n12", b"####012", b"#01#012", b"#\xef\xbc\x90\xef\xbc\x91\xef\xbc\x92"]
# (bytes, and what is written for them, by the rule and not by the model)
WRITTEN = [(b"", b""), (b"a\tb", b"a#011b"), (b"\x00\x1f\x20\x7e\x7f\x80\x9f\xff", b"#000#037 ~#177\x80\x9f\xff"), (b"a\n", b"a"),
           (b"a\n\n", b"a#012"), (b"a\r\n", b"a#015"), (b"a\n\r", b"a#012#015"), (b"\n", b""), (b"#012", b"#043012"), (b"#12", b"#12"),
           (b"##777", b"##043777"), (b"#043012", b"#043043012"), (b"#018", b"#018"), (b"#0\n12", b"#0#01212"), (b"#\n", b"#"), (b"#\n\n", b"##012")]


# ---- The model

def trimmed(text):
    """A message without one line feed at its end."""
    return text.removesuffix(b"\n")


def line_of(text):
    """The line of a message, without its line feed."""
    return ESCAPED.sub(lambda it: b"#%03o" % it[0][0], trimmed(text))


def lines_of(texts):
    return [line_of(it) for it in texts]


def value(text):
    """A PARAM-VALUE of these bytes."""
    return re.sub(rb'["\\\]]', rb"\\\g<0>", text)


def with_value(number, said, inside):
    return b'<34>1 - - app - n%d [t@1 v="%s"] %s' % (number, value(inside), said)


def every_kind():
    """Messages with each byte in MSG and in a PARAM-VALUE, with line feeds at the end, with all that begins like an escape, and without MSG."""
    found = [b"<34>1 - - - - - -", b"<34>1 - - - - - - ", b"<34>1 - - - - - - \n", b"<34>1 - - - - - - \n\n", b'<34>1 - - - - - [t@1 v="\n"]',
             b"<34>1 - #012 ##777 #12 #018 - x", b"<34>1 - - #400 - - - \xef\xbb\xbf\xc3\xa4\x01"]
    found += [with_value(it, b"a" + EVERY[it:it + 1] + b"z", b"b" + EVERY[it:it + 1] + b"y") for it in range(256)]
    found += [with_value(it, EVERY[it:it + 1], EVERY[it:it + 1]) for it in range(256)]
    for end in *ENDS, b"\r\n", b"\n\r", b"\n\n\n", b"\n\x00":
        found += [with_value(0, it + end, it) for it in (b"", b"x", EVERY, EVERY[::-1], *HASHES)]
    # (the longest frames, whose lines are four times as long)
    head = b"<34>1 - - - - - - "
    return found + [head.ljust(65_536, b"\x00"), head.ljust(65_535, b"\x1b") + b"\n", (head + b"#012" * 16_384)[:65_536]]


def strange(source, number, connection):
    """A message of a few random bytes, of which most are written otherwise or nearly so; its MSGID tells which one it is."""
    few = b"\x00\n\r\t\x1b\x7f##01247a \xc3\xff"
    said = bytes(source.choice(few) for _ in range(source.randrange(40)))
    return b'<34>1 - - - - c%dn%d [t@1 v="%s"] %s%s' % (connection, number, value(said[::-1]), said, source.choice(ENDS))


# ---- What is wanted of an archive

def hub(room, more=ESCAPES, retries=-1, after="", file="audit.log", **started):
    """Starts a relay with an archive, audit.log; answers it and its port."""
    port = room.port()
    room.site({"hub": module() + imtcp(port) + omfile("audit", file, retries, 0, more) + after})
    return room.start("hub", port, words=["--unchecked", "site", "hub"], **started), port


def read_back(room, *words, stdout=subprocess.PIPE):
    """What `syc lines` of these words ends with: its status, its lines on standard error, and what it prints."""
    came = subprocess.run([room.program, "lines", *words], cwd=room.folder, stdin=subprocess.DEVNULL, stdout=stdout, stderr=subprocess.PIPE,
                          check=False)
    return came.returncode, came.stderr.decode("latin-1").splitlines(), came.stdout


def gives_back(room, name, texts, left=()):
    """Has `syc lines` give messages back from an archive, each but for one line feed at its end, and tell of the lines of these numbers."""
    status, faults, output = read_back(room, name)
    found, rest = split(output)
    same("the messages of syc lines", (found, rest), ([trimmed(it) for it in texts], b""))
    same("the lines that it leaves", [int(re.match(r"syc: line (\d+) ", it)[1]) for it in faults], list(left))
    same("status of syc lines", status, 1 if left else 0)


def is_clean(room, name):
    """No line of an archive has a control character."""
    same("lines with a control character", [it for it in room.lines(name) if CONTROL.search(it)], [])


def has_each(room, name, texts):
    """Waits until an archive has the lines of these messages in their order, and each can be read back."""
    room.holds(name, lines_of(texts))
    is_clean(room, name)
    gives_back(room, name, texts)


# ---- Which bytes are escaped

@test
def lines_by_the_rule(_room):
    for text, wanted in WRITTEN:
        same(f"the model's line of {text!r}", line_of(text), wanted)


def every_kind_by(room, more, after=""):
    relay, port = hub(room, ESCAPES + more, after=after)
    texts = every_kind()
    send_all(port, texts)
    has_each(room, "audit.log", texts)
    count = len(texts)
    relay.stops_with(totals(count, 0, 0, ("audit", count, count, 0, 0), *([("after", count, count, 0, 0)] if after else [])))


@test
def each_byte_in_a_line(room):
    every_kind_by(room, "")


@test
def each_byte_in_a_line_by_a_queue_of_the_action(room):
    every_kind_by(room, QUEUE)


@test
def each_byte_in_a_line_one_message_after_the_other(room):
    # (an action with others in its list gets message after message)
    every_kind_by(room, "", omfile("after", "after.log"))


@test
def each_byte_in_a_line_that_is_synced(room):
    every_kind_by(room, SYNC)


@test
def strange_messages_of_eight_at_once(room):
    source = random.Random(8)
    lists = [[strange(source, number, it) for number in range(2500)] for it in range(8)]
    count, wanted = sum(map(len, lists)), sorted(it for texts in lists for it in lines_of(texts))
    for more in "", QUEUE, SYNC:
        relay, port = hub(room, ESCAPES + more)
        send_side_by_side(port, lists)
        room.has("audit.log", count)
        relay.stops_with(totals(count, 0, 0, ("audit", count, count, 0, 0)))
        lines = room.lines("audit.log")
        same(f"the lines in any order, with {more!r}", sorted(lines) == wanted, True)
        is_clean(room, "audit.log")
        by_number = {b" c%dn%d " % (it, number): text for it, texts in enumerate(lists) for number, text in enumerate(texts)}
        gives_back(room, "audit.log", [by_number[re.search(rb" c\dn\d+ ", it)[0]] for it in lines])
        os.unlink(room.path("audit.log"))


@test
def forged_record(room):
    relay, port = hub(room, after=omfile("plain", "plain.log"))
    forging = b"<38>1 - host app - - - x\n" + FORGED
    send_all(port, [forging])
    has_each(room, "audit.log", [forging])
    room.holds("plain.log", [forging])
    same("lines of both", (room.count("audit.log"), room.lines("plain.log")[1:]), (1, [FORGED]))
    relay.stops_with(totals(1, 0, 0, ("audit", 1, 1, 0, 0), ("plain", 1, 1, 0, 0)))


# ---- Lines that no relay writes

@test
def lines_without_a_message_are_left(room):
    head = b"<34>1 - - - - - - "
    # (a control character; escapes of none, of a `#` without digits behind it, and of no byte; no message, no bytes, and no end)
    bad = [head + b"a\tb", head + b"#041", head + b"#043x", head + b"#400", head + b"#777", b"no message", b"", head + b"\x7f"]
    lines = [it for number, one in enumerate(bad) for it in (head + b"%d#012" % number, one)]
    room.write("lines", b"".join(it + b"\n" for it in lines) + head + b"cut")
    gives_back(room, "lines", [head + b"%d\n\n" % number for number in range(len(bad))], [*range(2, 2 * len(bad) + 1, 2), 2 * len(bad) + 1])
    room.write("lines", b"x\n" * 25 + head + b"\n")
    status, faults, output = read_back(room, "lines")
    same("how many are told, and the message behind them", (status, len(faults), output), (1, 11, b"%d %s" % (len(head), head)))
    same("how many there are in all", re.findall(r"\d+", faults[-1]), ["25"])


@test
def lines_of_what_cannot_be_read(room):
    room.write("lines", lines_of([FORGED])[0] + b"\n")
    for words, status in ((), 2), (("lines", "lines"), 2), (("nowhere",), 4), (("/",), 4):
        came = read_back(room, *words)
        same(f"status of syc lines with {words}, and output", (came[0], came[2]), (status, b""))
    with open("/dev/full", "wb") as full:
        same("status where the output is full", read_back(room, "lines", stdout=full)[0], 4)


# ---- rsyslogd

RSYSLOG = """global(workDirectory="{folder}" maxMessageSize="64k" parser.escapeControlCharactersOnReceive="on")
module(load="imtcp")
input(type="imtcp" address="127.0.0.1" port="{port}")
template(name="line" type="string" string="%msg%\\n")
action(type="omfile" file="{folder}/theirs.log" template="line")
"""


@test
def escapes_as_rsyslogd_writes_them(room):
    program = shutil.which("rsyslogd", path=PATH)
    if program is None:
        raise LeftOut("there is no rsyslogd (package rsyslog)")
    theirs = start(room, [program, "-n", "-i", "NONE"], "rsyslogd", lambda port: RSYSLOG.format(folder=room.folder, port=port))
    relay, ours = hub(room)
    head = b"<34>1 2025-06-01T10:20:30Z host app 1 - - "
    # (rsyslogd leaves out a NUL at the end of a message too)
    said = [b"a" + EVERY[it:it + 1] + b"z" for it in range(256)] + [it + end for it in (b"x", EVERY, *HASHES) for end in ENDS]
    said += [it for it in (strange(random.Random(it), it, 0).split(b"] ", 1)[1] for it in range(2000)) if it and not it.endswith((b"\x00", b"\x00\n"))]
    for port in theirs, ours:
        send_all(port, [head + it for it in said])
    has_each(room, "audit.log", [head + it for it in said])
    room.has("theirs.log", len(said))
    relay.stops_with(totals(len(said), 0, 0, ("audit", len(said), len(said), 0, 0)))
    # (it escapes no `#`, and no DEL)
    plain = {b"#043": b"#", b"#177": b"\x7f"}
    found = [re.sub(rb"#043(?=[0-7]{3})|#177", lambda it: plain[it[0]], it.removeprefix(head)) for it in room.lines("audit.log")]
    same("how many lines rsyslogd wrote", room.count("theirs.log"), len(said))
    for text, one, other in zip(said, found, room.lines("theirs.log")):
        same(f"the line of {text!r}, by rsyslogd", other, one)
