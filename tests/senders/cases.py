"""The senders with the examples, and at their defaults: what is sent, taken and unread.

With an example each frame that a sender sends is taken, and each token of its records is in the archive. At its defaults
each frame is taken or unread, as `status` counts them while the sender is there, and the totals at the end.
"""

import logging.handlers
import re
import socket
import subprocess
import time

import corpus
from peers import Sender, frame
from room import LeftOut, Failure, imtcp, module, omfile, same, test, totals, until
from senders import (EXAMPLES, INPUT, LOG4J2, PROTOCOL_23, RSYSLOGD, SOCKET_APPENDER, SYSLOG_APPENDER, SYSLOG_NG, Daemon, Log4j2, Logger,
                     PythonLogging, example)
from tap import Tap, lacking

TOKEN = re.compile(rb"\{(\d{3}|last)\}|\bq9\d\d\b")
UNREAD, SECOND = b"[unread@32473 ", b' part="2/2"]'
LIMIT = 600  # seconds for a test, beside much other work
QUIET = 1  # seconds in which nothing comes, where no condition tells that all came
LOGGER = ["logger", "--rfc5424", "--tcp", "--octet-count", "--server", "127.0.0.1"]
AT_DEFAULTS = "_at_defaults"
counts_alone = False  # whether the counts of the defaults are printed, and nothing is asked


def hub(room, *more, at=None):
    """Starts a hub that is accepted, with one archive; answers it, its port and a tap before that, at a port that is given or another."""
    port = room.port()
    room.site({"hub": module() + imtcp(port) + omfile("audit", "audit.log")}, f"entry hub {port}", "protect auth.* hub audit")
    relay = room.start("hub", port, words=[*more, "site", "hub"])
    return relay, port, Tap(at or room.port(), port)


def status(relay, port, tap):
    """What `status` says, once all that was sent is read: taken, and unread where there is such a line."""
    until("the tap has handed all on", tap.is_empty)
    relay.rests(port)
    relay.is_told(b"status\n", port)
    taken = re.findall(r"(?m)^taken (\d+) lost 0 held 0$", relay.errors())
    unread = re.findall(r"(?m)^unread (\d+)$", relay.errors())
    if not taken:
        raise Failure(f"status says {relay.errors()!r}")
    return int(taken[-1]), int(unread[-1]) if unread else 0


def tell(room, text):
    print(f"senders: {room.folder.rpartition('/')[2]}: {text}", flush=True)


def lines_of(messages):
    return sorted(b"".join(it + b"\n" for it in messages).split(b"\n"))


def are_messages(room, frames):
    """Of these frames those that carry messages, as `syc pass` has it."""
    passes = lambda it: subprocess.run([room.program, "pass"], input=frame(it), stdout=subprocess.DEVNULL, stderr=subprocess.DEVNULL,
                                       check=False).returncode == 0
    return [it for it in frames if passes(it)]


def all_is_taken(room, start, refused=lambda sender: [], is_late=False):
    """Each frame is taken, but for those with the tokens that are known to be refused; each token of the records is in the archive.
    A relay that is late begins once the sender has its records."""
    at = room.port()
    relay, port, tap = (None, None, None) if is_late else hub(room, at=at)
    sender = start(at)
    sender.give()
    if is_late:
        relay, port, tap = hub(room, at=at)
    tap.has(sender.records.tokens)
    taken, _ = status(relay, port, tap)
    frames = tap.frames()
    known = [it for it in frames if any(token in it for token in refused(sender))]
    same("how many of the frames are taken, by `status`", (taken, len(known)), (len(frames) - len(known), len(refused(sender))))
    without = sum(not TOKEN.search(it) for it in frames)
    if without < sender.records.without:
        raise Failure(f"{without} frames have no token, of at least {sender.records.without}")
    sender.end()
    same("what is left after the frames", [rest for _, rest in tap.streams() if rest], [])
    wanted = totals(taken, 0, 0, ("audit", taken, taken, 0, 0))
    same("totals", relay.stop(), wanted.replace("\n", f"\nunread {len(known)}\n", 1) if known and has_unread(room.program) else wanted)
    same("faults", bool(relay.faults()), bool(known))
    same("the archive's lines", sorted(room.read("audit.log").split(b"\n")), lines_of([it for it in frames if it not in known]))
    tell(room, f"{len(sender.records.given)} records, {len(frames)} frames sent, {taken} taken")
    return sender


def all_is_counted(room, start):
    """Each frame of a sender at its defaults is taken or unread, and lies in the archive or in the file of what is unread."""
    if not has_unread(room.program):
        raise LeftOut("the program has no option --unread")
    relay, port, tap = hub(room, "--unread", room.path("unread"))
    is_whole = goes_on_after_long_ones(room)
    if not is_whole:
        corpus.most = 60_000
    sender = start(tap.port)
    sender.give()
    tap.has([corpus.LAST])
    taken, unread = status(relay, port, tap)
    frames = tap.frames()
    messages = are_messages(room, frames)
    same("taken and unread, by `status`", (taken, unread), (len(messages), len(frames) - len(messages)))
    sender.end()
    same("what is left after the frames", [rest for _, rest in tap.streams() if rest], [])
    wanted = totals(taken, 0, 0, ("audit", taken, taken, 0, 0))
    same("totals", relay.stop(), wanted.replace("\n", f"\nunread {unread}\n", 1))
    same("the archive's lines", sorted(room.read("audit.log").split(b"\n")), lines_of(messages))
    kept = room.read("unread")
    passed = subprocess.run([room.program, "pass"], input=kept, stdout=subprocess.PIPE, stderr=subprocess.PIPE, check=False)
    same("the file of what is unread, as `syc pass` reads it", (passed.returncode, passed.stderr), (0, b""))
    same("frames that aren't in it", [it[:200] for it in frames if it not in messages and it[:1_000] not in kept], [])
    same("frames that it has records of", kept.count(UNREAD) - kept.count(SECOND), unread)
    note = "" if is_whole else " (without frames of more than 65,536 bytes, which end a connection)"
    tell(room, f"{len(sender.records.given)} records, {len(frames)} frames sent, {taken} taken, {unread} unread{note}")


def counted(room, start):
    """Prints what is taken of a sender at its defaults where nothing is kept of what is unread."""
    relay, port, tap = hub(room)
    sender = start(tap.port)
    sender.give()
    size, since = -1, time.monotonic()
    while time.monotonic() - since < QUIET:
        time.sleep(0.05)
        if sum(map(len, tap.came)) != size:
            size, since = sum(map(len, tap.came)), time.monotonic()
    taken, _ = status(relay, port, tap)
    sender.end()
    frames, archive = tap.frames(), room.read("audit.log")
    lost = lacking([archive], sender.records.tokens)
    tell(room, f"{len(sender.records.given)} records, {len(frames)} frames sent, {taken} taken; "
               f"of {len(sender.records.tokens)} tokens {len(lost)} aren't in the archive")
    relay.stop()


def nothing_is_taken(room, give):
    """A sender without frames: its stream ends at its first byte, which is told."""
    relay, port, _ = hub(room)
    give(port)
    relay.says(f"syc: 11 BadLength at {port}")
    same("taken and unread", relay.stop(), totals(0, 0, 0, ("audit", 0, 0, 0, 0)))


def goes_on_after_long_ones(room):
    """Whether a relay with an unread file takes what comes after a frame that is too long."""
    port = room.port()
    room.site({"other": module() + imtcp(port) + omfile("audit", "other.log")}, f"entry other {port}", "protect auth.* other audit")
    relay = room.start("other", port, words=["--unread", room.path("other_unread"), "site", "other"])
    try:
        Sender(port).send(b"x" * 70_000, b"<34>1 - - - - - -").half_close().is_ended()
    except OSError:  # (it was reset)
        pass
    return relay.stop().startswith("taken 1 ")


def has_unread(program):
    done = subprocess.run([program, "run", "--help"], stdin=subprocess.DEVNULL, stdout=subprocess.PIPE, check=False)
    return b"--unread" in done.stdout


# ---- With the examples

@test(limit=LIMIT)
def rsyslogd_imuxsock(room):
    all_is_taken(room, lambda port: Daemon(room, "rsyslogd", example("rsyslogd/imuxsock.conf"), "socket", port))


@test(limit=LIMIT)
def rsyslogd_before_its_relay(room):
    all_is_taken(room, lambda port: Daemon(room, "rsyslogd", example("rsyslogd/imuxsock.conf"), "socket", port), is_late=True)


@test(limit=LIMIT)
def rsyslogd_imjournal(room):
    all_is_taken(room, lambda port: Daemon(room, "rsyslogd", example("rsyslogd/imjournal.conf"), "journal", port))


@test(limit=LIMIT)
def rsyslogd_imfile(room):
    all_is_taken(room, lambda port: Daemon(room, "rsyslogd", example("rsyslogd/imfile.conf"), "file", port))


@test(limit=LIMIT)
def syslog_ng_socket(room):
    all_is_taken(room, lambda port: Daemon(room, "syslog-ng", example("syslog-ng/socket.conf"), "socket", port))


@test(limit=LIMIT)
def syslog_ng_before_its_relay(room):
    all_is_taken(room, lambda port: Daemon(room, "syslog-ng", example("syslog-ng/socket.conf"), "socket", port), is_late=True)


@test(limit=LIMIT)
def syslog_ng_journal(room):
    all_is_taken(room, lambda port: Daemon(room, "syslog-ng", example("syslog-ng/journal.conf"), "journal", port))


@test(limit=LIMIT)
def syslog_ng_file(room):
    all_is_taken(room, lambda port: Daemon(room, "syslog-ng", example("syslog-ng/file.conf"), "file", port))


def log4j2_example(room):
    return example("log4j2.xml").replace("/var/log/app/unsent.log", room.path("unsent.log"))


@test(limit=LIMIT)
def log4j2(room):
    """But for records whose data log4j2 itself writes as no message has it; long ones are in a file."""
    sender = all_is_taken(room, lambda port: Log4j2(room, log4j2_example(room), port), lambda sender: sender.of_kind["structured"])
    same("long records that aren't in the file", lacking([room.read("unsent.log")], sender.of_kind["long"]), [])
    if lacking([room.read("unsent.log")], sender.of_kind["text"]) != sender.of_kind["text"]:
        raise Failure("the file has others, too")


@test(limit=LIMIT)
def log4j2_without_a_relay(room):
    """All records go to the file."""
    sender = Log4j2(room, log4j2_example(room), room.port())
    sender.give(may_fail=True)
    tokens = [token for it in sender.of_kind.values() for token in it]
    same("records that aren't in the file", lacking([room.read("unsent.log")], tokens), [])


@test(limit=LIMIT)
def python_logging(room):
    from syc_logging import SycHandler
    all_is_taken(room, lambda port: PythonLogging(lambda name: SycHandler("127.0.0.1", port, app_name=name)))


@test(limit=LIMIT)
def python_logging_over_a_restart(room):
    """A relay that stops in good order, and another one in its place: each record is in one of the two archives, once."""
    from syc_logging import SycHandler
    port = room.port()
    room.site({"hub": module() + imtcp(port) + omfile("audit", "audit.log")}, f"entry hub {port}", "protect auth.* hub audit")
    handler = SycHandler("127.0.0.1", port, app_name="app")
    for turn in range(3):
        relay = room.start("hub", port)
        for it in range(10):
            handler.handle(logging.LogRecord("corpus", logging.ERROR, __file__, 1, f"record {turn} {it}", None, None))
        room.has("audit.log", 10 * turn + 10)
        same("totals", relay.stop(), totals(10, 0, 0, ("audit", 10, 10, 0, 0)))
    wanted = [f"record {turn} {it}".encode() for turn in range(3) for it in range(10)]
    same("the archive", [it.rpartition(b" - ")[2] for it in room.lines("audit.log")], wanted)


@test(limit=LIMIT)
def logger(room):
    all_is_taken(room, lambda port: Logger([f"{EXAMPLES}/syc-logger"], port))


# ---- Without frames

@test(limit=LIMIT)
def python_syslog_handler_has_no_frames(room):
    def give(port):
        handler = logging.handlers.SysLogHandler(("127.0.0.1", port), socktype=socket.SOCK_STREAM)
        handler.handle(logging.LogRecord("corpus", logging.ERROR, __file__, 1, "text", None, None))
        handler.close()
    nothing_is_taken(room, give)


@test(limit=LIMIT)
def log4j2_syslog_appender_has_no_frames(room):
    nothing_is_taken(room, lambda port: Log4j2(room, LOG4J2.format(appender=SYSLOG_APPENDER), port).give(may_fail=True))


# ---- At their defaults

def rsyslogd(module, source, **more):
    """rsyslogd with an input of its own and its own form of RFC 5424, or another."""
    text = RSYSLOGD.format(**{"module": module, "more": "", "input": "", "template": PROTOCOL_23} | more)
    return lambda room, port: Daemon(room, "rsyslogd", text, source, port)


def syslog_ng(text, source):
    return lambda room, port: Daemon(room, "syslog-ng", SYSLOG_NG.format(source=text), source, port)


DEFAULTS = {
    "rsyslogd_imuxsock_own_form": rsyslogd("imuxsock", "socket", template=""),
    "rsyslogd_imuxsock": rsyslogd("imuxsock", "socket"),
    "rsyslogd_imjournal": rsyslogd("imjournal", "journal", more=' StateFile="state"'),
    "rsyslogd_imfile": rsyslogd("imfile", "file", input=INPUT),
    "syslog_ng_socket": syslog_ng('unix-dgram("/dev/log")', "socket"),
    "syslog_ng_journal": syslog_ng("systemd-journal()", "journal"),
    "syslog_ng_file": syslog_ng('file("/var/log/app.log")', "file"),
    "log4j2": lambda room, port: Log4j2(room, LOG4J2.format(appender=SOCKET_APPENDER), port, ("text", "structured", "context", "long")),
    "logger": lambda room, port: Logger([*LOGGER, "--port", str(port)], port),
}


def add_default(name, start):
    def body(room):
        (counted if counts_alone else all_is_counted)(room, lambda port: start(room, port))
    body.__name__ = name + AT_DEFAULTS
    test(body, LIMIT)


for name, start in DEFAULTS.items():
    add_default(name, start)
