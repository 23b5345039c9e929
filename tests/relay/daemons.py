"""rsyslogd and syslog-ng, where they are there, as senders and as receivers."""

import os
import re
import shutil
import subprocess

from hops import QUEUE
from peers import messages, send_all
from room import Failure, LeftOut, imtcp, is_listening, module, omfile, omfwd, same, test, totals, until

COUNT = 5000
PATH = f"{os.environ.get('PATH', '')}:/usr/sbin:/sbin"
RSYSLOG = """global(workDirectory="{folder}" maxMessageSize="64k" parser.escapeControlCharactersOnReceive="off")
module(load="imtcp")
input(type="imtcp" address="127.0.0.1" port="{port}")
main_queue(queue.type="FixedArray" queue.size="20000" queue.timeoutEnqueue="60000")
template(name="line" type="string" string="%rawmsg%\\n")
"""
RSYSLOG_FILE = 'action(type="omfile" file="{file}" template="line")\n'
RSYSLOG_NEXT = ('action(type="omfwd" target="127.0.0.1" port="{next}" protocol="tcp" TCP_Framing="octet-counted" '
                'template="RSYSLOG_SyslogProtocol23Format" action.resumeRetryCount="-1" action.resumeInterval="1")\n')
SYSLOG_NG = """@version: 3.35
options {{ keep-hostname(yes); use-dns(no); log-msg-size(65536); stats-freq(0); time-reopen(1); }};
source s {{ syslog(ip("127.0.0.1") port({port}) transport("tcp") flags(store-raw-message)); }};
log {{ source(s); destination {{ {destination}; }}; flags(flow-control); }};
"""
SYSLOG_NG_FILE = 'file("{file}" template("${{RAWMSG}}\\n"))'
SYSLOG_NG_NEXT = 'syslog("127.0.0.1" port({next}) transport("tcp"))'


def start(room, words, name, text):
    """Starts a daemon with this configuration, and waits until it listens; answers its port."""
    port = room.port()
    room.write(f"{name}.conf", text(port))
    with open(room.path(f"{name}.log"), "wb") as log:
        process = subprocess.Popen([*words, "-f", room.path(f"{name}.conf")], cwd=room.folder, stdin=subprocess.DEVNULL,
                                   stdout=log, stderr=log, env=os.environ | {"TZ": "UTC"})
    until(f"{name} listens", lambda: is_listening(port) or process.poll() is not None)
    if process.poll() is not None:
        raise Failure(f"{name} did not start: {room.read(f'{name}.log').decode()}")
    return port


def rsyslogd(room, action, **values):
    program = shutil.which("rsyslogd", path=PATH)
    if program is None:
        raise LeftOut("there is no rsyslogd (package rsyslog)")
    return start(room, [program, "-n", "-i", "NONE"], "rsyslogd",
                 lambda port: (RSYSLOG + action).format(folder=room.folder, port=port, **values))


def syslog_ng(room, destination, **values):
    program = os.environ.get("SYSLOG_NG") or shutil.which("syslog-ng", path=PATH)
    if program is None:
        raise LeftOut("there is no syslog-ng (package syslog-ng-core, or a program that SYSLOG_NG names)")
    words = [program, "--foreground", "--no-caps", *(f"--{it}={room.path(it)}" for it in ("persist-file", "control", "pidfile"))]
    return start(room, words, "syslog-ng", lambda port: SYSLOG_NG.format(port=port, destination=destination.format(**values)))


def sends(room, daemon, action):
    """Messages that a daemon takes and sends on to a hub.

    It may write timestamps in another form. Both end a message by a line feed, which is a part of it there,
    so that an empty line comes behind each in the archive."""
    relay, port = room.hub()
    texts = [f"text {it} {'a' * (it % 300)}" for it in range(COUNT)]
    send_all(daemon(room, action, next=port), [f"<34>1 2025-06-01T10:20:30Z web1 app 77 - - {it}".encode() for it in texts])
    room.has("audit.log", 2 * COUNT)
    relay.stops_with(totals(COUNT, 0, 0, ("audit", COUNT, COUNT, 0, 0)))
    lines = room.lines("audit.log")
    same("lines", (len(lines), set(lines[1::2])), (2 * COUNT, {b""}))
    for line, text in zip(lines[::2], texts):
        if not re.fullmatch(rb"<34>1 2025-06-01T10:20:30(\.0+)?(Z|\+00:00) web1 app 77 - - " + text.encode(), line):
            raise Failure(f"wanted a line of auth.crit with {text!r}, came {line!r}")


def receives(room, daemon, action):
    """Messages that an edge forwards to a daemon."""
    file = room.path("received.log")
    inner, entry = daemon(room, action, file=file), room.port()
    room.site({"edge": module() + imtcp(entry, ruleset="out") + QUEUE.format(1000, 900, omfwd("up", "hub", inner, -1, 1)),
               "hub": module() + imtcp(inner) + omfile("audit", "audit.log")}, f"entry edge {entry}", "protect auth.* hub audit")
    relay = room.start("edge", entry)
    texts = messages(COUNT, text="a" * 100)
    send_all(entry, texts)
    room.has("received.log", COUNT)
    relay.stops_with(totals(COUNT, 0, 0, ("up", COUNT, COUNT, 0, 0)))
    same("what the daemon wrote", room.lines("received.log"), texts)


@test
def rsyslogd_as_a_sender(room):
    sends(room, rsyslogd, RSYSLOG_NEXT)


@test
def rsyslogd_as_a_receiver(room):
    receives(room, rsyslogd, RSYSLOG_FILE)


@test
def syslog_ng_as_a_sender(room):
    sends(room, syslog_ng, SYSLOG_NG_NEXT)


@test
def syslog_ng_as_a_receiver(room):
    receives(room, syslog_ng, SYSLOG_NG_FILE)
