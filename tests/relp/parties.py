"""The parties of a session of RELP: the receiver and the sender of `peer`, and rsyslogd."""

import glob
import os
import shutil
import signal
import subprocess

from room import Failure, LeftOut, are_asleep, is_listening, is_read, same, until

PATH = f"{os.environ.get('PATH', '')}:/usr/sbin:/sbin"
MODULES = "/usr/lib/*/rsyslog"
ENDLESS = 10**9

RECEIVES = """global(workDirectory="{folder}" parser.escapeControlCharactersOnReceive="off"{more})
module(load="imrelp")
input(type="imrelp" address="127.0.0.1" port="{port}"{how})
main_queue(queue.type="FixedArray" queue.size="100000" queue.timeoutEnqueue="60000" queue.timeoutShutdown="60000")
template(name="line" type="string" string="%rawmsg%\\n")
{blocked}
action(type="omfile" file="{file}" template="line")
"""
# (omrelp corks its socket for a batch: what fills its window within one would wait for 0.2 seconds on this host)
SENDS = """global(workDirectory="{folder}" maxMessageSize="128k" parser.escapeControlCharactersOnReceive="off")
module(load="imtcp" maxFrameSize="200000")
module(load="omrelp")
input(type="imtcp" address="127.0.0.1" port="{port}")
main_queue(queue.type="FixedArray" queue.size="100000" queue.timeoutEnqueue="60000" queue.dequeueBatchSize="{window}")
template(name="raw" type="string" string="%rawmsg%")
action(type="omrelp" target="127.0.0.1" port="{next}" template="raw" windowSize="{window}" action.resumeRetryCount="-1"
       action.resumeInterval="1" timeout="{timeout}")
"""


def rsyslogd_program():
    program = shutil.which("rsyslogd", path=PATH)
    if program is None:
        raise LeftOut("there is no rsyslogd (package rsyslog)")
    if not glob.glob(f"{MODULES}/omrelp.so"):
        raise LeftOut("there is no omrelp (package rsyslog-relp)")
    return program


class Party:
    """A program that runs, with files for its streams, to which it adds where it is started again."""

    def __init__(self, room, name, words, stdin=subprocess.DEVNULL):
        self.room, self.name = room, name
        with open(room.path(f"{name}.out"), "ab") as out, open(room.path(f"{name}.err"), "ab") as err:
            self.process = subprocess.Popen(words, cwd=room.folder, stdin=stdin, stdout=out, stderr=err, env=os.environ | {"TZ": "UTC"})

    def listens(self, port):
        until(f"{self.name} listens", lambda: self.process.poll() is not None or is_listening(port), came=self.errors)
        if self.process.poll() is not None:
            raise Failure(f"{self.name} did not start: {self.errors()}")
        return self

    def errors(self):
        return self.room.read(f"{self.name}.err").decode(errors="replace")

    def sessions(self):
        """What it said of each session, in order."""
        return self.errors().splitlines()

    def has_had(self, *wanted):
        """Waits until it has said so much, which has to be this."""
        until(f"{self.name} says {wanted}", lambda: len(self.sessions()) >= len(wanted), came=self.errors)
        same(f"what {self.name} says", tuple(self.sessions()[: len(wanted) or 1]), wanted)

    def is_asleep(self):
        return self.process.poll() is not None or are_asleep(self.process.pid)

    def ends(self):
        until(f"{self.name} ends", lambda: self.process.poll() is not None, came=self.errors)
        return self.process.returncode

    def end(self, number=signal.SIGTERM):
        self.process.send_signal(number)
        return self.ends()


class Receiver(Party):
    """A receiver of ours, which acknowledges so many messages at once, and more when it is told. The messages are lines of a file."""

    def __init__(self, room, port, count=ENDLESS):
        super().__init__(room, "receiver", [room.program, "receive", str(port), str(count)], subprocess.PIPE)
        self.listens(port)

    def may(self, count):
        self.process.stdin.write(f"{count}\n".encode())
        self.process.stdin.flush()


class Sender(Party):
    """A sender of ours, of the messages that are given at once, or one after the other where none are."""

    def __init__(self, room, port, window, messages=None):
        words = [room.program, "send", str(port), str(window)]
        if messages is None:
            super().__init__(room, "sender", words, subprocess.PIPE)
            return
        room.write("sender.in", b"".join(it + b"\n" for it in messages))
        with open(room.path("sender.in"), "rb") as stdin:
            super().__init__(room, "sender", words, stdin)

    def give(self, messages):
        self.process.stdin.write(b"".join(it + b"\n" for it in messages))
        self.process.stdin.flush()


class Rsyslogd(Party):
    """An rsyslogd with this configuration, which listens on a port of its own."""

    def __init__(self, room, port, text, **values):
        room.write("rsyslogd.conf", text.format(folder=room.folder, port=port, **values))
        super().__init__(room, "rsyslogd", [rsyslogd_program(), "-n", "-i", "NONE", "-f", room.path("rsyslogd.conf")])
        self.port = port
        self.listens(port)


def receives(room, port, more="", how="", blocked=""):
    """An rsyslogd that writes each message as a line of a file. `blocked` is an action before that."""
    return Rsyslogd(room, port, RECEIVES, file=room.path("received"), more=more, how=how, blocked=blocked)


def sends(room, port, window=128, timeout=90):
    """An rsyslogd that sends on all that comes to a port of its own, and waits so many seconds for answers."""
    return Rsyslogd(room, room.port(), SENDS, next=port, window=window, timeout=timeout)


def rest(*parties):
    """Waits until all that was sent to these was read, and all have nothing to do."""
    ports = [it.port for it in parties if isinstance(it, Rsyslogd)]
    until("all rest", lambda: is_read(*ports) and all([it.is_asleep() for it in parties]) and is_read(*ports))
