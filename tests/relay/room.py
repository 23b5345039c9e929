"""A test's folder and ports, the relays that run there, and what is wanted of them."""

import array
import fcntl
import os
import re
import signal
import socket
import subprocess
import termios
import time

from ports import free_ports

TURN, LONGEST = 0.002, 0.05  # seconds between the first two looks at a condition, and between later ones at most
COUNTS = 0.2  # seconds from a look to the next that count at most: what a busy machine takes beyond that for others isn't counted
QUIET = 0.1  # seconds in which what rests does nothing
WAIT = 120  # seconds in which what has to come comes, and a relay ends after its standard input, beside whatever else the host does
TESTS = []

# A line on standard error that is a fault, or a connection's count of frames that are no messages.
FAULT = re.compile(r"syc: (\d+ \w+ (at|in|of) .*|\d+ unread at .*|no relay .*|no memory|read failed|write failed|totals differ)")
# How often a fault came besides, behind its line.
OTHERS = re.compile(r"(syc: \d+ \w+ at \d+), and (\d+) others")
# A line of a start.
START = re.compile(r"syc: (input \d+ listening at .*|relay \S+ runs: site [0-9a-f]{64}, \d+ files|relay \S+ program: .*)")


class Failure(Exception):
    """What was wanted, and what came."""


class LeftOut(Exception):
    """Why a test can't be run here."""


class Test:
    def __init__(self, body, limit):
        self.body, self.limit = body, limit
        self.name, self.group = body.__name__, body.__module__


def test(body=None, limit=900):
    """Marks a function of a room as a test that takes at most so many seconds."""
    if body is None:
        return lambda it: test(it, limit)
    TESTS.append(Test(body, limit))
    return body


def shown(value):
    """A value, in short: its beginning, or of texts of several lines the lines."""
    text = value if isinstance(value, str) else repr(value)
    text = text.rstrip("\n").replace("\n", " | ")
    return text if len(text) <= 400 else f"{text[:400]}.. ({len(text)} characters)"


def same(what, came, wanted):
    """Fails where two values differ."""
    if came != wanted:
        raise Failure(f"{what}: wanted {shown(wanted)!r}, came {shown(came)!r}")


def until(what, holds, seconds=WAIT, came=None):
    """Waits until a condition holds, and answers its value."""
    spent, pause, last = 0, TURN, time.monotonic()
    while True:
        value = holds()
        if value:
            return value
        if spent > seconds:
            raise Failure(f"{what}: not within {seconds} s{'' if came is None else f', came {shown(came())!r}'}")
        time.sleep(pause)
        pause = min(pause * 1.3, LONGEST)
        spent, last = spent + min(time.monotonic() - last, COUNTS), time.monotonic()


def is_emptied(wanted):
    """Whether a relay with these totals has nothing left to do."""
    return " held 0\n" in wanted and not re.search(r" left [1-9]", wanted)


def totals(taken, lost, held, *actions, unread=None):
    """What a relay prints at its end; each action is its name with due, done, given up and left. How many frames carried no
    message stands there where there were any, or where they are kept."""
    lines = [f"taken {taken} lost {lost} held {held}"]
    lines += [] if unread is None else [f"unread {unread}"]
    lines += ["{} due {} done {} given-up {} left {}".format(*it) for it in actions]
    return "".join(f"{it}\n" for it in lines)


def sockets():
    """The host's TCP sockets of IPv4 that listen or can be read: of each its port, the state and the bytes not yet read."""
    with open("/proc/net/tcp") as it:
        rows = [row.split(None, 5) for row in it.readlines()[1:]]
    return [(int(row[1].split(":")[1], 16), row[3], int(row[4].split(":")[1], 16)) for row in rows if row[3] in (LISTEN, *READABLE)]


LISTEN, READABLE = "0A", ("01", "08")


def is_listening(port):
    return any(it[0] == port and it[1] == LISTEN for it in sockets())


def is_linked(port, address="127.0.0.1"):
    """Whether a connection to that place is up, as the side that made it sees it."""
    to = "".join(f"{int(it):02X}" for it in reversed(address.split("."))) + f":{port:04X}"
    with open("/proc/net/tcp") as it:
        return any(row.split(None, 4)[2:4] == [to, "01"] for row in it.readlines()[1:])


def is_read(*ports):
    """Whether all that came over the connections of these ports has been read."""
    return not any(it[0] in ports and it[1] in READABLE and it[2] for it in sockets())


def threads_of(process, but=None):
    """Of each of its threads, but for one, the state, and what it has done so far: ticks and turns of the processor."""
    found = {}
    for thread in os.listdir(f"/proc/{process}/task"):
        try:
            with open(f"/proc/{process}/task/{thread}/stat") as it:
                fields = it.read().rpartition(")")[2].split()
            with open(f"/proc/{process}/task/{thread}/status") as it:
                turns = re.findall(r"ctxt_switches:\s*(\d+)", it.read())
        except (FileNotFoundError, ProcessLookupError):
            continue
        found[thread] = (fields[0], fields[11], fields[12], *turns)
    found.pop(str(but), None)
    return found


def are_asleep(process, but=None):
    """Whether its threads, but for one, sleep a tenth of a second long.

    (Two looks tell that, as they count turns: more of them would last too long on a busy machine for what wakes each second.)"""
    before = threads_of(process, but)
    if any(it[0] != "S" for it in before.values()):
        return False
    time.sleep(QUIET)
    return threads_of(process, but) == before


# ---- Configurations

def module():
    return 'module(load="imtcp")\n'


def imtcp(port, flow="full", ruleset=""):
    bound = f' ruleset="{ruleset}"' if ruleset else ""
    return f'input(type="imtcp" port="{port}" flowControl="{flow}"{bound})\n'


# what isn't a regular file is written to where that is said
ANY = ' fileType="any"'


def omfile(name, file, retries=-1, interval=30, more=""):
    if file.startswith("/dev/"):
        more += ANY
    return (f'action(name="{name}" type="omfile" file="{file}" action.resumeRetryCount="{retries}" '
            f'action.resumeInterval="{interval}"{more})\n')


def omfwd(name, target, port, retries=-1, interval=30, more=""):
    return (f'action(name="{name}" type="omfwd" target="{target}" port="{port}" protocol="tcp" TCP_Framing="octet-counted" '
            f'action.resumeRetryCount="{retries}" action.resumeInterval="{interval}"{more})\n')


def main_queue(**parameters):
    """A main queue; the discard of severities is off unless it is given."""
    return "main_queue(" + " ".join(f'queue.{name}="{value}"' for name, value in parameters.items()) + ")\n"


# ---- Relays

class Relay:
    """A relay that runs, by itself or under another program that becomes it."""

    def __init__(self, room, name, words, stdin=subprocess.PIPE, stdout=None, limits=None, under=()):
        self.room, self.name = room, name
        self.err_path, self.out_path = room.path(f"{name}.stderr"), room.path(f"{name}.stdout")
        with open(self.err_path, "wb") as err, open(self.out_path, "wb") as out:
            self.process = subprocess.Popen([*under, room.program, "run", *words], cwd=room.folder, stdin=stdin,
                                            preexec_fn=limits, stdout=out if stdout is None else stdout, stderr=err)
        self.pid = self.process.pid

    def listens(self, *ports):
        """Waits until it listens on these ports."""
        for port in ports:
            until(f"{self.name} listens on {port}", lambda: self.process.poll() is not None or is_listening(port),
                  came=lambda: self.errors())
        if self.process.poll() is not None:
            raise Failure(f"{self.name} ended with {self.process.returncode} in place of listening: {shown(self.errors())}")
        return self

    def output(self):
        with open(self.out_path, "rb") as it:
            return it.read().decode("latin-1")

    def errors(self):
        with open(self.err_path, "rb") as it:
            return it.read().decode("latin-1")

    def lines(self):
        """The lines on standard error, but for those of its start."""
        return [it for it in self.errors().splitlines() if not START.fullmatch(it)]

    def faults_as_told(self):
        """The lines on standard error that are faults."""
        return [it for it in self.lines() if FAULT.fullmatch(it)]

    def faults(self):
        """The same, but a line that tells of several connections stands there once for each."""
        found = []
        for line in self.faults_as_told():
            several = OTHERS.fullmatch(line)
            found += [several.group(1)] * (1 + int(several.group(2))) if several else [line]
        return found

    def says(self, line, times=1):
        """Waits for a line on standard error."""
        until(f"{self.name} says {line!r}", lambda: self.errors().splitlines().count(line) >= times, came=self.errors)

    def is_told(self, text, *ports):
        """Writes to its standard input, and waits until that is read and it has nothing to do."""
        self.process.stdin.write(text)
        self.process.stdin.flush()
        until(f"{self.name} has read its standard input", lambda: not self.unread(), came=self.unread)
        self.rests(*ports)

    def unread(self):
        """How many bytes of its standard input it hasn't read yet."""
        found = array.array("i", [0])
        fcntl.ioctl(self.process.stdin, termios.FIONREAD, found)
        return found[0]

    def ends(self, seconds=WAIT):
        """Waits for its end, and answers its status."""
        until(f"{self.name} ends", lambda: self.process.poll() is not None, seconds, self.errors)
        return self.process.returncode

    def stop(self):
        """Ends its standard input, and waits for its end with status 0; answers what it printed. How long it took is kept."""
        begun = time.monotonic()
        self.process.stdin.close()
        same(f"status of {self.name} ({shown(self.errors())})", self.ends(), 0)
        self.took = time.monotonic() - begun
        return self.output()

    def stop_at_rest(self):
        """The same, once it rests: what it took may still be on its way to an archive, and a stop doesn't wait for that."""
        self.rests()
        return self.stop()

    def stops_with(self, wanted, faults=()):
        """Stops it, at rest where nothing may be held then, and compares its totals, and its faults in any order."""
        same(f"totals of {self.name}", self.stop_at_rest() if is_emptied(wanted) else self.stop(), wanted)
        same(f"faults of {self.name}", sorted(self.faults()), sorted(faults))

    def kill(self):
        self.process.kill()
        self.process.wait()

    def threads(self):
        return threads_of(self.pid)

    def is_quiet(self, ports):
        """Whether nothing that was sent to these ports is unread, and all its threads sleep for a while."""
        return is_read(*ports) and are_asleep(self.pid) and is_read(*ports)

    def rests(self, *ports):
        """Waits until it has nothing to do but to wait for its peers, or has ended."""
        until(f"{self.name} rests", lambda: self.process.poll() is not None or self.is_quiet(ports), came=self.threads)

    def status_field(self, name):
        """A number of /proc/PID/status."""
        with open(f"/proc/{self.pid}/status") as it:
            return int(re.search(rf"^{name}:\s*(\d+)", it.read(), re.M).group(1))


class Room:
    """The folder and the ports of a test."""

    def __init__(self, program, folder, port):
        self.program, self.folder, self.block, self.ports = program, folder, port, free_ports(port)

    def path(self, name):
        return f"{self.folder}/{name}"

    def port(self):
        """A port that nobody listens on."""
        return next(self.ports)

    def ports_are_free(self, *ports):
        """Whether others can listen there now."""
        for port in ports:
            with socket.socket() as it:
                it.setsockopt(socket.SOL_SOCKET, socket.SO_REUSEADDR, 1)
                try:
                    it.bind(("127.0.0.1", port))
                    it.listen()
                except OSError as error:
                    raise Failure(f"port {port} is not free afterwards: {error.strerror}") from None

    def write(self, name, text):
        with open(self.path(name), "wb") as it:
            it.write(text if isinstance(text, bytes) else text.encode())

    def read(self, name):
        with open(self.path(name), "rb") as it:
            return it.read()

    def size(self, name):
        try:
            return os.stat(self.path(name)).st_size
        except FileNotFoundError:
            return 0

    def count(self, name):
        """How many whole lines an archive has so far."""
        return self.read(name).count(b"\n") if os.path.exists(self.path(name)) else 0

    def has(self, name, count):
        """Waits until an archive has so many lines."""
        until(f"{name} has {count} lines", lambda: self.count(name) >= count, came=lambda: self.count(name))

    def lines(self, name):
        """The lines of an archive; each has to end in a line feed."""
        text = self.read(name) if os.path.exists(self.path(name)) else b""
        if text and not text.endswith(b"\n"):
            raise Failure(f"{name} ends in {text[-60:]!r}, without a line feed")
        return text.split(b"\n")[:-1]

    def holds(self, name, messages, seconds=WAIT):
        """Waits until an archive is as long as lines of these messages, and compares it with them."""
        wanted = b"".join(it + b"\n" for it in messages)
        until(f"{name} has {len(messages)} messages", lambda: self.size(name) >= len(wanted), seconds,
              lambda: f"{self.size(name)} of {len(wanted)} bytes")
        same(name, self.read(name), wanted)

    def site(self, relays, *lines):
        """Writes the relays' files, and the site file with these lines after those of the relays.

        Without lines the first input is the entry, and the first archive is named for all classes: such a site can be
        read, and needn't be accepted."""
        for name, text in relays.items():
            self.write(f"{name}.conf", text)
        if not lines:
            inputs = [(name, it) for name, text in relays.items() for it in re.findall(r'imtcp" port="(\d+)"', text)]
            archives = [(name, it) for name, text in relays.items() for it in re.findall(r'action\(name="(\S+)" type="omfile"', text)]
            lines = "entry {} {}".format(*inputs[0]), "protect *.* {} {}".format(*archives[0])
        self.write("site", "".join(f"{it}\n" for it in [*(f"relay {name} {name}.conf" for name in relays), *lines]))

    def start(self, name, *ports, words=None, **more):
        """Starts a relay that was accepted, or with other words than those, and waits for its ports."""
        while True:
            relay = Relay(self, name, words or ["site", name], **more)
            try:
                return relay.listens(*ports)
            except Failure:
                # (strace has what it watches end by an alarm where it isn't ready itself after three seconds)
                if "under" not in more or relay.process.poll() != -signal.SIGALRM:
                    raise

    def start_unchecked(self, name, *ports):
        return self.start(name, *ports, words=["--unchecked", "site", name])

    def hub(self, more="", flow="full", kind=""):
        """Starts a hub with one archive, audit.log, that is accepted; answers it and its port."""
        port = self.port()
        self.site({"hub": module() + more + imtcp(port, flow) + omfile("audit", "audit.log", more=kind)},
                  f"entry hub {port}", "protect auth.* hub audit")
        return self.start("hub", port), port
