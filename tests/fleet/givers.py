"""Ways to give rsyslogd a message: the system's socket, TCP, UDP, RELP, and a file that it follows."""

import array
import fcntl
import os
import re
import socket
import termios

from peers import PAUSE
from room import Failure, is_listening, is_read, until


class Giver:
    """Any of them. The host's name is a part of its messages, or isn't."""

    host = "web "

    def give_all(self, texts):
        for it in texts:
            self.give(it)

    def is_taken(self):
        pass


class Socket(Giver):
    """The socket that `logger` and libc write to."""

    host = ""

    def __init__(self, host):
        self.path, self.socket = host.room.path("dev-log"), None

    def is_there(self):
        return os.path.exists(self.path)

    def give(self, text):
        if self.socket is None:
            self.socket = socket.socket(socket.AF_UNIX, socket.SOCK_DGRAM)
            self.socket.connect(self.path)
        self.socket.send(text)

    def is_taken(self):
        """Waits until rsyslogd has read all that was sent."""
        until("rsyslogd has read its socket", lambda: not self.unread())

    def unread(self):
        if self.socket is None:
            return 0
        found = array.array("i", [0])
        fcntl.ioctl(self.socket, termios.TIOCOUTQ, found)
        return found[0]

    def close(self):
        if self.socket is not None:
            self.socket.close()
        self.socket = None


class Tcp(Giver):
    """A connection with a message a line."""

    def __init__(self, host):
        self.of, self.socket = host, None

    def is_there(self):
        return is_listening(self.port())

    def port(self):
        return self.of.port("514")

    def connect(self):
        self.socket = socket.create_connection(("127.0.0.1", self.port()), PAUSE)
        self.socket.setsockopt(socket.IPPROTO_TCP, socket.TCP_NODELAY, 1)

    def give(self, text):
        if self.socket is None:
            self.connect()
        self.socket.sendall(text + b"\n")

    def is_taken(self):
        until("rsyslogd has read its connection", lambda: is_read(self.port()))

    def close(self):
        if self.socket is not None:
            self.socket.close()
        self.socket = None


class Udp(Giver):
    def __init__(self, host):
        self.port = host.port("514")
        self.socket = socket.socket(socket.AF_INET, socket.SOCK_DGRAM)

    def is_there(self):
        with open("/proc/net/udp", encoding="ascii") as it:
            return f":{self.port:04X} " in it.read()

    def give(self, text):
        self.socket.sendto(text, ("127.0.0.1", self.port))

    def close(self):
        self.socket.close()


class Relp(Tcp):
    """A client of RELP. It has the number of each message that rsyslogd has confirmed in `confirmed`, and sends no more than
    `window` that aren't."""

    window = 1

    def __init__(self, host):
        super().__init__(host)
        self.sent, self.confirmed, self.unread = 0, 0, b""

    def port(self):
        return self.of.port("2514")

    def connect(self):
        super().connect()
        self.sent, self.confirmed, self.unread = 0, 0, b""
        self.send("open", b"relp_version=0\nrelp_software=a test\ncommands=syslog")
        self.waits(0)

    def send(self, command, data):
        self.sent += 1
        self.socket.sendall(b"%d %s %d %s\n" % (self.sent, command.encode(), len(data), data))

    def give(self, text):
        if self.socket is None:
            self.connect()
        self.send("syslog", text)
        self.waits(self.window)

    def waits(self, most=0):
        """Reads answers until at most so many messages aren't confirmed."""
        while self.sent - self.confirmed > most:
            piece = self.socket.recv(65_536)
            if not piece:
                raise Failure("rsyslogd ended the session")
            whole, _, self.unread = (self.unread + piece).rpartition(b"\n")
            self.confirmed += len(re.findall(rb"(?m)^\d+ rsp \d+ 200 OK", whole))


class File(Giver):
    """A file that an application writes, all that it is given at once."""

    def __init__(self, host):
        self.path = host.room.path("log/app.log")

    def is_there(self):
        return True

    def give_all(self, texts):
        with open(self.path, "ab") as it:
            it.write(b"".join(it + b"\n" for it in texts))

    def close(self):
        pass


GIVERS = {"socket": Socket, "tcp": Tcp, "udp": Udp, "relp": Relp, "file": File}
