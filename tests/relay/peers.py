"""Senders and receivers."""

import socket
import struct
import threading
import time

from room import WAIT, Failure, is_linked, is_read, same, until

PAUSE = 5 * WAIT  # seconds that a peer waits for the other side at most, which may be held as long as a test waits for something
PIECE = 65_536  # bytes that are sent at once


def message(number, text="", pri=34, connection=0):
    """A message that tells its connection and its place there."""
    return f"<{pri}>1 - - - - - - c{connection} n{number}{' ' if text else ''}{text}".encode()


def messages(count, first=0, **more):
    return [message(number, **more) for number in range(first, first + count)]


def places(lines):
    """Of each connection the places of its messages, in the order of these lines."""
    found = {}
    for line in lines:
        words = line.split(b" ", 9)
        found.setdefault(int(words[7][1:]), []).append(int(words[8][1:]))
    return found


def frame(text):
    return b"%d %s" % (len(text), text)


def frames(texts):
    return b"".join(map(frame, texts))


class Sender:
    """A connection to a relay."""

    def __init__(self, port, address="127.0.0.1"):
        self.socket = socket.create_connection((address, port), PAUSE)
        self.socket.setsockopt(socket.IPPROTO_TCP, socket.TCP_NODELAY, 1)

    def send(self, *texts):
        """Sends messages as frames."""
        return self.send_bytes(frames(texts))

    def send_bytes(self, data):
        """Sends bytes; the time limit is that of each piece."""
        with memoryview(data) as left:
            for at in range(0, len(data), PIECE):
                self.socket.sendall(left[at:at + PIECE])
        return self

    def half_close(self):
        self.socket.shutdown(socket.SHUT_WR)
        return self

    def is_ended(self):
        """Waits for the relay to close the connection; nothing may come before that."""
        try:
            came = self.socket.recv(100)
        except ConnectionResetError:
            came = b""
        except TimeoutError:
            raise Failure(f"the relay didn't close the connection within {PAUSE} s") from None
        same("what a relay sends back", came, b"")

    def end(self):
        """Ends the connection, once the relay has taken all that was sent."""
        self.half_close().is_ended()
        self.socket.close()

    def close(self):
        self.socket.close()

    def reset(self):
        self.socket.setsockopt(socket.SOL_SOCKET, socket.SO_LINGER, struct.pack("ii", 1, 0))
        self.socket.close()


def send_all(port, texts, address="127.0.0.1"):
    """Sends messages over one connection, and waits until the relay has taken them."""
    Sender(port, address).send(*texts).end()


def send_side_by_side(port, lists):
    """Sends lists of messages, each over a connection of its own, at once."""
    failures = []

    def run(texts):
        try:
            send_all(port, texts)
        except (OSError, Failure) as failure:
            failures.append(str(failure))

    threads = [threading.Thread(target=run, args=(it,), daemon=True) for it in lists]
    for it in threads:
        it.start()
    for it in threads:
        it.join()
    if failures:
        raise Failure(f"a sender: {failures[0]}")


class Pump:
    """A connection over which messages are sent without end, until the relay or `end` ends it."""

    def __init__(self, port, connection, text=""):
        self.port, self.more = port, {"connection": connection, "text": text}
        self.sender, self.sent, self.is_over = Sender(port), 0, False
        self.sender.socket.settimeout(None)
        self.thread = threading.Thread(target=self.run, daemon=True)
        self.thread.start()

    def run(self):
        try:
            while not self.is_over:
                self.sender.send(*messages(200, self.sent, **self.more))
                self.sent += 200
        except OSError:
            pass

    def is_held(self, *relays):
        """Waits until these relays rest, while bytes that it has sent aren't read."""
        until("the relay holds the sender", lambda: all(it.is_quiet(()) for it in relays) and not is_read(self.port),
              came=lambda: f"{self.sent} messages sent")

    def finish(self):
        """Ends the connection, once the relay has taken all that was sent."""
        self.is_over = True
        self.thread.join(PAUSE)
        self.sender.end()

    def end(self):
        """Breaks the connection off."""
        self.is_over = True
        self.sender.reset()
        self.thread.join(PAUSE)


def split(data):
    """The messages of whole frames, and what is left behind them."""
    found, at = [], 0
    while True:
        space = data.find(b" ", at)
        head = data[at:max(space, at)]
        if not head.isdigit() or len(data) - space - 1 < int(head):
            return found, data[at:]
        at = space + 1 + int(head)
        found.append(data[space + 1:at])


class Receiver:
    """Listens, and reads all that comes over each connection, or nothing where it doesn't read."""

    def __init__(self, port, reads=True, backlog=16, small=False):
        self.port, self.came, self.connections, self.reads = port, [], [], reads
        self.listener = socket.socket()
        self.listener.setsockopt(socket.SOL_SOCKET, socket.SO_REUSEADDR, 1)
        if small:
            self.listener.setsockopt(socket.SOL_SOCKET, socket.SO_RCVBUF, 4096)
        until(f"the receiver binds {port}", lambda: self.is_bound(port))
        self.listener.listen(backlog)
        threading.Thread(target=self.accept, daemon=True).start()

    def is_bound(self, port):
        try:
            self.listener.bind(("127.0.0.1", port))
        except OSError:
            return False
        return True

    def accept(self):
        try:
            while True:
                connection, _ = self.listener.accept()
                self.came.append(bytearray())
                thread = threading.Thread(target=self.read, args=(connection, self.came[-1]), daemon=True)
                self.connections.append((connection, thread))
                if self.reads:
                    thread.start()
        except OSError:
            pass

    @staticmethod
    def read(connection, into):
        try:
            while data := connection.recv(65536):
                into += data
        except OSError:
            pass

    def begins_to_read(self):
        """Reads all that comes over the connections that there are, and over others, from now on."""
        self.reads = True
        for _, thread in list(self.connections):
            thread.start()

    def ended(self):
        """The messages of each connection, of all of which the whole is wanted, and what is left behind each."""
        return [split(bytes(it)) for it in self.came]

    def drips(self):
        """Reads from now on 16 KiB of each connection, ten times a second at most."""
        def run(connection):
            try:
                while connection.recv(16_384):
                    time.sleep(0.1)
            except OSError:
                pass
        for connection, _ in self.connections:
            threading.Thread(target=run, args=(connection,), daemon=True).start()

    def messages(self):
        """All messages that came whole."""
        return [it for data in list(self.came) for it in split(bytes(data))[0]]

    def has(self, wanted):
        """Waits for so many messages, and compares them."""
        until(f"{len(wanted)} messages are received", lambda: len(self.messages()) >= len(wanted),
              came=lambda: len(self.messages()))
        same("what is received", self.messages(), wanted)

    def is_connected(self, times=1):
        until("the relay connects", lambda: len(self.connections) >= times)

    def close(self):
        """Ends in good order: it takes no more connections, and closes those that there are."""
        self.end(is_reset=False)

    def kill(self):
        """Ends as one that is killed with data unread: connections are reset."""
        self.end(is_reset=True)

    def end(self, is_reset):
        # (a close alone would leave the socket to the thread that waits for it)
        self.listener.shutdown(socket.SHUT_RDWR)
        self.listener.close()
        for connection, thread in self.connections:
            if is_reset:
                connection.setsockopt(socket.SOL_SOCKET, socket.SO_LINGER, struct.pack("ii", 1, 0))
            try:
                connection.shutdown(socket.SHUT_RD if is_reset else socket.SHUT_RDWR)
            except OSError:
                pass
            if self.reads:
                thread.join(PAUSE)
            connection.close()
        until("the other sides have seen the end", lambda: not is_linked(self.port))
