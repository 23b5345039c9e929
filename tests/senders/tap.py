"""A tap between a sender and a relay: it hands on what comes, and keeps it."""

import os
import socket
import threading

from peers import split
from room import are_asleep, is_read, until


class Tap:
    """Listens at a port, and hands on each connection to another one."""

    def __init__(self, port, to):
        self.port, self.to, self.came = port, to, []
        self.listener = socket.socket()
        self.listener.setsockopt(socket.SOL_SOCKET, socket.SO_REUSEADDR, 1)
        self.listener.bind(("127.0.0.1", port))
        self.listener.listen(64)
        threading.Thread(target=self.accept, daemon=True).start()

    def accept(self):
        while True:
            sender, _ = self.listener.accept()
            relay = socket.create_connection(("127.0.0.1", self.to))
            self.came.append(bytearray())
            threading.Thread(target=self.hand_on, args=(sender, relay, self.came[-1]), daemon=True).start()
            threading.Thread(target=self.watch, args=(sender, relay), daemon=True).start()

    @staticmethod
    def hand_on(sender, relay, into):
        """What is kept has been handed on before."""
        try:
            while data := sender.recv(65536):
                relay.sendall(data)
                into += data
            relay.shutdown(socket.SHUT_WR)
        except OSError:
            pass

    @staticmethod
    def watch(sender, relay):
        """Ends the sender's connection once the relay has ended its own."""
        try:
            while relay.recv(65536):
                pass
        except OSError:
            pass
        for it in (sender, relay):
            try:
                it.shutdown(socket.SHUT_RDWR)
            except OSError:
                pass

    def streams(self):
        """Of each connection the frames that came whole, and what is left after them."""
        return [split(bytes(it)) for it in list(self.came)]

    def frames(self):
        return [frame for frames, _ in self.streams() for frame in frames]

    def is_empty(self):
        """Whether all that came is handed on: nothing stands in its socket, and none of its threads has something in its hand."""
        return is_read(self.port) and are_asleep(os.getpid(), threading.get_native_id()) and is_read(self.port)

    def has(self, tokens):
        """Waits until each of these tokens came in some whole frame."""
        until("the tokens come", lambda: not lacking(self.frames(), tokens), came=lambda: lacking(self.frames(), tokens))


def lacking(frames, tokens):
    """The tokens that are in no frame."""
    found = b"\0".join(frames)
    return [it for it in tokens if it not in found]
