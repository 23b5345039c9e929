#!/usr/bin/env python3
"""Ports of 127.0.0.1 that no other test on this machine has at the same time: ports.py prints the first of some, and has them until it ends.

They lie below those that the host gives to outgoing connections, in blocks of PORTS. Who has a block holds a name of a socket
without a file, which nobody else can bind, and which is free again once the process has ended, however it ends."""

import random
import signal
import socket
import time

PORTS = 80
# Of each folder of tests the first port, and the one behind the last.
RELAY, SENDERS, OTHERS = (12_000, 32_000), (10_000, 12_000), (7_000, 10_000)


class NoPorts(Exception):
    """Other tests have all blocks."""


def own_ports(between=OTHERS, begin=None):
    """The first port of a block that no other test has now, from the one of this number on, and what holds it."""
    first, last = between
    count = (last - first) // PORTS
    begin = random.randrange(count) if begin is None else begin
    for it in range(begin, begin + count):
        port = first + it % count * PORTS
        holds = socket.socket(socket.AF_UNIX, socket.SOCK_DGRAM)
        try:
            holds.bind(f"\0ports of a test of Syc from {port}")
        except OSError:
            holds.close()
            continue
        return port, holds
    raise NoPorts(f"other tests have all ports from {first} to {last}")


def own_port(port, seconds=600):
    """What holds a port that a test can't choose, once no other test has it."""
    end = time.monotonic() + seconds
    while True:
        holds = socket.socket(socket.AF_UNIX, socket.SOCK_DGRAM)
        try:
            holds.bind(f"\0port {port} of a test of Syc")
            return holds
        except OSError:
            holds.close()
        if time.monotonic() > end:
            raise NoPorts(f"another test has port {port}")
        time.sleep(0.1)


def free_ports(port):
    """Those of a block that nobody listens at, one after the other."""
    for it in range(port, port + PORTS):
        with socket.socket() as tried:
            tried.setsockopt(socket.SOL_SOCKET, socket.SO_REUSEADDR, 1)
            try:
                tried.bind(("127.0.0.1", it))
            except OSError:
                continue
            yield it
    raise NoPorts("no free port")


def main():
    port, _holds = own_ports()
    print(next(free_ports(port)), flush=True)
    signal.pause()


if __name__ == "__main__":
    main()
