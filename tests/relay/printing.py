"""Standard error that nobody reads, or slowly, or that can't be written: nothing waits for it, and what is left out is counted.
And the lines of a start."""

import hashlib
import os
import re
import subprocess
import threading
import time

from peers import Sender, message, messages, send_all
from room import Failure, imtcp, module, omfile, same, test, totals, until
from told import full_pipe

MANY, AT_ONCE = 12_000, 64
THREADS, MEMORY = 80, 64 * 1024  # what a relay has at most: threads and KiB
QUEUE = 4096  # lines that may wait
LEFT_OUT = re.compile(r"syc: (\d+) lines left out")


def hub(room, errors):
    """A hub whose standard error is this descriptor; answers it and its port."""
    port = room.port()
    room.site({"hub": module() + imtcp(port) + omfile("audit", "audit.log")}, f"entry hub {port}", "protect auth.* hub audit")
    return room.start("hub", port, words=["site", "hub"], limits=lambda: os.dup2(errors, 2)), port


class Watch:
    """Looks at how many threads a relay has, at its most, until it is ended."""

    def __init__(self, relay):
        self.relay, self.most, self.is_over = relay, 0, False
        self.thread = threading.Thread(target=self.run, daemon=True)
        self.thread.start()

    def run(self):
        while not self.is_over:
            self.most = max(self.most, self.relay.status_field("Threads"))
            time.sleep(0.005)

    def end(self):
        self.is_over = True
        self.thread.join()
        return self.most


def send_faulty(port, count):
    """Opens so many connections, some at once, that each send a frame that is none, and waits until each is closed."""
    failures, left = [], list(range(count))

    def run():
        try:
            while left:
                left.pop()
                sender = Sender(port).send_bytes(b"0")
                sender.is_ended()
                sender.close()
        except IndexError:
            pass
        except (OSError, Failure) as failure:
            failures.append(str(failure))

    threads = [threading.Thread(target=run, daemon=True) for _ in range(AT_ONCE)]
    for it in threads:
        it.start()
    for it in threads:
        it.join()
    if failures:
        raise Failure(f"a sender: {failures[0]}")


def bears(relay, port, words=b""):
    """Has it serve many faulty connections and a good one, with these words on its standard input, and looks at what it takes."""
    watch = Watch(relay)
    send_faulty(port, MANY)
    relay.process.stdin.write(words)
    relay.process.stdin.flush()
    until("standard input is read", lambda: not relay.unread(), came=relay.unread)
    send_all(port, messages(1))
    relay.room.has("audit.log", 1)
    threads, memory = watch.end(), relay.status_field("VmHWM")
    if threads >= THREADS or memory >= MEMORY:
        raise Failure(f"{MANY} faulty connections: {threads} threads, {memory} KiB")


@test(limit=3600)
def many_faults_and_nobody_reads(room):
    outer, full = full_pipe()
    relay, port = hub(room, full)
    # (more than a pipe holds, so that one that isn't read would show)
    bears(relay, port, b"status\n" * 20_000)
    same("totals", relay.stop(), totals(1, 0, 0, ("audit", 1, 1, 0, 0)))
    for it in outer, full:
        os.close(it)


class Reader:
    """Reads a descriptor to its end, as many bytes at once, and with so many seconds between two reads."""

    def __init__(self, outer, size=65536, pause=0.0):
        self.outer, self.size, self.pause, self.text = outer, size, pause, b""
        self.thread = threading.Thread(target=self.run, daemon=True)
        self.thread.start()

    def run(self):
        while True:
            came = os.read(self.outer, self.size)
            if not came:
                return
            self.text += came
            time.sleep(self.pause)

    def lines(self):
        """The whole lines that came so far."""
        return self.text.decode().rpartition("\n")[0].split("\n")

    def end(self):
        self.thread.join(60)
        os.close(self.outer)
        return self.lines()


def pipe(room):
    """A hub whose standard error is a pipe; answers it, its port and the pipe's other end."""
    outer, inner = os.pipe()
    relay, port = hub(room, inner)
    os.close(inner)
    return relay, port, outer


def faults_in(lines, words):
    """How many faults these lines tell of."""
    found = [re.fullmatch(rf"syc: {re.escape(words)}(?:, and (\d+) others)?", it) for it in lines]
    return sum(1 + int(it.group(1) or 0) for it in found if it)


@test(limit=3600)
def many_faults_and_a_slow_reader(room):
    relay, port, outer = pipe(room)
    reader = Reader(outer, size=16, pause=0.02)
    bears(relay, port)
    same("totals", relay.stop(), totals(1, 0, 0, ("audit", 1, 1, 0, 0)))
    same("faults that were told", faults_in(reader.end(), f"11 BadLength at {port}"), MANY)


@test(limit=3600)
def many_faults_and_standard_error_closed(room):
    port = room.port()
    room.site({"hub": module() + imtcp(port) + omfile("audit", "audit.log")}, f"entry hub {port}", "protect auth.* hub audit")
    relay = room.start("hub", port, words=["site", "hub"], limits=lambda: os.close(2))
    bears(relay, port, b"status\n" * 20_000)
    same("totals", relay.stop(), totals(1, 0, 0, ("audit", 1, 1, 0, 0)))


@test(limit=3600)
def many_faults_and_a_full_disk(room):
    full = os.open("/dev/full", os.O_WRONLY)
    relay, port = hub(room, full)
    os.close(full)
    bears(relay, port, b"status\n" * 20_000)
    same("totals", relay.stop(), totals(1, 0, 0, ("audit", 1, 1, 0, 0)))


@test(limit=3600)
def many_faults_are_told_by_few_lines(room):
    relay, port = room.hub()
    begun = time.monotonic()
    bears(relay, port)
    same("totals", relay.stop(), totals(1, 0, 0, ("audit", 1, 1, 0, 0)))
    took, lines = time.monotonic() - begun, relay.errors().splitlines()
    same("faults that were told", faults_in(lines, f"11 BadLength at {port}"), MANY)
    # (three of the start, and two a second)
    if len(lines) > 2 * took + 7:
        raise Failure(f"{len(lines)} lines within {took:.1f} s")


def answers(lines, relay_line):
    """How many answers to `status` there are among these lines, each whole."""
    starts = [place for place, it in enumerate(lines) if it == relay_line]
    whole = [lines[it + 1:it + 4] for it in starts]
    for it in whole:
        if len(it) != 3 or " program: " not in it[0] or not it[1].startswith("taken ") or not it[2].startswith("audit due "):
            raise Failure(f"an answer in parts: {it}")
    return len(whole)


def left_out(lines):
    """How many lines were left out, as these say."""
    return sum(int(it.group(1)) for it in map(LEFT_OUT.fullmatch, lines) if it)


def told(lines):
    """How many lines there are, with those that were left out."""
    return sum(not LEFT_OUT.fullmatch(it) for it in lines) + left_out(lines)


@test
def lines_that_are_left_out_are_counted(room):
    relay, _, outer = pipe(room)
    asked = 6000
    relay.process.stdin.write(b"status\n" * asked)
    relay.process.stdin.flush()
    until("standard input is read", lambda: not relay.unread(), came=relay.unread)
    reader = Reader(outer)
    until("lines are left out", lambda: left_out(reader.lines()), came=lambda: reader.lines()[-3:])
    relay.process.stdin.write(b"status\n")
    relay.process.stdin.flush()
    # (three of the start)
    wanted = 3 + 4 * (asked + 1)
    until("all lines are printed or counted", lambda: told(reader.lines()) == wanted, came=lambda: reader.lines()[-5:])
    same("totals", relay.stop(), totals(0, 0, 0, ("audit", 0, 0, 0, 0)))
    lines = reader.end()
    same("lines printed and left out", told(lines), wanted)
    printed = [it for it in lines if not LEFT_OUT.fullmatch(it)]
    same("answers", 1 + answers(printed[3:], printed[1]), (len(printed) - 3) // 4 + 1)
    if len(printed) < QUEUE:
        raise Failure(f"{len(printed)} lines found room")


@test
def lines_left_out_are_told_at_the_end(room):
    relay, _, outer = pipe(room)
    relay.process.stdin.write(b"status\n" * 6000)
    relay.process.stdin.flush()
    until("standard input is read", lambda: not relay.unread(), came=relay.unread)
    relay.rests()
    begun = time.monotonic()
    relay.process.stdin.close()
    reader = Reader(outer)
    same("status", relay.ends(), 0)
    took, lines = time.monotonic() - begun, reader.end()
    if took >= 1:
        return  # (no stop waits longer for who reads the last lines, and on a busy machine that may not be enough)
    if not left_out(lines):
        raise Failure(f"no line tells of those left out; the last is {lines[-1]!r}")
    same("lines printed and left out", told(lines), 3 + 4 * 6000)


@test
def lines_of_a_start(room):
    first, second, inner = room.port(), room.port(), room.port()
    room.site({"edge": module() + imtcp(first) + imtcp(second) + omfile("audit", "audit.log"),
               "hub": module() + imtcp(inner) + omfile("kept", "kept.log")})
    names = ["site", "edge.conf", "hub.conf"]
    digits = hashlib.sha256(b"".join(map(room.read, names))).hexdigest()
    said = subprocess.run([room.program, "--version"], stdout=subprocess.PIPE, text=True, check=True).stdout.splitlines()[1:]
    record = f"{said[0]}, {said[1]}, {said[-1]}" if said[1:] else said[0]
    runs = f"syc: relay edge runs: site {digits}, 3 files\nsyc: relay edge program: {record}\n"
    relay = room.start_unchecked("edge", first, second)
    start = f"syc: input {first} listening at 127.0.0.1\nsyc: input {second} listening at 127.0.0.1\n{runs}"
    until("its lines come", lambda: relay.errors() == start, came=relay.errors)
    relay.process.stdin.write(b"status\n")
    relay.process.stdin.flush()
    status = runs + totals(0, 0, 0, ("audit", 0, 0, 0, 0))
    until("status is answered", lambda: relay.errors() == start + status, came=relay.errors)
    # (files that are changed later are none that it runs)
    room.write("hub.conf", "")
    relay.process.stdin.write(b"status\n")
    relay.process.stdin.flush()
    until("status is answered again", lambda: relay.errors() == start + status * 2, came=relay.errors)
    relay.stops_with(totals(0, 0, 0, ("audit", 0, 0, 0, 0)))


@test
def faults_of_two_kinds(room):
    relay, port = room.hub()
    for text in b"0", b"0", b"9 x", b"0", b"9 y", b"99999 ":
        Sender(port).send_bytes(text).half_close().is_ended()
    same("totals", relay.stop(), totals(0, 0, 0, ("audit", 0, 0, 0, 0)))
    wanted = {"11 BadLength": 3, "13 Truncated": 2, "12 TooLong": 1}
    for words, count in wanted.items():
        same(f"connections with {words}", faults_in(relay.errors().splitlines(), f"{words} at {port}"), count)


@test
def unread_frames_of_several_connections(room):
    relay, port = room.hub()
    for number in range(1, 5):
        send_all(port, [message(number)] + [b"x"] * number)
    room.has("audit.log", 4)
    same("totals", relay.stop(), totals(4, 0, 0, ("audit", 4, 4, 0, 0), unread=10))
    lines = [it for it in relay.faults_as_told() if " unread at " in it]
    first = re.escape(f" unread at {port}: 1 Pri at 0 in frame 2")
    found = [re.fullmatch(rf"syc: (\d+){first}(?:, and (\d+) of (\d+) others)?", it) for it in lines]
    if None in found:
        raise Failure(f"other lines: {lines}")
    same("frames", sum(int(it.group(1)) + int(it.group(2) or 0) for it in found), 10)
    same("connections", sum(1 + int(it.group(3) or 0) for it in found), 4)
