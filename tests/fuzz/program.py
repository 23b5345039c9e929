"""The program run once on a case: how it ended, and what it took."""

import os
import re
import signal
from typing import NamedTuple

LIMIT = 120  # seconds that a run may take, whatever goes on beside it
SECONDS = 1.0  # of processor time, for a text of less than 64 KiB
MEMORY = 64 * 1024  # KiB that are resident
FAULT = rb"\d+ [A-Z][A-Za-z0-9]*"
SAID = {
    "pass": rb"syc: (%s in frame \d+|%s at \d+ in frame \d+)\n" % (FAULT, FAULT),
    # (the word of a plan's fault ends before its first control character)
    "site": rb"syc: (%s in line \d+|%s at \d+:\d+ of [^ \n]+|%s of [^ \n]+: [^\x00-\x1f\x7f]*|read failed|illegal event in line \d+|86 TotalsFull in line \d+)\n"
    % (FAULT, FAULT, FAULT),
    # (a plan above the profile's limits is told as a site's file is)
    "convert": rb"syc: [^\n]+:\d+:\d+: not read: [^\n]+\n|syc: of [^\n]+:\nsyc: [^\n]+\n|syc: %s (at \d+:\d+ of host|of host: [^\x00-\x1f\x7f]*)\n" % FAULT,
    "survey": rb"syc: [^\n]+:\d+:\d+: not read: [^\n]+\n|syc: of [^\n]+:\nsyc: [^\n]+\n",
}


class Ended(NamedTuple):
    status: int
    out: bytes
    said: bytes


class Wrong(Exception):
    """A property that doesn't hold."""


def hold(is_so, what):
    if not is_so:
        raise Wrong(what)


def piped():
    """A pipe of which each read gets one write, where there are such."""
    try:
        return os.pipe2(os.O_DIRECT | os.O_CLOEXEC)
    except OSError:
        return os.pipe2(os.O_CLOEXEC)


class Runner:
    """Runs the program in a folder of its own."""

    def __init__(self, program, room):
        self.program, self.room, self.ends, self.slowest, self.largest = program, room, {}, 0.0, 0
        os.makedirs(f"{room}/files")
        os.chdir(f"{room}/files")
        self.written = {}
        self.streams = {it: os.open(f"{room}/{it}", os.O_RDWR | os.O_CREAT) for it in ("in", "out", "said")}

    def put(self, files):
        """Writes the files of a case, and takes away those of the case before."""
        for name in set(self.written) - set(files):
            os.unlink(name)
            del self.written[name]
        for name, text in files.items():
            if self.written.get(name) != text:
                with open(name, "wb") as it:
                    it.write(text)
                self.written[name] = text

    def read(self, name):
        os.lseek(self.streams[name], 0, os.SEEK_SET)
        parts = []
        while part := os.read(self.streams[name], 1 << 20):
            parts.append(part)
        return b"".join(parts)

    def run(self, *words, given=b"", pieces=None):
        """One run, whose standard input is given whole, or in pieces of which each read gets one."""
        for name in "in", "out", "said":
            os.ftruncate(self.streams[name], 0)
            os.lseek(self.streams[name], 0, os.SEEK_SET)
        source, sink = self.streams["in"], None
        if pieces is None:
            os.write(source, given)
            os.lseek(source, 0, os.SEEK_SET)
        else:
            source, sink = piped()
        known = [(os.POSIX_SPAWN_DUP2, source, 0), (os.POSIX_SPAWN_DUP2, self.streams["out"], 1), (os.POSIX_SPAWN_DUP2, self.streams["said"], 2)]
        pid = os.posix_spawn(self.program, ["syc", *words], {}, file_actions=known)
        signal.signal(signal.SIGALRM, lambda *_: os.kill(pid, signal.SIGKILL))
        signal.alarm(LIMIT)
        if sink is not None:
            os.close(source)
            self.feed(sink, pieces)
        _, how, used = os.wait4(pid, 0)
        signal.alarm(0)
        return self.judged(words, how, used)

    def feed(self, sink, pieces):
        try:
            for it in pieces:
                os.write(sink, it)
        except BrokenPipeError:
            pass  # (after a fault it reads no more)
        os.close(sink)

    def judged(self, words, how, used):
        """What is asked of each run, whatever it was given."""
        call = " ".join(words)
        hold(os.WIFEXITED(how), f"`{call}` ended by signal {os.WTERMSIG(how) if os.WIFSIGNALED(how) else '?'}")
        ended = Ended(os.WEXITSTATUS(how), self.read("out"), self.read("said"))
        end = f"{words[0]} {ended.status}"
        self.ends[end] = self.ends.get(end, 0) + 1
        seconds = used.ru_utime + used.ru_stime
        self.slowest, self.largest = max(self.slowest, seconds), max(self.largest, used.ru_maxrss)
        hold(seconds < SECONDS, f"`{call}` took {seconds:.2f} s of processor time")
        hold(used.ru_maxrss < MEMORY, f"`{call}` took {used.ru_maxrss} KiB")
        # (with --explain and --all more lines may stand behind the first one)
        has_more = "--explain" in words or "--all" in words
        is_unread = re.fullmatch(rb"syc: read failed\n" + (rb".*" if has_more else rb""), ended.said, re.DOTALL)
        hold(ended.status in (0, 1, 2) or ended.status == 4 and is_unread, f"`{call}` ended with {ended.status}, {ended.said[:200]!r}")
        if ended.status == 0 or ended.status == 1 and words[0] != "replay":
            hold(ended.said == b"", f"`{call}` ended with {ended.status} and said {ended.said[:200]!r}")
        else:
            # (notes may follow where an explanation is asked for)
            form = SAID[words[0] if words[0] in SAID else "site"] + (b".*" if has_more else b"")
            hold(re.fullmatch(form, ended.said, re.DOTALL), f"`{call}` ended with {ended.status} and said {ended.said[:200]!r}")
        return ended
