"""Runs what the pages of docs/book show.

Each block ```file NAME is a file of each host, or of one: HOST:NAME. Of each block ```run a line that begins with `$ ` or
`HOST$ ` is a command of a shell there, and what stands after it is what it prints, both streams together; a command with a
backslash at its end, or an open quotation, goes on in the next line. `..` stands for anything within a line, and for any
lines where it is alone in one. A command that only looks (LOOKS) is run again until it prints that. ```run NAME.. needs these
programs: where one isn't there, the rest of the page is left out (SYSLOG_NG names a syslog-ng that is elsewhere). Hosts are
as hosts.py says; systemctl and journalctl are those of the folder host.
"""

import concurrent.futures
import contextlib
import ctypes
import json
import os
import re
import shlex
import shutil
import signal
import socket
import subprocess
import sys
import tempfile
import time

from hosts import Hosts

LOOKS = {"cat", "grep", "tail", "head", "wc", "ls", "journalctl", "diff", "cmp", "stat", "curl"}
LIMIT = 300  # seconds of a command, or until what is looked at is there, beside whatever else the host does
SUBREAPER = 36
# The two points of a line that stand for anything, as re.escape writes them.
ANYTHING = re.compile(r"(?<![^\s\\(])\\\.\\\.(?=[\s,;)\\]|$)")
HERE = os.path.dirname(os.path.realpath(__file__))
# Where a program may be that isn't on the path of a user without rights.
PATH = f"{os.environ.get('PATH', '')}:/usr/sbin:/sbin"


def blocks(text):
    """The blocks of a page: their words, and what is in them."""
    return [(head.split(), body) for head, body in re.findall(r"(?ms)^```((?:file|run)\b.*?)\n(.*?)^```$", text)]


def commands(body):
    """The commands of a block: each its host, its words, and the lines that it has to print."""
    found = []
    for line in body.splitlines():
        begins = re.match(r"(\w*)\$ (.*)", line)
        if begins:
            found.append([begins[1] or "host", begins[2], []])
        elif found[-1][1].endswith("\\") or is_open(found[-1][1]):
            found[-1][1] += f"\n{line}"
        else:
            found[-1][2].append(line)
    return found


def is_open(words):
    """Whether a quotation of a command goes on in the next line."""
    try:
        shlex.split(words)
    except ValueError:
        return True
    return False


def pattern(lines):
    """What is printed has to be this, where `..` is anything."""
    parts = ["(?:.*\n)*" if it == ".." else ANYTHING.sub(".*", re.escape(it)) + "\n" for it in lines]
    return re.compile("".join(parts))


def defaults():
    for it in (signal.SIGHUP, signal.SIGINT, signal.SIGQUIT, signal.SIGTERM):
        signal.signal(it, signal.SIG_DFL)


def below(process):
    """The processes that this one began, and those that they began."""
    parents = {}
    for it in filter(str.isdigit, os.listdir("/proc")):
        try:
            with open(f"/proc/{it}/stat", encoding="utf-8", errors="replace") as stat:
                parents.setdefault(int(stat.read().rsplit(")", 1)[1].split()[1]), []).append(int(it))
        except OSError:
            pass
    found, left = [], [process]
    while left:
        left += parents.get(left[0], [])
        found.append(left.pop(0))
    return found[1:]


class Page:
    def __init__(self, program, top, page, number, room):
        self.page, self.hosts, self.wrong, self.tried, self.told = page, Hosts(room, top, program, number), [], 0, []
        os.mkdir(f"{room}/programs")
        programs = {"syc": program, "syc-run": f"{top}/packaging/syc-run", "syslog-ng": os.environ.get("SYSLOG_NG")}
        for name in filter(programs.get, programs):
            os.symlink(programs[name], f"{room}/programs/{name}")
        self.path = f"{HERE}/host:{room}/programs:{PATH}"
        with open(f"{top}/{page}", encoding="utf-8") as it:
            self.blocks = blocks(it.read())
        said = [it for words, body in self.blocks if words[0] == "run" for it, _, _ in commands(body)]
        for it in dict.fromkeys(said or ["host"]):
            self.hosts.home(it)
        self.at = {it: self.hosts.home(it) for it in self.hosts.names}

    def write(self, name, text):
        host, _, path = name.rpartition(":")
        for it in [host] if host else self.hosts.names:
            path_here = os.path.join(self.hosts.home(it), self.hosts.here(path, it))
            os.makedirs(os.path.dirname(path_here), exist_ok=True)
            with open(path_here, "w", encoding="utf-8") as file:
                file.write(self.hosts.here(text, it))

    def once(self, host, words):
        """What a command of a host prints."""
        env = os.environ | {"PATH": self.path, "PAGE_HOSTS": str(self.hosts),
                            "PAGE_HOST": host, "PAGE_HOME": self.hosts.home(host), "LC_ALL": "C.UTF-8", "TZ": "UTC"}
        with tempfile.TemporaryFile() as said:
            words = f"{self.hosts.here(words, host)}\n{{ ended=$?; pwd >&9; }} 2>/dev/null; exit $ended"
            where = f"{self.hosts.home(host)}/where"
            subprocess.run(["bash", "-c", f"exec 9>{where}; {words}"], cwd=self.at[host], env=env, stdin=subprocess.DEVNULL,
                           stdout=said, stderr=said, timeout=LIMIT, check=False, preexec_fn=defaults)
            with open(where, encoding="utf-8") as it:
                self.at[host] = it.read().strip() or self.at[host]
            said.seek(0)
            return self.hosts.there(said.read().decode("utf-8", "replace"), host)

    def command(self, host, words, lines):
        wanted, end = pattern(lines), time.monotonic() + LIMIT
        looks = re.match(r"\S+", words)[0] in LOOKS
        self.tried += 1
        while True:
            got = self.once(host, words)
            got += "" if not got or got.endswith("\n") else "\n"
            if wanted.fullmatch(got):
                return True
            if not looks or time.monotonic() > end:
                break
            time.sleep(0.1)
        self.wrong.append(f"{self.page}: {host}$ {words}: it printed:\n{got}")
        return False

    def run(self):
        for (kind, *names), body in self.blocks:
            if kind == "file":
                self.write(names[0], body)
                continue
            lacking = [it for it in names if not shutil.which(it, path=self.path)]
            if lacking:
                self.told.append(f"{self.page}: no {', '.join(lacking)}: what comes after is left out")
                return
            for it in commands(body):
                # (what follows rests on it)
                if not self.command(*it):
                    return


def own_number(number):
    """A number that no other page on this machine has now, and what holds it until this process ends."""
    for it in range(number, number + 120):
        holds = socket.socket()
        with contextlib.suppress(OSError):
            holds.bind((f"127.{100 + it % 120}.255.254", 6514))
            return 100 + it % 120, holds
    raise OSError("other pages have all numbers")


def run_page(program, top, page, number):
    """What is wrong with a page, how many commands were tried, and what is told of it."""
    ctypes.CDLL(None).prctl(SUBREAPER, 1, 0, 0, 0)
    number, _held = own_number(number)
    with tempfile.TemporaryDirectory(prefix="page-") as room:
        it = Page(program, top, page, number, os.path.realpath(room))
        try:
            it.run()
        except (OSError, LookupError, ValueError, subprocess.SubprocessError) as why:
            it.wrong.append(f"{page}: {type(why).__name__}: {why}")
        finally:
            for process in below(os.getpid()):
                with contextlib.suppress(ProcessLookupError):
                    os.kill(process, signal.SIGKILL)
        return it.wrong, it.tried, it.told


def run_pages(program, top, pages):
    """The same of all pages, some beside each other; each by a process of its own, which ends what its page began."""
    def by_itself(at):
        words = [sys.executable, "-B", f"{HERE}/book.py", program, top, pages[at], str(os.getpid() + at)]
        done = subprocess.run(words, stdin=subprocess.DEVNULL, stdout=subprocess.PIPE, check=False)
        return json.loads(done.stdout) if done.returncode == 0 else ([f"{pages[at]}: book.py failed"], 0, [])

    with concurrent.futures.ThreadPoolExecutor(4) as pool:
        return list(pool.map(by_itself, range(len(pages))))


if __name__ == "__main__":
    # (what a page began ends with it, also where a signal ends this)
    for number in signal.SIGTERM, signal.SIGINT, signal.SIGHUP:
        if signal.getsignal(number) is not signal.SIG_IGN:
            signal.signal(number, lambda number, _: sys.exit(128 + number))
    print(json.dumps(run_page(*sys.argv[1:4], int(sys.argv[4]))))
