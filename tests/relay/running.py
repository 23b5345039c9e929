"""Runs tests, each in a process, a folder and ports of its own, and ends all that they started."""

import multiprocessing
import os
import random
import re
import shutil
import signal
import subprocess
import tempfile
import time
from multiprocessing.connection import wait

from ports import PORTS, RELAY, own_ports
from room import Failure, LeftOut, Room

MANY = 20  # times of its limit after which a test ends by itself
HERE = os.path.dirname(os.path.realpath(__file__))
TOP = os.path.dirname(os.path.dirname(HERE))


def run_alone(test, program, folder, between, block, answer):
    """One test, in this process, which leads a group of processes; ends the group where the time limit runs out. It has ports
    of its own between two, of this block or one behind it."""
    os.setpgid(0, 0)
    signal.signal(signal.SIGTERM, signal.SIG_DFL)
    signal.signal(signal.SIGALRM, lambda *_: os.killpg(0, signal.SIGKILL))
    signal.alarm(MANY * test.limit)
    said = ""
    try:
        port, _holds = own_ports(between, block)
        measured = test.body(Room(program, folder, port))
        said = f"passed, {measured}" if measured else ""
    except LeftOut as reason:
        said = f"left out: {reason}"
    except Failure as failure:
        said = f"failed: {failure}"
    except Exception as failure:  # (of the test itself)
        place = failure.__traceback__
        while place.tb_next:
            place = place.tb_next
        said = f"failed: {type(failure).__name__} in line {place.tb_lineno} of {place.tb_frame.f_code.co_name}: {failure}"
    answer.send(said)
    answer.close()


class Running:
    """A test that has been begun."""

    def __init__(self, test, program, top, between, block):
        # (two groups may have tests of one name)
        self.test, self.folder = test, f"{top}/{test.group}/{test.name}"
        os.makedirs(self.folder)
        self.answer, end = multiprocessing.Pipe(duplex=False)
        context = multiprocessing.get_context("fork")
        self.process = context.Process(target=run_alone, args=(test, program, self.folder, between, block, end))
        self.process.start()
        end.close()
        self.spent = 0

    def is_over(self):
        return self.answer.poll() or not self.process.is_alive() or self.spent > self.test.limit

    def end(self):
        """Ends all that the test started, and says how it ended."""
        said = f"failed: it did not end within {self.test.limit} s"
        if self.answer.poll():
            try:
                said = self.answer.recv()
            except EOFError:
                said = "failed: it ended without an answer"
        try:
            os.killpg(self.process.pid, signal.SIGKILL)
        except (ProcessLookupError, PermissionError):
            pass
        self.process.join()
        shutil.rmtree(self.folder, ignore_errors=True)
        return said


def run_all(tests, program, jobs, name, between=RELAY):
    """Runs tests, some at once, on ports between two; answers how many passed and failed.

    Each that failed, was left out or measured something is a line that begins with a name."""
    counts = {"passed": 0, "failed": 0, "left out": 0}
    blocks = (between[1] - between[0]) // PORTS
    block = random.randrange(blocks)
    running, left = [], list(tests)
    with tempfile.TemporaryDirectory() as top:
        try:
            while left or running:
                while left and len(running) < jobs:
                    block = (block + 1) % blocks
                    running.append(Running(left.pop(0), program, top, between, block))
                begun = time.monotonic()
                wait([it.answer for it in running], 1)
                # (what a busy machine takes for others doesn't count)
                for it in running:
                    it.spent += min(time.monotonic() - begun, 1.2)
                for it in [it for it in running if it.is_over()]:
                    running.remove(it)
                    said = it.end()
                    counts[re.split("[:,]", said)[0] or "passed"] += 1
                    if said:
                        print(f"{name}: {it.test.name}: {said}", flush=True)
            if counts["left out"]:
                print(f"{name}: {counts['left out']} left out", flush=True)
        finally:
            for it in running:
                it.end()
    return counts["passed"], counts["failed"]


def built():
    """The program that bin/syc would run, where one is current."""
    done = subprocess.run([f"{TOP}/bin/build", "--current"], stdin=subprocess.DEVNULL, stdout=subprocess.PIPE, check=False)
    return done.stdout.decode().rstrip("\n")
