#!/usr/bin/env python3
"""Starts packaging/syc-run again and again beside load, and ends it after a short random time: starts.py [-n COUNT] [-t SECONDS]

Each start ends by itself, with the status of the relay where that was started, and leaves no folder and no process. COUNT
starts (default: 500), or as many as there is time for (default: 150 s). The last line is 'N passed, M failed'."""

import getopt
import os
import random
import signal
import subprocess
import sys
import tempfile
import time

TOP = os.path.dirname(os.path.dirname(os.path.dirname(os.path.realpath(__file__))))
WRAPPER = os.path.join(TOP, "packaging", "syc-run")
LIMIT = 120  # seconds in which a start that was ended has ended, beside whatever else the host does
RELAY = """#!/bin/sh
: >"$STARTED"
echo "syc: input 9 listening at 127.0.0.1" >&2
echo "syc: relay $3 runs: site 0, 1 files" >&2
while read -r line; do :; done
exit 3
"""
NOTIFY = "#!/bin/sh\nexit 0\n"


def of_session(session):
    """The processes of a session which still run."""
    found = []
    for it in filter(str.isdigit, os.listdir("/proc")):
        try:
            with open(f"/proc/{it}/stat", encoding="utf-8", errors="replace") as file:
                state, _, _, of = file.read().rpartition(")")[2].split()[:4]
        except OSError:
            continue
        if int(of) == session and state not in "ZX":
            found.append(int(it))
    return found


def fault_of(words, environment, room, delay, number):
    """What is wrong with a start that is ended after a delay; nothing where it is as it has to be."""
    started = os.path.join(room, "started")
    process = subprocess.Popen(words, env=environment | {"STARTED": started}, cwd=room, start_new_session=True,
                               stdin=subprocess.DEVNULL, stdout=subprocess.DEVNULL, stderr=subprocess.DEVNULL)
    try:
        # (the moment of the signal is what is tested)
        time.sleep(delay)
        process.send_signal(number)
        status = process.wait(LIMIT)
        allowed = [3] if os.path.exists(started) else [0, -number]
        if status not in allowed:
            return f"status {status}, not {' or '.join(map(str, allowed))}"
        # (what it has ended may still end)
        end = time.monotonic() + LIMIT
        while (left := of_session(process.pid)) and time.monotonic() < end:
            time.sleep(0.01)
        if left:
            return f"{len(left)} processes were left"
        if os.listdir(environment["TMPDIR"]):
            return "a folder was left"
    except subprocess.TimeoutExpired:
        return f"it ran on for {LIMIT} s"
    finally:
        for it in of_session(process.pid):
            os.kill(it, signal.SIGKILL)
        process.wait()
        for name in os.listdir(environment["TMPDIR"]):
            subprocess.run(["rm", "-r", os.path.join(environment["TMPDIR"], name)], check=False)
        if os.path.exists(started):
            os.unlink(started)
    return ""


def run(count, seconds, room):
    for name, text in ("relay", RELAY), ("systemd-notify", NOTIFY):
        path = os.path.join(room, name)
        with open(path, "w", encoding="utf-8") as file:
            file.write(text)
        os.chmod(path, 0o755)
    os.mkdir(os.path.join(room, "temporary"))
    # (nothing listens at port 9 here, so this file is kept at each start)
    with open(os.path.join(room, "left.9"), "wb") as file:
        file.write(b"17 <34>1 - - - - - -")
    plain = os.environ | {"SYC": os.path.join(room, "relay"), "TMPDIR": os.path.join(room, "temporary"),
                          "PATH": f"{room}:{os.environ['PATH']}"}
    plain.pop("NOTIFY_SOCKET", None)
    kinds = [([], plain), ([], plain | {"NOTIFY_SOCKET": "/none"}), (["--resend", "--left", "left"], plain | {"NOTIFY_SOCKET": "/none"})]
    failed = done = 0
    begun = time.monotonic()
    while done < count and time.monotonic() - begun < seconds:
        options, environment = kinds[done // 2 % len(kinds)]
        shell = ("sh", "bash")[done % 2]
        delay, number = random.uniform(0, random.choice((0.025, 0.1))), random.choice((signal.SIGTERM, signal.SIGINT))
        fault = fault_of([shell, WRAPPER, *options, "site", "hub"], environment, room, delay, number)
        if fault:
            failed += 1
            print(f"failed: {shell} syc-run {' '.join(options)}, {number.name} after {delay * 1000:.1f} ms: {fault}", flush=True)
        done += 1
    if done < count:
        print(f"only {done} of {count} starts in {seconds} s")
    print(f"{done - failed} passed, {failed} failed")
    return failed


def main():
    count, seconds = 500, 150
    for option, value in getopt.getopt(sys.argv[1:], "n:t:")[0]:
        if option == "-n":
            count = int(value)
        else:
            seconds = int(value)
    load = [subprocess.Popen(["timeout", str(seconds + 60), "sh", "-c", "while :; do :; done"]) for _ in range(os.cpu_count() or 1)]
    try:
        with tempfile.TemporaryDirectory() as room:
            return 1 if run(count, seconds, room) else 0
    finally:
        for it in load:
            it.terminate()
            it.wait()


if __name__ == "__main__":
    signal.signal(signal.SIGTERM, lambda *_: sys.exit(143))
    sys.exit(main())
