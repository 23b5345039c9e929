"""The toolchain's own words for a check: which crates there are, what each stands on, how rattle is called."""

import os
import re
import shutil
import subprocess
import sys

rt = shutil.which("rt") or sys.exit("tests/edits/run: the command rt of the toolchain is not on PATH")
sys.path.append(os.path.dirname(os.path.realpath(rt)))

import rtlib  # noqa: E402


def crates_of(root):
    """The crates of a repository, each after those that it stands on, by name."""
    os.chdir(root)
    return {it.name: it for it in sorted(rtlib.crates_below(root), key=lambda it: len(it.below()))}


def build_below(crate):
    """Has rt build the libraries that a crate stands on, over what earlier checks kept; whether all are there."""
    how = {"stdin": subprocess.DEVNULL, "stdout": subprocess.DEVNULL}
    return all(it.is_built() or not subprocess.run(["rt", "lib"], cwd=it.folder, **how).returncode for it in crate.below())


def check(crate, room, kept, functions, jobs=1):
    """What a check of the crate in `room` says of these functions and those that they call (where none is named, of all);
    `kept` has what earlier checks proved. Returns its status, its lines and its processor seconds, those of its other jobs
    with them."""
    words = [*crate.words(["--jobs", str(jobs)], keeps=False), "--incremental", kept]
    for it in functions:
        words += ["--only", it]
    how = {"cwd": room, "stdin": subprocess.DEVNULL, "stdout": subprocess.PIPE, "stderr": subprocess.STDOUT}
    ran = subprocess.Popen([*rtlib.guarded(), rtlib.RATTLE, "check", *words], errors="replace", **how)
    with ran.stdout:
        said = ran.stdout.read()
    _, ended, usage = os.wait4(ran.pid, 0)
    ran.returncode = os.waitstatus_to_exitcode(ended)
    stale = re.search(r"Run the lower steps again", said)
    return (2 if stale else ran.returncode), said.rstrip("\n").split("\n"), usage.ru_utime + usage.ru_stime


def copy_of(crate, room):
    """Copies the crate's sources, definitions and proofs to `room`."""
    for part in ("src", "specs", "proofs"):
        shutil.rmtree(f"{room}/{part}", ignore_errors=True)
        if os.path.isdir(f"{crate.folder}/{part}"):
            shutil.copytree(f"{crate.folder}/{part}", f"{room}/{part}")
