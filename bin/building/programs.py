"""The programs that bin/build makes, each with what it was made from, and how the proved one is made."""

import contextlib
import fcntl
import hashlib
import os
import re
import shutil
import signal
import subprocess
import tempfile
import time
from pathlib import Path

TOP = os.path.abspath(f"{os.path.realpath(__file__)}/../../..")
# The crates of the libraries' tests, which are no crates of the repository: their folder, and what each stands on.
TESTS, USES = "tests/libraries", "tests/libraries/uses.txt"
MEASURED = "some 80 minutes on two processors"  # when it was last seen, with nothing proved before
# The scripts that make a quick program, of which it is made too.
SCRIPTS = ["bin/build", *(f"bin/building/{it}.py" for it in ("programs", "quick"))]
RECORD = 512  # the bytes at the end of a program that say how it was built, line feeds filling them up
progress = [1]  # the stream for lines of progress


class Failed(Exception):
    """Why something can't be built."""


def say(text):
    # (what is told may get lost, but no build fails by it)
    with contextlib.suppress(OSError):
        os.write(progress[0], f"bin/build: {text}\n".encode())


def text_of(path):
    """The text of a file, or nothing where there is none."""
    with contextlib.suppress(OSError), open(path, encoding="utf-8", errors="replace") as it:
        return it.read()
    return ""


def needed_kit():
    """The toolchain's folder, that of the command rt."""
    rt = shutil.which("rt")
    if not rt:
        raise Failed("the command rt of the toolchain is not on PATH")
    return os.path.dirname(os.path.dirname(os.path.realpath(rt)))


def kit_name():
    """The toolchain's name, which changes with it."""
    return text_of(f"{needed_kit()}/KIT-ID").strip() or "unknown"


def crates_of(root=TOP):
    """What each crate stands on, crates of the repository and libraries of the toolchain; those of tests, too."""
    lines = text_of(f"{root}/crates.txt").splitlines() + text_of(f"{root}/{USES}").splitlines()
    rows = [it.partition("#")[0].partition(":") for it in lines]
    return {name.split()[0]: uses.replace(",", " ").split() for name, _, uses in rows if name.strip()}


def below(crates, name):
    """The repository's crates that one stands on, each after those that it stands on itself, and that one last."""
    found = [other for it in crates.get(name, ()) if it in crates for other in below(crates, it)]
    return [*dict.fromkeys(found), name]


@contextlib.contextmanager
def alone(path):
    """Waits until no other call makes the same."""
    os.makedirs(os.path.dirname(path), exist_ok=True)
    with open(path, "w", encoding="utf-8") as lock:
        try:
            fcntl.flock(lock, fcntl.LOCK_EX | fcntl.LOCK_NB)
        except BlockingIOError:
            say("another bin/build makes the same: waiting for it")
            fcntl.flock(lock, fcntl.LOCK_EX)
        yield


@contextlib.contextmanager
def telling(how_far):
    """Says every ten seconds how far a build is, and how many seconds it has taken."""
    began = time.monotonic()
    signal.signal(signal.SIGALRM, lambda *_: say(f"{how_far()}; {time.monotonic() - began:.0f} s so far"))
    signal.setitimer(signal.ITIMER_REAL, 10, 10)
    try:
        yield
    finally:
        signal.setitimer(signal.ITIMER_REAL, 0)


def run(words, folder, room, hear=lambda line: None):
    """Runs a command that reads nothing: its status, and what it said, both streams together, each line once it comes. What
    ends this program on the way, as a signal, ends all that the command has begun."""
    how = {"stdin": subprocess.DEVNULL, "stdout": subprocess.PIPE, "stderr": subprocess.STDOUT, "errors": "replace"}
    said = []
    with subprocess.Popen(words, cwd=folder, env=os.environ | {"TMPDIR": room}, start_new_session=True, **how) as it:
        try:
            for line in it.stdout:
                said.append(line)
                hear(line)
        except BaseException:
            os.killpg(it.pid, signal.SIGKILL)
            raise
    return it.returncode, "".join(said)


def sum_of(path):
    with open(path, "rb", buffering=0) as it:
        return hashlib.file_digest(it, "sha256").hexdigest()


def is_of_tests(crate):
    return os.path.isdir(f"{TOP}/{TESTS}/{crate}/src")


class Program:
    """A program that is made here, and its record: its sum, that of its sources, and the toolchain's name."""

    def __init__(self, kind, crate):
        self.crate, self.name, self.lock = crate, f"out/{kind}/{crate}", f"{TOP}/out/build/{kind}_{crate}.lock"
        self.path = f"{TOP}/{self.name}"
        self.parts = ["src", "specs", "proofs"] if kind == "proved" else ["src"]
        self.others = ["crates.txt", *(["HANDLES"] if kind == "proved" else SCRIPTS), *[USES][: is_of_tests(crate)]]

    def sources(self, root):
        """The files that it is made from, by their paths below the repository, in order."""
        found = list(self.others)
        for crate in below(crates_of(root), self.crate):
            folder = Path(root, TESTS if is_of_tests(crate) else "crates", crate)
            found += [str(it.relative_to(root)) for part in self.parts for it in folder.glob(f"{part}/**/*") if it.is_file()]
        return sorted(found)

    def sum_of_sources(self, name, root=TOP):
        """The sum of the sources below root, with a toolchain of this name."""
        lines = [f"{name}\n", *(f"{sum_of(f'{root}/{it}')}  {it}\n" for it in self.sources(root))]
        return hashlib.sha256("".join(lines).encode()).hexdigest()

    def sum_now(self):
        """The sum of the sources as they stand, with the toolchain on PATH (without one none can be another one)."""
        return self.sum_of_sources(kit_name() if shutil.which("rt") else self.record()[2])

    def record(self):
        """The sum of the program, that of its sources, and the toolchain's name, as they were when it was made."""
        return (text_of(f"{self.path}.sums").split("\n") + ["", "", ""])[:3]

    def is_current(self):
        made, sources, _ = self.record()
        is_made = os.access(self.path, os.X_OK) and sum_of(self.path) == made
        return is_made and sources == self.sum_now()

    def copy_sources(self, to):
        """Copies what it is made from, and what the toolchain's gate runs the program on, below another folder; the tests as
        a crate, too."""
        for path in [*self.sources(TOP), *(f"crates/syc/{it}" for it in ("args", "stdin", "stdout"))]:
            for its_copy in {path, path.replace(f"{TESTS}/", "crates/").removesuffix(".text")}:
                os.makedirs(os.path.dirname(f"{to}/{its_copy}"), exist_ok=True)
                shutil.copyfile(f"{TOP}/{path}", f"{to}/{its_copy}")

    def commit(self, sources):
        """The commit that these are the sources of. A folder without .git is no repository, even within another one."""
        asked, how = (["rev-parse", "HEAD"], ["status", "--porcelain", "--", *self.others, "bin", "crates"]), {"text": True}
        with contextlib.suppress(OSError, subprocess.CalledProcessError):
            if os.path.exists(f"{TOP}/.git"):
                name, changes = (subprocess.check_output(["git", "-C", TOP, *it], **how).strip() for it in asked)
                return name + (" with changes" if changes or sources != self.sum_now() else "")
        return "unknown"

    def put(self, made, sources, name):
        """Takes what was made as this program, with a record of its build behind its end, and records what it is of."""
        os.makedirs(os.path.dirname(self.path), exist_ok=True)
        text, kind = Path(made).read_bytes(), "proved" if "proofs" in self.parts else "unproved"
        if text.startswith(b"\x7fELF"):
            lines = f"syc-build 1\ncommit {self.commit(sources)}\nsources {sources}\nkit {name}\n{kind}"
            text = text[: -RECORD if text[-RECORD:].startswith(b"syc-build 1\n") else None] + lines.encode().ljust(RECORD, b"\n")
        Path(f"{self.path}.new").write_bytes(text)
        os.chmod(f"{self.path}.new", 0o755)
        os.replace(f"{self.path}.new", self.path)
        # (until that is written the record is of another program, which isn't current)
        Path(f"{self.path}.sums").write_text(f"{sum_of(self.path)}\n{sources}\n{name}\n", encoding="utf-8")


def tell_sums(program):
    """Prints the sums of a program and of its sources; where it isn't current, as a source has changed, that is a failure."""
    made, sources, _ = program.record()
    if not made or not os.path.isfile(program.path):
        raise Failed(f"there is no {program.name}: run bin/build")
    print(f"{sum_of(program.path)}  {program.name}\n{sources}  sources", flush=True)
    if not program.is_current():
        raise Failed(f"{program.name} is not current: the sources are now {program.sum_now()}")


def prove(room):
    """Has the toolchain prove the program and all crates that it stands on, in a tree of these alone, and run it; what passes
    it keeps for later runs on the machine. Returns the program."""
    tree, proved, last = f"{room}/source", set(), ["nothing yet"]
    crates = crates_of(tree)
    order = below(crates, "syc")
    Path(tree, "crates.txt").write_text("".join(f"{name}: {' '.join(crates[name])}\n" for name in order), encoding="utf-8")

    def hear(line):
        last[0] = line.strip() or last[0]
        proved.update(re.findall(r"^rt: (\w+) (?:proved$|is kept)", line))
        if line.startswith("rt: "):
            say(line.rstrip())

    say(f"{len(order)} crates; with nothing proved before, that took {MEASURED} when last measured")
    with telling(lambda: f"{len(proved)} of {len(order)} crates are proved; rt ci said last: {last[0]}"):
        status, said = run(["rt", "ci"], tree, room, hear)
    Path(TOP, "out/build/log").write_text(said, encoding="utf-8")
    made, end = f"{tree}/crates/syc/out/syc", "\n".join(said.splitlines()[-20:])
    if status or not os.path.isfile(made):
        raise Failed(f"no program was built; out/build/log has the whole report, which ends so:\n{end}")
    return made


def build(program, make):
    """Builds a program where it isn't current, and returns it. What makes it gets a room with a copy of the sources."""
    name = kit_name()
    with alone(program.lock):
        if program.is_current():
            say(f"{program.name} is current")
            return program
        began = time.monotonic()
        with tempfile.TemporaryDirectory(prefix="syc-build-") as room:
            program.copy_sources(f"{room}/source")
            wanted = program.sum_of_sources(name, f"{room}/source")
            program.put(make(room), wanted, name)
        say(f"{program.name} built in {time.monotonic() - began:.0f} s")
        return program


def adopt(made, folder=TOP):
    program, name = Program("proved", "syc"), kit_name()
    if not os.access(made, os.X_OK) or not os.path.isfile(made):
        raise Failed(f"there is no program {made}")
    with alone(program.lock):
        program.put(made, program.sum_of_sources(name, os.path.abspath(folder)), name)
