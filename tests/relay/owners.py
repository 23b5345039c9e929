"""Whose a file is that an archive makes."""

import contextlib
import grp
import os
import pwd
import shutil
import subprocess
import tempfile

from escaping import hub
from peers import messages, send_all
from room import WAIT, LeftOut, Relay, Room, imtcp, is_listening, module, omfile, same, test, totals, until
from rotation import answer, asks, refused
from starts import USER

OWNER, GROUP = 54322, 54323


def owned(owner=None, group=None):
    return "".join(f' {name}="{it}"' for name, it in (("fileOwnerNum", owner), ("fileGroupNum", group)) if it is not None)


def owner_of(room, name="audit.log"):
    about = os.stat(room.path(name))
    return about.st_uid, about.st_gid


def needs_root():
    if os.geteuid():
        raise LeftOut("only root may give files away")


@test
def archive_of_another_owner(room):
    needs_root()
    own = (os.geteuid(), os.getegid())
    for owner, group in (OWNER, None), (None, GROUP), (OWNER, GROUP), (0, 0), (None, None):
        relay, port = hub(room, owned(owner, group))
        send_all(port, messages(1))
        room.holds("audit.log", messages(1))
        wanted = (own[0] if owner is None else owner, own[1] if group is None else group)
        same(f"owner and group by{owned(owner, group)}", owner_of(room), wanted)
        same("mode", os.stat(room.path("audit.log")).st_mode & 0o777, 0o640)
        relay.stops_with(totals(1, 0, 0, ("audit", 1, 1, 0, 0)))
        os.unlink(room.path("audit.log"))


@test
def archive_that_is_there_keeps_its_owner(room):
    needs_root()
    room.write("audit.log", b"before\n")
    os.chown(room.path("audit.log"), 54324, 54325)
    relay, port = hub(room, owned(OWNER, GROUP))
    send_all(port, messages(1))
    room.holds("audit.log", [b"before", *messages(1)])
    same("owner and group of the file that was there", owner_of(room), (54324, 54325))
    # (the file that is made in its place is theirs)
    os.rename(room.path("audit.log"), room.path("audit.old"))
    asks(relay)
    relay.says(answer(1))
    send_all(port, messages(1, 1))
    room.holds("audit.log", messages(1, 1))
    same("owners and groups", (owner_of(room), owner_of(room, "audit.old")), ((OWNER, GROUP), (54324, 54325)))
    relay.stops_with(totals(2, 0, 0, ("audit", 2, 2, 0, 0)))


@contextlib.contextmanager
def ordinary_user(room):
    """A folder of an ordinary user's with the program, and the words under which that is run as that user, who has one group."""
    under = ()
    if os.geteuid() == 0:
        if not shutil.which("setpriv"):
            raise LeftOut("setpriv isn't there")
        under = ("setpriv", f"--reuid={USER}", f"--regid={USER}", "--clear-groups", "--bounding-set=-all", "--inh-caps=-all")
    with tempfile.TemporaryDirectory(prefix="syc-escaping-") as folder:
        os.chmod(folder, 0o755)
        shutil.copy(room.program, f"{folder}/syc")
        if under:
            os.chown(folder, USER, USER)
        if subprocess.run([*under, f"{folder}/syc", "--version"], stdout=subprocess.DEVNULL, stderr=subprocess.DEVNULL, check=False).returncode:
            raise LeftOut("an ordinary user can't start a program here")
        yield folder, under


class InFolder(Room):
    """Another folder with the program, in the place of the test's own."""

    def __init__(self, room, folder):
        self.folder, self.program = folder, f"{folder}/syc"


def user_files(folder, port, more):
    for name, text in (("site", f"relay hub hub.conf\nentry hub {port}\nprotect auth.* hub audit\n"),
                       ("hub.conf", module() + imtcp(port) + omfile("audit", "audit.log", more=more))):
        with open(f"{folder}/{name}", "w", encoding="ascii") as it:
            it.write(text)


@test
def archive_that_cannot_be_given_away(room):
    with ordinary_user(room) as (folder, under):
        port = room.port()
        for more in owned(0), owned(None, 0), owned(OWNER, GROUP):
            user_files(folder, port, more)
            done = subprocess.run([*under, f"{folder}/syc", "run", "--explain", "site", "hub"], cwd=folder, stdin=subprocess.PIPE,
                                  capture_output=True, text=True, timeout=WAIT, check=False)
            same(f"status and totals by{more}", (done.returncode, done.stdout), (4, ""))
            same("its first words", done.stderr.splitlines()[:2], ["syc: write failed", "where: hub.conf:3:1: action audit"])
            same("files", sorted(os.listdir(folder)), ["hub.conf", "site", "syc"])
            same("listens", is_listening(port), False)


@test
def archive_of_its_own_owner(room):
    """Who gives a file to himself needs no more rights than any."""
    with ordinary_user(room) as (folder, under):
        about, port = os.stat(folder), room.port()
        user_files(folder, port, owned(about.st_uid, about.st_gid))
        relay = Relay(InFolder(room, folder), "hub", ["site", "hub"], under=under).listens(port)
        send_all(port, messages(1))
        until("the line is there", lambda: os.stat(f"{folder}/audit.log").st_size)
        with open(f"{folder}/audit.log", "rb") as it:
            same("the archive", it.read(), messages(1)[0] + b"\n")
        made = os.stat(f"{folder}/audit.log")
        same("owner and group", (made.st_uid, made.st_gid), (about.st_uid, about.st_gid))
        relay.stops_with(totals(1, 0, 0, ("audit", 1, 1, 0, 0)))


@test
def archive_that_cannot_be_given_away_anew(room):
    """Where the file that takes the place of one that was renamed can't be given away, lines go on to that one, and it isn't there."""
    with ordinary_user(room) as (folder, under):
        port = room.port()
        user_files(folder, port, owned(0))
        there = InFolder(room, folder)
        there.write("audit.log", "")
        os.chown(there.path("audit.log"), os.stat(folder).st_uid, os.stat(folder).st_gid)
        relay = Relay(there, "hub", ["site", "hub"], under=under).listens(port)
        send_all(port, messages(1))
        there.holds("audit.log", messages(1))
        os.rename(there.path("audit.log"), there.path("audit.old"))
        asks(relay)
        relay.says(answer(0))
        relay.says(refused("permission denied"))
        send_all(port, messages(2, 1))
        there.holds("audit.old", messages(3))
        same("whether another file is there", os.path.lexists(there.path("audit.log")), False)
        relay.stops_with(totals(3, 0, 0, ("audit", 3, 3, 0, 0)))


@test
def numbers_of_owners(room):
    """A number of 32 bits but for the last one, which stands for none."""
    port = room.port()
    for more in owned(0, 0), owned(4_294_967_294, 4_294_967_294):
        user_files(room.folder, port, more)
        done = subprocess.run([room.program, "check", "site"], cwd=room.folder, capture_output=True, text=True, check=False)
        same(f"a check with{more}", (done.returncode, done.stderr), (0, ""))
    for given in "4294967295", "4294967296", "18446744073709551616", "-1", "", " 1", "1a", "root", "0x1":
        for more, name in (owned(given), "fileOwnerNum"), (owned(0, given), "fileGroupNum"):
            user_files(room.folder, port, more)
            done = subprocess.run([room.program, "check", "site"], cwd=room.folder, capture_output=True, text=True, check=False)
            same(f"a check with{more}", (done.returncode, done.stdout, done.stderr), (2, "", f"syc: 42 Unknown of hub: {name}\n"))


@test
def archive_by_a_link_that_leads_nowhere(room):
    """The file that it would make would be whose it is not to be: it isn't made."""
    needs_root()
    port = room.port()
    user_files(room.folder, port, owned(OWNER, GROUP))
    os.symlink("elsewhere.log", room.path("audit.log"))
    done = subprocess.run([room.program, "run", "site", "hub"], cwd=room.folder, stdin=subprocess.PIPE, capture_output=True, text=True,
                          timeout=WAIT, check=False)
    same("status, and words", (done.returncode, done.stdout, done.stderr), (4, "", "syc: write failed\n"))
    same("whether a file is there", os.path.exists(room.path("audit.log")), False)


@test
def archive_by_a_link(room):
    """A file that is there keeps whose it is, by whatever name."""
    needs_root()
    room.write("elsewhere.log", "")
    os.symlink("elsewhere.log", room.path("audit.log"))
    relay, port = hub(room, owned(OWNER, GROUP))
    send_all(port, messages(1))
    room.holds("audit.log", messages(1))
    same("owner and group of the file", owner_of(room, "elsewhere.log"), (os.geteuid(), os.getegid()))
    relay.stops_with(totals(1, 0, 0, ("audit", 1, 1, 0, 0)))


def named(user=None, group=None):
    return "".join(f' {name}="{it}"' for name, it in (("fileOwner", user), ("fileGroup", group)) if it is not None)


def accounts():
    """A user and a group of this host that aren't root's."""
    user = next((it for it in pwd.getpwall() if it.pw_uid), None)
    group = next((it for it in grp.getgrall() if it.gr_gid), None)
    if user is None or group is None:
        raise LeftOut("this host has root alone")
    return user, group


@test
def archive_of_a_named_owner(room):
    """By the names of the host's own tables. Where a number is given too it holds, as rsyslogd has it."""
    needs_root()
    user, group = accounts()
    own = (os.geteuid(), os.getegid())
    for more, wanted in ((named(user.pw_name, group.gr_name), (user.pw_uid, group.gr_gid)),
                         (named(user.pw_name), (user.pw_uid, own[1])),
                         (named(None, group.gr_name), (own[0], group.gr_gid)),
                         (named("root", "root"), (0, 0)),
                         (named(user.pw_name, group.gr_name) + owned(OWNER), (OWNER, group.gr_gid)),
                         (owned(None, GROUP) + named(user.pw_name, group.gr_name), (user.pw_uid, GROUP)),
                         (named("nobody-has-this-name") + owned(OWNER, GROUP), (OWNER, GROUP))):
        relay, port = hub(room, more)
        send_all(port, messages(1))
        room.holds("audit.log", messages(1))
        same(f"owner and group by{more}", owner_of(room), wanted)
        relay.stops_with(totals(1, 0, 0, ("audit", 1, 1, 0, 0)))
        os.unlink(room.path("audit.log"))


@test
def named_owners_of_rsyslogd(room):
    """What rsyslogd makes of the same parameters."""
    needs_root()
    daemon = shutil.which("rsyslogd")
    if not daemon:
        raise LeftOut("rsyslogd isn't there")
    user, group = accounts()
    for more, wanted in ((named(user.pw_name, group.gr_name), (user.pw_uid, group.gr_gid)),
                         (named(user.pw_name, group.gr_name) + owned(OWNER, GROUP), (OWNER, GROUP)),
                         (owned(OWNER, GROUP) + named(user.pw_name, group.gr_name), (OWNER, GROUP))):
        port = room.port()
        room.write("rsyslog.conf", f'module(load="imtcp")\ninput(type="imtcp" port="{port}")\n'
                                   f'action(type="omfile" file="{room.path("theirs.log")}"{more})\n')
        words = [daemon, "-n", "-f", room.path("rsyslog.conf"), "-i", room.path("pid")]
        with subprocess.Popen(words, stdin=subprocess.DEVNULL, stdout=subprocess.DEVNULL, stderr=subprocess.DEVNULL) as theirs:
            try:
                until("rsyslogd listens", lambda: is_listening(port))
                send_all(port, messages(1))
                until("its file is there", lambda: os.path.exists(room.path("theirs.log")))
                same(f"owner and group by{more}", owner_of(room, "theirs.log"), wanted)
            finally:
                theirs.terminate()
        os.unlink(room.path("theirs.log"))


@test
def owners_that_the_host_does_not_have(room):
    """The relay doesn't start, and makes no file."""
    port = room.port()
    name = "nobody-has-this-name"
    for more, line, why in ((named(name), "user", "a user that doesn't stand in /etc/passwd"), (named("root", name), "group", "a group that doesn't stand in /etc/group"),
                            (named("0"), "user", "a user that doesn't stand in /etc/passwd")):
        user_files(room.folder, port, more)
        done = subprocess.run([room.program, "run", "--explain", "site", "hub"], cwd=room.folder, stdin=subprocess.PIPE, capture_output=True, text=True,
                              timeout=WAIT, check=False)
        same(f"status and totals by{more}", (done.returncode, done.stdout), (4, ""))
        same("its first words", done.stderr.splitlines()[:3],
             [f"syc: an archive is for a {line} that this host doesn't have", "where: hub.conf:3:1: action audit", f"why: audit.log is for {why}"])
        same("files", sorted(os.listdir(room.folder)), ["hub.conf", "site"])
        same("listens", is_listening(port), False)


@test
def names_of_owners(room):
    """A name has no blank, no control character and no colon. `check` looks into none of the host's tables."""
    port = room.port()
    for given in "nobody-has-this-name", "0", "a.b_c-d$", "a@b":
        user_files(room.folder, port, named(given, given))
        done = subprocess.run([room.program, "check", "site"], cwd=room.folder, capture_output=True, text=True, check=False)
        same(f"a check of {given}", (done.returncode, done.stderr), (0, ""))
    for given in "", "a b", "a:b", " a", "a\t":
        for more, parameter in (named(given), "fileOwner"), (named(None, given), "fileGroup"):
            user_files(room.folder, port, more)
            done = subprocess.run([room.program, "check", "site"], cwd=room.folder, capture_output=True, text=True, check=False)
            same(f"a check with{more}", (done.returncode, done.stdout, done.stderr), (2, "", f"syc: 42 Unknown of hub: {parameter}\n"))
