"""Relays that can't start, with an explanation: the first line as without, and where, why and what to change behind it."""

import contextlib
import os
import resource
import shutil
import socket
import subprocess
import tempfile

from room import WAIT, Failure, LeftOut, imtcp, module, omfile, omfwd, same, test, totals
from statuses import hub_files, refuses

# (nobody else has it, so that a limit of threads is this user's alone)
USER = 54321


def explains(room, words, status, first, *notes, output=""):
    """A relay that ends by itself: its first line without --explain, and with it these lines behind that one too."""
    refuses(room, words, status, output, first)
    for explained in ["--explain", *words], [*words, "--explain"]:
        relay = refuses(room, explained, status, output, first + "".join(f"{it}\n" for it in notes))
    return relay


@test
def faults_of_files(room):
    port = room.port()
    hub_files(room, port)
    where = f"(looked for in {os.path.realpath(room.folder)}, the working directory)"
    explains(room, ["nowhere", "hub"], 4, "syc: read failed\n",
             "where: the command line: nowhere", f"why: nowhere: no such file {where}",
             "change: the name on the command line, or the directory that syc is started in")
    os.mkdir(room.path("folder"))
    explains(room, ["folder", "hub"], 4, "syc: read failed\n",
             "where: the command line: folder", "why: folder is a directory", "change: the name of a file on the command line")
    room.write("site", "relay hub nowhere.conf\n")
    explains(room, ["site", "hub"], 4, "syc: read failed\n",
             "where: site:1:1: relay hub", f"why: nowhere.conf: no such file {where}",
             "change: the name in that line, or the directory that syc is started in")


@test
def left_files_that_cannot_be_made(room):
    hub_files(room, room.port())
    where = f"(looked for in {os.path.realpath(room.folder)}, the working directory)"
    explains(room, ["--left", "gone/left", "site", "hub"], 4, "syc: left file gone/left: no such folder\n",
             "where: the command line: --left gone/left", f"why: gone/left: no such folder {where}",
             "change: make that folder, or another name on the command line")
    os.symlink("elsewhere", room.path("left"))
    explains(room, ["--left", "left", "site", "hub"], 4, "syc: left file left: a symbolic link\n",
             "where: the command line: --left left", "why: left: a symbolic link has this name, or the name with .new",
             "change: remove the link, or another name on the command line")
    room.write("file", "")
    explains(room, ["--left", "file/left", "site", "hub"], 4, "syc: left file file/left: can't be written\n",
             "where: the command line: --left file/left", "why: file/left: no file can be made beside it",
             "change: a folder that can be written (StateDirectory= or ReadWritePaths= of a unit)")


@test
def faulty_files_explained_as_by_check(room):
    port = room.port()
    hub_files(room, port)
    text = room.read("hub.conf").decode()
    for site, hub in ("relay hub hub.conf\nentri hub 1\n", text), (room.read("site"), text.replace("flowControl", "flowCantrol")), \
                     (room.read("site"), text + "action(\n"):
        room.write("site", site)
        room.write("hub.conf", hub)
        check = subprocess.run([room.program, "check", "--explain", "site"], cwd=room.folder, capture_output=True, text=True)
        first, _, behind = check.stderr.partition("\n")
        if not behind.startswith("where: "):
            raise Failure(f"check --explain says {check.stderr!r}")
        explains(room, ["site", "hub"], 2, f"{first}\n", *behind.splitlines())


@test
def refused_site_explained_as_by_certify(room):
    port = room.port()
    room.site({"hub": module() + imtcp(port, "on") + omfile("audit", "audit.log")}, f"entry hub {port}", "protect auth.* hub audit")
    refuses(room, ["site", "hub"], 1, f"refused: auth.emerg at hub {port}: 1 NotFull\n", "")
    certify = subprocess.run([room.program, "certify", "--explain", "site"], cwd=room.folder, capture_output=True, text=True)
    refuses(room, ["site", "hub", "--explain"], 1, certify.stdout, "")
    if "\nwhere: " not in certify.stdout:
        raise Failure(f"certify --explain says {certify.stdout!r}")


@test
def name_that_no_relay_has(room):
    first, second = room.port(), room.port()
    room.site({"edge": module() + imtcp(first) + omfwd("up", "hub", second),
               "hub": module() + imtcp(second) + omfile("audit", "audit.log")}, f"entry edge {first}", "protect auth.* hub audit")
    explains(room, ["site", "hubb"], 2, "syc: no relay hubb\n",
             "where: the command line: hubb", "why: no relay line has the name hubb; the names are edge, hub", "change: hub")
    explains(room, ["site", "collector"], 2, "syc: no relay collector\n", "where: the command line: collector",
             "why: no relay line has the name collector; the names are edge, hub", "change: one of edge, hub")


@test
def port_in_use(room):
    first, second = room.port(), room.port()
    hub_files(room, first, more=imtcp(second))
    with socket.create_server(("127.0.0.1", second)):
        explains(room, ["site", "hub"], 4, f"syc: 72 Bind at {second}\n", f"where: hub.conf:{place(room, second)}: input at port {second}",
                 f"why: port {second} of 127.0.0.1 is in use: another process listens there",
                 "change: end that process, which ss -ltnp lists, or another port here and wherever it is named")
    room.ports_are_free(first, second)


def place(room, word, file="hub.conf"):
    """Where the object stands in whose line this is: the line, and the column of its first word."""
    for number, line in enumerate(room.read(file).decode().splitlines(), 1):
        if str(word) in line:
            at = max(line.rfind(it, 0, line.index(str(word))) for it in ("input(", "action("))
            return f"{number}:{at + 1}"
    raise Failure(f"{file} has no {word}")


@test
def address_of_another_host(room):
    port = room.port()
    hub_files(room, port)
    room.write("site", f"relay hub  hub.conf 192.0.2.1\nentry hub {port}\nprotect auth.* hub audit\n")
    explains(room, ["site", "hub"], 4, f"syc: 72 Bind at {port}\n",
             "where: site:1:21: 192.0.2.1", "why: 192.0.2.1 is no address of this host",
             "change: an address of this host, as ip address lists them, or 0.0.0.0, which is all of them")


@contextlib.contextmanager
def ordinary_user(room):
    """What runs words of the command as an ordinary user in a copy of the room's folder, which it may read."""
    with tempfile.TemporaryDirectory(prefix="syc-starts-") as folder:
        os.chmod(folder, 0o755)
        shutil.copy(room.program, f"{folder}/syc")
        for name in os.listdir(room.folder):
            if os.path.isfile(room.path(name)):
                shutil.copy2(room.path(name), folder)
        under = ()
        if os.geteuid() == 0:
            if not shutil.which("setpriv"):
                raise LeftOut("setpriv isn't there")
            under = ("setpriv", f"--reuid={USER}", f"--regid={USER}", "--clear-groups", "--bounding-set=-all", "--inh-caps=-all")
        if subprocess.run([*under, f"{folder}/syc", "--version"], stdout=subprocess.DEVNULL, stderr=subprocess.DEVNULL).returncode:
            raise LeftOut("an ordinary user can't start a program here")

        def ends(words, status, errors, limits=None):
            relay = subprocess.run([*under, f"{folder}/syc", "run", *words], cwd=folder, stdin=subprocess.PIPE, preexec_fn=limits,
                                   capture_output=True, text=True, timeout=WAIT)
            same("status", relay.returncode, status)
            same("standard error", relay.stderr, errors)
        yield folder, ends


def explains_to_user(ends, status, first, *notes, limits=None):
    ends(["site", "hub"], status, first, limits)
    ends(["site", "hub", "--explain"], status, first + "".join(f"{it}\n" for it in notes), limits)


@test
def port_of_the_superuser(room):
    with open("/proc/sys/net/ipv4/ip_unprivileged_port_start") as it:
        if int(it.read()) <= 514:
            raise LeftOut("any user may listen at port 514 here")
    hub_files(room, 514, "/dev/null")
    with ordinary_user(room) as (_, ends):
        explains_to_user(ends, 4, "syc: 72 Bind at 514\n", f"where: hub.conf:{place(room, 514)}: input at port 514",
                         "why: port 514 of 127.0.0.1: permission denied; ports below 1024 are for the superuser and who has CAP_NET_BIND_SERVICE",
                         "change: a port from 1024 on, or AmbientCapabilities=CAP_NET_BIND_SERVICE in the unit")


@test
def file_of_another_user(room):
    hub_files(room, room.port())
    with ordinary_user(room) as (folder, ends):
        os.chmod(f"{folder}/hub.conf", 0o000)
        explains_to_user(ends, 4, "syc: read failed\n", "where: site:1:1: relay hub", "why: hub.conf: permission denied",
                         "change: let the user that starts syc read it, as by chmod or setfacl")


@test
def archives_that_can_not_be_opened(room):
    port = room.port()
    os.mkdir(room.path("folder"))
    room.write("file", "")
    folder = os.path.realpath(room.folder)
    make, here = "make that folder, or another name in that line", f"(looked for in {folder}, the working directory)"
    for file, why, change in (("nowhere/audit.log", f"nowhere/audit.log: no such folder as nowhere/ {here}", make),
                              (f"{folder}/no/audit.log", f"{folder}/no/audit.log: no such folder as {folder}/no/", make),
                              ("folder", "folder is a directory", "the name of a file"),
                              ("file/audit.log", "file/audit.log: what stands before a / is no folder", "the name of a file in a folder"),
                              ("", "the name of its file is empty", "the name of a file"),
                              ("a" * 300, f"{'a' * 300} can't be opened: invalid filename", "another file, or another disk")):
        hub_files(room, port, "first.log", more=omfile("second", file).replace("audit", "second"))
        explains(room, ["site", "hub"], 4, "syc: write failed\n", f"where: hub.conf:{place(room, 'second')}: action second",
                 f"why: {why.replace('audit.log', 'second.log')}", f"change: {change}")
        room.ports_are_free(port)


@test
def archives_that_are_no_regular_files(room):
    port = room.port()
    os.mkfifo(room.path("pipe"))
    for file, more in (("pipe", ""), ("pipe", ' fileType="regular"'), ("//dev/null", "")):
        hub_files(room, port, "first.log", more=omfile("second", file, more=more))
        explains(room, ["site", "hub"], 4, "syc: an archive is no regular file\n", f"where: hub.conf:{place(room, 'second')}: action second",
                 f"why: {file} is there, and is no regular file",
                 'change: the name of a file, or fileType="any" where a FIFO or a device is meant')
        room.ports_are_free(port)


@test
def archives_without_files_of_their_own(room):
    port = room.port()
    os.symlink("site", room.path("link"))
    for file, own, who, why in (("first.log", "first.log", "audit", "first.log is the file of action second too"),
                                ("./first.log", "first.log", "audit", "first.log is the file of action second too"),
                                ("hub.conf", "first.log", "second", "hub.conf is one of the site's own files"),
                                ("link", "first.log", "second", "link is one of the site's own files")):
        hub_files(room, port, own, more=omfile("second", file))
        before = room.read("hub.conf"), room.read("site")
        explains(room, ["site", "hub"], 4, "syc: an archive has no file of its own\n", f"where: hub.conf:{place(room, who)}: action {who}",
                 f"why: {why}", "change: the name of another file")
        same("the site's files", (room.read("hub.conf"), room.read("site")), before)
        room.ports_are_free(port)


@test
def archive_of_another_user(room):
    hub_files(room, room.port())
    with ordinary_user(room) as (folder, ends):
        if os.geteuid() != 0:
            os.chmod(folder, 0o555)
        explains_to_user(ends, 4, "syc: write failed\n", f"where: hub.conf:{place(room, 'audit')}: action audit",
                         "why: audit.log: permission denied",
                         "change: let the user that starts syc write it, as by chown or setfacl, and enter its folders")
        os.chmod(folder, 0o755)


@test
def start_without_threads(room):
    hub_files(room, room.port(), "/dev/null")
    with ordinary_user(room) as (_, ends):
        if os.geteuid() != 0:
            raise LeftOut("this user may have other processes, so no limit of threads is known")
        explains_to_user(ends, 3, "syc: no memory\n", "where: the start of the relay",
                         "why: the host gives the process no more threads, or no memory for the stack of one",
                         "change: a higher limit (ulimit -u and -v, or TasksMax= and MemoryMax= of the unit)",
                         limits=lambda: resource.setrlimit(resource.RLIMIT_NPROC, (1, 1)))


@test
def explained_start_that_succeeds(room):
    port = room.port()
    hub_files(room, port)
    relay = room.start("hub", port, words=["site", "hub", "--explain"])
    relay.stops_with(totals(0, 0, 0, ("audit", 0, 0, 0, 0)))
