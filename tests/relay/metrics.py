"""What is watched of a relay: the file of its metrics, and its status as a JSON document."""

import hashlib
import json
import os
import re
import shutil
import subprocess
import time
import urllib.error
import urllib.request

from control import asked, edge, printed
from crowd import document
from marks import stuck
from peers import Pump, Receiver, Sender, frame, message, messages, send_all
from room import WAIT, Failure, LeftOut, imtcp, is_listening, main_queue, module, omfile, omfwd, same, test, totals, until

EACH_SECOND = ["--metrics", "m.prom", "--metrics-every", "1"]
SAMPLE = re.compile(r'(\w+)\{((?:\w+="(?:[^"\\\n]|\\["\\n])*",?)+)\} (\d+)')
LAST = "# TYPE syc_queue_messages_lost_total counter\n"


def parsed(text):
    """The samples of metrics, by name and labels; each name has its help and its type once, above its samples."""
    found, types = {}, {}
    for line in text.splitlines():
        words = line.split(" ", 3)
        if words[:2] == ["#", "HELP"]:
            last = words[2]
        elif words[:2] == ["#", "TYPE"]:
            same("the metric of a type", (words[2], words[2] in types), (last, False))
            types[last] = words[3]
        else:
            sample = SAMPLE.fullmatch(line)
            if not sample or sample.group(1) != last or last not in types:
                raise Failure(f"a line of metrics: {line!r}")
            key = f"{last.removeprefix('syc_')}{{{sample.group(2)}}}"
            same(f"whether {key} is there before", key in found, False)
            found[key] = int(sample.group(3))
    for name, kind in types.items():
        same(f"type of {name}", kind, "counter" if name.endswith("_total") else "gauge")
    return found


def is_whole(text):
    return text.startswith("# HELP syc_running ") and text.endswith("\n") and LAST in text


class Watched:
    """The file of a relay's metrics."""

    def __init__(self, room, relay, name="m.prom"):
        self.room, self.path, self.relay = room, room.path(name), relay

    def text(self):
        try:
            with open(self.path, encoding="utf-8") as it:
                return it.read()
        except FileNotFoundError:
            return ""

    def all(self):
        return parsed(self.text())

    def number(self, name, **labels):
        """A number of the relay, or of a part of it."""
        shown = "".join(f',{label}="{value}"' for label, value in labels.items())
        return self.all().get(f'{name}{{relay="{self.relay.name}"{shown}}}')

    def shows(self, name, value, **labels):
        """Waits until a number has this value."""
        until(f"{name} {labels} is {value}", lambda: self.number(name, **labels) == value, came=lambda: self.number(name, **labels))


def watched_hub(room, more="", words=()):
    """Starts a hub with one archive whose metrics are written each second; answers it, its port and the file."""
    port = room.port()
    room.site({"hub": module() + more + imtcp(port) + omfile("audit", "audit.log")}, f"entry hub {port}", "protect auth.* hub audit")
    relay = room.start("hub", port, words=[*(words or EACH_SECOND), "site", "hub"])
    return relay, port, Watched(room, relay)


def named(found, name):
    """The one of these that has the name."""
    return next(it for it in found if it["name"] == name)


@test
def metrics_before_the_first_message(room):
    relay, port, file = watched_hub(room, words=["--metrics", "m.prom"])
    file.shows("running", 1)
    same("taken, and by which input", file.number("messages_taken_total", input=port), 0)
    same("numbers of the action", [file.number(f"action_{it}", action="audit") for it in
                                   ("runs_due_total", "runs_done_total", "runs_given_up_total", "runs_left", "failing", "failures_total")], [0] * 6)
    since = file.number("action_state_since_timestamp_seconds", action="audit")
    if not 0 <= time.time() - since < 60:
        raise Failure(f"the action works since {since}, and it is {time.time()}")
    relay.stops_with(totals(0, 0, 0, ("audit", 0, 0, 0, 0)))


@test
def metrics_agree_with_status(room):
    relay, port, file = watched_hub(room)
    sender = Sender(port)
    sender.send(*messages(7)).send_bytes(frame(b"no message") + frame(b"<34>")).half_close().is_ended()
    Sender(port).send(*messages(2, 7)).end()
    room.has("audit.log", 9)
    open_one = Sender(port)
    file.shows("messages_taken_total", 9, input=port)
    file.shows("input_connections", 1, input=port)
    relay.rests(port)
    same("the totals", asked(relay, 1, 3), [totals(9, 0, 0, ("audit", 9, 9, 0, 0), unread=2)])
    shown = file.all()
    found = document(relay)
    same("a document", [found[it] for it in ("format", "command", "relay", "taken", "lost", "held", "queued", "left_out")],
         [1, "status", "hub", 9, 0, 0, 0, 0])
    digits = hashlib.sha256(b"".join(map(room.read, ("site", "hub.conf")))).hexdigest()
    said = subprocess.run([room.program, "--version"], stdout=subprocess.PIPE, text=True, check=True).stdout.splitlines()[1:]
    record = f"{said[0]}, {said[1]}, {said[-1]}" if said[1:] else said[0]
    same("which files and which program", [found["runs"], found["program"]], [f"site {digits}, 2 files", record])
    same("its input", found["inputs"], [{"port": port, "taken": 9, "open": 1, "accepted": 3, "held": 0, "unread": 2, "lost": 0}])
    same("the same as metrics", [shown[f'input_{it}{{relay="hub",input="{port}"}}'] for it in
                                 ("connections", "connections_accepted_total", "connections_held", "frames_unread_total", "messages_lost_total")],
         [1, 3, 0, 2, 0])
    action = found["actions"][0]
    same("its action", [action[it] for it in ("name", "state", "reason", "due", "done", "given_up", "left", "failures")],
         ["audit", "works", None, 9, 9, 0, 0, 0])
    same("since when", shown['action_state_since_timestamp_seconds{relay="hub",action="audit"}'], action["since"])
    same("done, as a metric", shown['action_runs_done_total{relay="hub",action="audit"}'], 9)
    open_one.close()
    relay.stop()


@test
def metrics_at_the_stop(room):
    # (they are written at the start, and not again before the stop)
    relay, port, file = watched_hub(room, words=["--metrics", "m.prom", "--metrics-every", "3600"])
    file.shows("running", 1)
    send_all(port, messages(12))
    room.holds("audit.log", messages(12))
    relay.stops_with(totals(12, 0, 0, ("audit", 12, 12, 0, 0)))
    same("the last numbers", [file.number("running"), file.number("messages_taken_total", input=port), file.number("messages_held"),
                              file.number("input_connections", input=port), file.number("action_runs_done_total", action="audit")], [0, 12, 0, 0, 12])
    same("files", sorted(it for it in os.listdir(room.folder) if it.startswith("m.prom")), ["m.prom"])


@test
def metrics_are_never_half_there(room):
    relay, port, file = watched_hub(room)
    file.shows("running", 1)
    pump = Pump(port, 0)
    inodes, end = [], time.monotonic() + WAIT
    while len(inodes) < 4:
        with open(file.path, encoding="utf-8") as it:
            inode, text = os.fstat(it.fileno()).st_ino, it.read()
        if not is_whole(text):
            raise Failure(f"half a file: {text[-200:]!r}")
        if inode not in inodes[-1:]:
            inodes.append(inode)
        if time.monotonic() > end:
            raise Failure(f"{len(inodes)} files in {WAIT} s")
    pump.finish()
    room.has("audit.log", pump.sent)
    file.shows("messages_taken_total", pump.sent, input=port)
    relay.stops_with(totals(pump.sent, 0, 0, ("audit", pump.sent, pump.sent, 0, 0)))


@test
def action_that_fails_and_works_again(room):
    begun = int(time.time())
    relay, port, inner = edge(room, EACH_SECOND)
    file = Watched(room, relay)
    send_all(port, messages(3))
    file.shows("action_failing", 1, action="up")
    failed = file.number("action_state_since_timestamp_seconds", action="up")
    found = document(relay)["actions"][0]
    same("it fails", [found[it] for it in ("name", "state", "reason", "failures", "since")], ["up", "fails", "connection refused", 1, failed])
    if not begun <= failed <= time.time():
        raise Failure(f"it fails since {failed}, after {begun}")
    # (a second passes, as the host's clock has it, so that what comes next is seen to be later)
    until("a second has passed", lambda: int(time.time()) > failed + 1)
    Receiver(inner).has(messages(3))
    file.shows("action_failing", 0, action="up")
    file.shows("action_runs_done_total", 3, action="up")
    works = file.number("action_state_since_timestamp_seconds", action="up")
    if not failed < works <= time.time():
        raise Failure(f"it works since {works}, and failed since {failed}")
    found = document(relay)["actions"][0]
    same("it works", [found[it] for it in ("state", "reason", "failures", "since")], ["works", None, 1, works])
    relay.stops_with(totals(3, 0, 0, ("up", 3, 3, 0, 0)))


@test
def input_that_is_held(room):
    relay, port, inner = edge(room, EACH_SECOND, interval=30, size=100, fullDelayMark=4, discardMark=0, dequeueBatchSize=1)
    file, sender = Watched(room, relay), Sender(port).send(*messages(20))
    relay.says("syc: action up fails: connection refused")
    file.shows("input_connections_held", 1, input=port)
    # one in the worker, four in the queue, one in the hand of the connection
    file.shows("messages_held", 6)
    same("queues", [file.number(f"queue_{it}", queue="main queue") for it in ("messages", "size", "full_delay_mark", "discard_mark")], [4, 100, 4, None])
    same("what is queued", file.number("messages_queued"), 4)
    found = document(relay)
    same("a document", (found["held"], found["queued"], found["inputs"][0]["held"]), (6, 4, 1))
    queue = found["queues"][0]
    same("its queue", [queue[it] for it in ("name", "length", "size", "full_delay_mark", "discard_mark", "lost")], ["main queue", 4, 100, 4, None, 0])
    relay.stops_with(totals(6, 0, 6, ("up", 1, 0, 0, 1)))
    sender.is_ended()
    same("held at the end", file.number("messages_held"), 6)


@test
def losses_of_inputs_and_queues(room):
    relay, port, _ = stuck(room, "off", discardMark=5, discardSeverity=4)
    send_all(port, messages(8, pri=14))
    relay.says("syc: action up fails: connection refused")
    found = document(relay)
    same("what is lost", (found["lost"], found["inputs"][0]["lost"], found["queues"][0]["lost"]), (3, 3, 0))
    relay.stop()


@test
def two_inputs_and_two_queues(room):
    first, second, inner = room.port(), room.port(), room.port()
    queue = ' queue.type="LinkedList" queue.size="10" queue.dequeueBatchSize="1"'
    room.site({"edge": module() + imtcp(first) + imtcp(second) + omfile("all", "all.log") + omfwd("up", "hub", inner, more=queue),
               "hub": module() + imtcp(inner) + omfile("audit", "audit.log")})
    relay = room.start("edge", first, second, words=["--unchecked", *EACH_SECOND, "site", "edge"])
    file = Watched(room, relay)
    send_all(first, messages(2))
    send_all(second, messages(3))
    file.shows("messages_taken_total", 2, input=first)
    file.shows("messages_taken_total", 3, input=second)
    same("connections", [file.number("input_connections_accepted_total", input=it) for it in (first, second)], [1, 1])
    # (nobody listens there: one is offered, and the others wait)
    file.shows("queue_messages", 4, queue="queue of up")
    same("the other queue", file.number("queue_messages", queue="main queue"), 0)
    same("sizes of queues", [file.number("queue_size", queue=it) for it in ("queue of up",)], [10])
    found = document(relay)
    same("queues", [(it["name"], it["length"]) for it in found["queues"]], [("main queue", 0), ("queue of up", 4)])
    same("messages taken", [it["taken"] for it in found["inputs"]], [2, 3])
    same("what waits in all", (found["taken"], found["queued"]), (5, 4))
    same("an action", [named(found["actions"], "all")[it] for it in ("due", "done")], [5, 5])
    relay.stop()


@test
def names_that_need_escapes(room):
    port, name = room.port(), 'a"b\\c'
    written = name.replace("\\", "\\\\").replace('"', '\\"')
    room.site({"hub": module() + imtcp(port) + omfile(written, "other.log") + omfile("audit", "audit.log")},
              f"entry hub {port}", "protect *.* hub audit")
    relay = room.start("hub", port, words=["--unchecked", *EACH_SECOND, "site", "hub"])
    file = Watched(room, relay)
    send_all(port, messages(1))
    file.shows("action_runs_done_total", 1, action=written)
    same("its name in a document", document(relay)["actions"][0]["name"], name)
    checked_by_promtool(file)
    relay.stop()


@test
def metrics_in_a_folder_that_is_not_there(room):
    relay, port, _ = watched_hub(room, words=["--metrics", "gone/m.prom", "--metrics-every", "1"])
    relay.says("syc: metrics gone/m.prom can't be written: no such folder")
    file = Watched(room, relay, "gone/m.prom")
    send_all(port, messages(5))
    room.holds("audit.log", messages(5))
    os.mkdir(room.path("gone"))
    file.shows("messages_taken_total", 5, input=port)
    until("it is told that it works", lambda: re.search(r"^syc: metrics gone/m\.prom is written again after \d+ s$", relay.errors(), re.M), came=relay.errors)
    same("how often it was told", relay.errors().count("can't be written"), 1)
    shutil.rmtree(room.path("gone"))
    relay.stop()
    # (the last file can't be written either, which is told, and the stop goes on)
    same("how often it was told at the end", relay.errors().count("can't be written: no such folder"), 2)


@test
def metrics_in_the_place_of_a_folder(room):
    os.mkdir(room.path("m.prom"))
    relay, port, _ = watched_hub(room)
    relay.says("syc: metrics m.prom can't be written: is a directory")
    send_all(port, messages(5))
    room.holds("audit.log", messages(5))
    relay.stops_with(totals(5, 0, 0, ("audit", 5, 5, 0, 0)))
    same("files", sorted(it for it in os.listdir(room.folder) if it.startswith("m.prom")), ["m.prom"])


@test
def links_are_not_followed(room):
    room.write("other", "kept")
    for name in "m.prom", "m.prom.new":
        os.symlink("other", room.path(name))
    relay, port, file = watched_hub(room)
    file.shows("running", 1)
    same("the file that links led to", room.read("other"), b"kept")
    same("links", [os.path.islink(room.path("m.prom")), os.path.lexists(room.path("m.prom.new"))], [False, False])
    relay.stop()


@test
def metrics_while_standard_error_is_closed(room):
    port = room.port()
    room.site({"hub": module() + imtcp(port) + omfile("audit", "audit.log")}, f"entry hub {port}", "protect auth.* hub audit")
    relay = room.start("hub", port, words=["--metrics", "gone/m.prom", "--metrics-every", "1", "site", "hub"], limits=lambda: os.close(2))
    send_all(port, messages(5))
    room.holds("audit.log", messages(5))
    same("totals", relay.stop(), totals(5, 0, 0, ("audit", 5, 5, 0, 0)))


@test
def no_file_without_the_option(room):
    relay, port = room.hub()
    same("a document", document(relay)["taken"], 0)
    relay.stop()
    same("files", [it for it in os.listdir(room.folder) if "prom" in it], [])


def checked_by_promtool(file):
    """Has promtool check the file, where it is there."""
    if not shutil.which("promtool"):
        return
    checked = subprocess.run(["promtool", "check", "metrics"], input=file.text().encode(), stdout=subprocess.PIPE, stderr=subprocess.STDOUT, check=False)
    same("promtool check metrics", (checked.returncode, checked.stdout.decode()), (0, ""))


@test
def metrics_checked_by_promtool(room):
    if not shutil.which("promtool"):
        raise LeftOut("no promtool")
    relay, port, inner = edge(room, EACH_SECOND, interval=30, size=100, fullDelayMark=4, dequeueBatchSize=1)
    file, sender = Watched(room, relay), Sender(port).send(*messages(20))
    file.shows("messages_held", 6)
    checked_by_promtool(file)
    relay.stop()
    sender.is_ended()
    checked_by_promtool(file)


def scraped(port):
    try:
        with urllib.request.urlopen(f"http://127.0.0.1:{port}/metrics", timeout=WAIT) as it:
            return it.read().decode()
    except urllib.error.URLError as failure:
        raise Failure(f"node_exporter: {failure}") from None


@test
def metrics_read_by_node_exporter(room):
    program = shutil.which("prometheus-node-exporter") or shutil.which("node_exporter")
    if not program:
        raise LeftOut("no node_exporter")
    relay, port, file = watched_hub(room)
    send_all(port, messages(5))
    file.shows("messages_taken_total", 5, input=port)
    at = room.port()
    with open(room.path("exporter.log"), "wb") as log:
        exporter = subprocess.Popen([program, "--collector.disable-defaults", "--collector.textfile", f"--collector.textfile.directory={room.folder}",
                                     f"--web.listen-address=127.0.0.1:{at}"], stdout=log, stderr=log)
    until("node_exporter listens", lambda: exporter.poll() is not None or is_listening(at), came=lambda: room.read("exporter.log").decode())
    lines = scraped(at).splitlines()
    for wanted in ("node_textfile_scrape_error 0", f'syc_messages_taken_total{{input="{port}",relay="hub"}} 5',
                   'syc_action_runs_done_total{action="audit",relay="hub"} 5', "# TYPE syc_messages_taken_total counter"):
        if wanted not in lines:
            raise Failure(f"node_exporter doesn't tell {wanted!r}: {[it for it in lines if 'syc' in it or 'textfile' in it]}")
    exporter.terminate()
    exporter.wait(WAIT)
    relay.stop()
