"""What is fuzzed: the cases that the repository has, by kind, and the folders in which the program meets them."""

import os

HERE = os.path.dirname(os.path.realpath(__file__))
TOP = os.path.dirname(os.path.dirname(HERE))
KINDS = ["stream", "script", "site", "certificate", "events"]
# The file of a case that is fuzzed.
FUZZED = {"stream": "stdin", "script": "edge.conf", "site": "site", "certificate": "fuzz.cert", "events": "fuzz.events"}

# A site that is accepted, with an input that doesn't wait, an inner queue, a stop, a call and marks.
EDGE = b"""module(load="imtcp")
input(type="imtcp" port="6514" flowControl="full" ruleset="out")
input(type="imtcp" port="6516" flowControl="off" ruleset="aside")
ruleset(name="cut") { if prifilt("mail.*") then stop }
ruleset(name="out" queue.type="LinkedList" queue.size="4" queue.dequeueBatchSize="2" queue.fullDelayMark="2"
        queue.discardMark="3" queue.discardSeverity="2") {
  call cut
  action(name="up" type="omfwd" target="hub" port="6515" protocol="tcp"
         TCP_Framing="octet-counted" action.resumeRetryCount="-1")
}
ruleset(name="aside" queue.type="LinkedList" queue.size="2" queue.dequeueBatchSize="1" queue.fullDelayMark="1"
        queue.discardMark="1" queue.discardSeverity="5") {
  if $msg contains "x" and $syslogseverity <= 3 then
    action(name="side" type="omfile" file="side.log" action.resumeRetryCount="1" queue.type="LinkedList" queue.size="1")
}
"""
HUB = b"""module(load="imtcp")
input(type="imtcp" port="6515" flowControl="full")
action(name="audit" type="omfile" file="audit.log" action.resumeRetryCount="-1")
"""
SITE = b"relay edge edge.conf\nrelay hub hub.conf\nentry edge 6514\nprotect auth.*;mail.none hub audit\n"
EVENTS = b"""# each form of a line
take edge 6514 0 new <34>1 - - - - - -
enter edge 6514 0
grab edge 1
fail edge 1 yes
done edge 1
take hub 6515 0 link edge 0 0
enter hub 6515 0
grab hub 0
done hub 0
take edge 6516 1 new <0>1 - - - - - - x
enter edge 6516 1
take edge 6516 1 new <7>1 - - - - - - x
grab edge 2
post edge 2
grab edge 3
fail edge 3 no
giveup edge 3 yes
"""


def read(path):
    with open(path, "rb") as it:
        return it.read()


def folder_files(folder):
    """The files of a folder, by name, but for pages and pictures."""
    names = [it for it in sorted(os.listdir(folder)) if os.path.isfile(f"{folder}/{it}") and not it.endswith((".md", ".svg"))]
    return {it: read(f"{folder}/{it}") for it in names}


def rows():
    """The rows of the command line: their words, standard input and files."""
    for name in sorted(os.listdir(f"{TOP}/tests/rows")):
        row = f"{TOP}/tests/rows/{name}"
        if not os.path.isdir(row):
            continue
        words = read(f"{row}/args").decode().split("\n")[:-1] if os.path.exists(f"{row}/args") else []
        stdin = read(f"{row}/stdin") if os.path.exists(f"{row}/stdin") else b""
        folder = f"{TOP}/{read(f'{row}/files.of').decode().strip()}" if os.path.exists(f"{row}/files.of") else f"{row}/files"
        yield words, stdin, folder_files(folder) if os.path.isdir(folder) else {}


def sites():
    """Sites with their files, certificates and events: the rows', the certificates', the examples' and one of our own."""
    own = {"site": SITE, "edge.conf": EDGE, "hub.conf": HUB, "events": EVENTS}
    found = [own, *(files for _, _, files in rows() if "site" in files)]
    for folder in "tests/certificates", "examples":
        at = f"{TOP}/{folder}"
        found += [folder_files(f"{at}/{it}") for it in sorted(os.listdir(at)) if os.path.exists(f"{at}/{it}/site")]
    return found


def single_messages():
    """The texts of tests/messages, each in a frame; where one has an escape, as it is written there."""
    with open(f"{TOP}/tests/messages/messages", "rb") as it:
        texts = [line.split(b"\t", 1)[1] for line in it.read().split(b"\n") if b"\t" in line and not line.startswith(b"#")]
    return [b"%d %s" % (len(it), it) for it in texts if it]


def kept_folders():
    """The cases that were found, and those that were made by hand: the kind of each, and its files."""
    for name in sorted(os.listdir(f"{HERE}/seeds")):
        if os.path.isdir(f"{HERE}/seeds/{name}"):
            yield name.split("-")[0], folder_files(f"{HERE}/seeds/{name}")


def kept(kind):
    """The inputs of a kind that the guided fuzzer has kept, and those of the cases that were found."""
    folder, name = f"{HERE}/corpus/{kind}", FUZZED[kind]
    found = list(folder_files(folder).values()) if os.path.isdir(folder) else []
    return found + [files[name] for of, files in kept_folders() if of == kind and name in files]


def fleet():
    """Configurations of rsyslogd: those that are shown on it, and the rows' of a survey."""
    found = [text for words, _, files in rows() if words[:1] == ["survey"] for text in files.values()]
    for folder, _, names in os.walk(f"{TOP}/tests/fleet/configurations"):
        found += [read(f"{folder}/{it}") for it in sorted(names)]
    return found


def corpus(kind):
    """The texts of a kind that the repository has."""
    if kind == "fleet":
        return fleet() + [files["fleet.conf"] for of, files in kept_folders() if of == kind]
    if kind == "stream":
        return kept(kind) + [stdin for words, stdin, _ in rows() if words[:1] == ["pass"]] + single_messages()
    wanted = {"site": lambda it: it == "site", "certificate": lambda it: it == "cert", "events": lambda it: it == "events"}
    is_wanted = wanted.get(kind, lambda it: it.endswith(".conf"))
    return kept(kind) + [text for files in sites() for name, text in files.items() if is_wanted(name)]


def lay_out(kind, room, text):
    """Writes a folder in which the program meets a text (a stream's is standard input): its words."""
    os.makedirs(room, exist_ok=True)
    files = {"site": SITE, "edge.conf": EDGE, "hub.conf": HUB}
    words = {
        "stream": ["pass"],
        "script": ["check", "site"],
        "site": ["check", "site"],
        "certificate": ["verify", "site", "fuzz.cert"],
        "events": ["replay", "site", "fuzz.events"],
    }[kind]
    files = {"stdin": text} if kind == "stream" else {**files, FUZZED[kind]: text}
    for it, bytes_of in files.items():
        with open(f"{room}/{it}", "wb") as file:
            file.write(bytes_of)
    return words
