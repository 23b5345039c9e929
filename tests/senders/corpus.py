"""Records that break usual senders, for each way in. Each has a token of its own, or none where it has no room for one.

A record is its tokens and what the sender is given. A long one has a second token at its end: who finds both has it all.
"""

import struct

TIME = b"Jun  1 10:20:30"
NAMES = [b"n", b"n" * 48, b"n" * 49, b"n" * 200]
SIZES = [8_000, 9_000, 64_000, 65_000, 65_400, 65_500, 70_000]
TEXTS = [b'[sd a="b"] like structured data', b"[like its beginning", b"-", b"non-UTF-8 \xff\xfe\xc3(", b"\xef\xbb\xbfa byte order mark",
         b"<34>1 - - - - - - like a message", b"prog[77]: like RFC 3164", b"tab\tbell\x07escape\x1b", b" "]
DATA = [b'[un@known x="y"][b]', b'[id a="b"][id c="d"]', b'[%s a="b"]' % (b"i" * 32), b'[%s a="b"]' % (b"i" * 33), b'[id %s="b"]' % (b"p" * 33),
        b'[\xfcd a="b"]', b'[id \xfc="b"]', b'[id a="\xff\xfe"]', b'[id a="x\ny"]', b'[id a="q\\"b\\]c\\\\d\\ne"]', b'[id  a="q"]',
        b"[id a=q]", b"[]"]
LAST = b"{last}"
most = 1_000_000  # bytes of the longest texts: fewer where longer ones end connections


class Records:
    """Records with their tokens, as they are added."""

    def __init__(self):
        self.given, self.tokens, self.without = [], [], 0

    def token(self):
        self.tokens.append(b"{%03d}" % len(self.tokens))
        return self.tokens[-1]

    def add(self, record):
        self.given.append(record)

    def add_without(self, record):
        """A record that makes a message without a token."""
        self.without += 1
        self.add(record)

    def text(self, text=b""):
        """A text with its token."""
        return b"%s %s" % (self.token(), text) if text else self.token()

    def longs(self, *sizes, letter=b"x"):
        """Texts of these sizes, with a token at each end."""
        for size in sizes:
            if size <= most:
                yield b"%s %s %s" % (self.token(), letter * (size // len(letter)), self.token())

    def end(self):
        self.tokens.append(LAST)
        return LAST


def on_socket():
    """Datagrams to /dev/log. (An empty one is no record to a daemon.)"""
    it = Records()
    legacy = lambda rest: it.add(b"<34>%s %s" % (TIME, rest))
    for name in [*NAMES, b"n" * 600, b"my prog", b"pr\xc3\xb6g", b"pr\xfeg", b"/usr/bin/prog", b"", b"a:b"]:
        legacy(b"%s[77]: %s" % (name, it.text(b"by its name")))
    for tag in [b":", b"app[a b]:", b"app[%s]:" % (b"9" * 200), b"app[]:", b"app:", b""]:
        legacy(b"%s %s" % (tag, it.text(b"by its tag")))
    for text in TEXTS:
        legacy(b"app[77]: %s%s" % (text, it.token()))
        legacy(b"app[77]:%s%s" % (text, it.token()))
    for text in [b"line\nfeed", b"feed at its end\n", b"nul\0inside", b"nul at its end\0"]:
        legacy(b"app[77]: %s" % it.text(text))
    it.tokens += [b"q901", b"q902"]
    legacy(b"q901[77]:")
    legacy(b"q902[77]: ")
    it.add_without(b"<34>" + TIME)
    it.add_without(b"<34>")
    it.add(b"no priority " + it.token())
    it.add(b"<999>%s app: %s" % (TIME, it.text(b"a priority of 999")))
    it.add(b"<34>app[77]: " + it.text(b"no time"))
    for time in [b"2025-06-01T10:20:30", b"2025-06-01T10:20:30.123456789Z", b"Jun 30 23:59:60", b"Feb 30 10:20:30"]:
        it.add(b"<34>%s app[77]: %s" % (time, it.text(time)))
    for text in [*it.longs(*SIZES, 200_000), *it.longs(70_000, letter=b"\xc3\xb6")]:
        legacy(b"app[77]: " + text)
    of_rfc_5424(it)
    legacy(b"app[77]: " + it.end())
    return it


def of_rfc_5424(it):
    """Datagrams of RFC 5424, and such as aren't quite."""
    head = b"1 2025-06-01T10:20:30Z web app 77 ID"
    for data in DATA:
        it.add(b"<34>%s %s %s" % (head, data, it.text(b"by its data")))
    it.add(b"<34>%s [id a=\"%s\"] %s" % (head, b"v" * 3_000, it.text(b"long data")))
    it.add(b'<34>%s [id a="q"]%s' % (head, it.text(b"trailing")))
    it.add(b"<34>%s [not closed %s" % (head, it.text(b"at all")))
    for part in [b"2 2025-06-01T10:20:30Z web app 77 ID -", b"1 2025-06-01T10:20:30 web app 77 ID -", b"1 - - - - - -",
                 b"1 2025-06-01T10:20:30.123456789Z web app 77 ID -", b"1 2025-06-01T10:20:30Z %s app 77 ID -" % (b"h" * 256),
                 b"1 2025-06-01T10:20:30Z h\xfcst app 77 ID -", b"1 2025-06-01T10:20:30Z web %s 77 ID -" % (b"a" * 49),
                 b"1 2025-06-01T10:20:30Z web \xc3\xb6pp 77 %s -" % (b"I" * 33), b"1 2025-06-01T10:20:30Z web app %s ID -" % (b"7" * 129)]:
        it.add(b"<34>%s %s" % (part, it.text(b"by its head")))
    it.add(b"<034>%s - %s" % (head, it.text(b"zero in front")))
    it.tokens += [b"q903", b"q904"]
    it.add(b"<34>1 2025-06-01T10:20:30Z web q903 77 ID -")
    it.add(b"<34>1 2025-06-01T10:20:30Z web q904 77 ID")


def in_file():
    """Lines of a file. (An empty one is no record to a daemon.)"""
    it = Records()
    for text in [b"plain", *TEXTS, b"nul\0inside", b"a carriage return\r"]:
        it.add(b"%s%s" % (it.token(), text))
        it.add(b"%s %s" % (text, it.token()))
    for text in it.longs(*SIZES, 140_000):
        it.add(text)
    it.add(it.end())
    return it


def in_journal():
    """Entries of a journal, each as its fields."""
    it = Records()
    name, pid = "SYSLOG_IDENTIFIER", {"_PID": b"77"}
    for text in [*NAMES, b"n" * 600, b"my prog", b"my other prog [x]", b"pr\xc3\xb6g", b"pr\xfeg", b"", b"/usr/bin/prog", b"a:b[c]",
                 b"line\nfeed"]:
        it.add(pid | {name: text, "MESSAGE": it.text(b"by its name")})
    it.add(pid | {"MESSAGE": it.text(b"no name")})
    it.add(pid | {"_COMM": b"comm name", "MESSAGE": it.text(b"no identifier")})
    it.add({name: b"app", "MESSAGE": it.text(b"no process")})
    for text in [b"9" * 200, b"a b", b""]:
        it.add({name: b"app", "SYSLOG_PID": text, "MESSAGE": it.text(b"by its process")})
    for text in [*TEXTS, b"line\nfeed\n", b"nul\0inside"]:
        it.add(pid | {name: b"app", "MESSAGE": it.text(text)})
    it.tokens += [b"q901", b"q902"]
    it.add(pid | {name: b"q901", "MESSAGE": b""})
    it.add(pid | {name: b"q902"})
    for facility, severity in [(b"99", b"9"), (b"x", b"y"), (b"4", b"2")]:
        it.add(pid | {name: b"app", "SYSLOG_FACILITY": facility, "PRIORITY": severity, "MESSAGE": it.text(b"by its priority")})
    for text in it.longs(*SIZES, 140_000):
        it.add(pid | {name: b"app", "MESSAGE": text})
    it.add(pid | {name: b"app", "MESSAGE": it.end()})
    return it


def exported(records, machine):
    """Entries in the form that systemd-journal-remote reads (Journal Export Format)."""
    out = b""
    for at, entry in enumerate(records.given):
        out += b"__REALTIME_TIMESTAMP=%d\n__MONOTONIC_TIMESTAMP=%d\n_BOOT_ID=%s\n" % (1764334800000000 + at, 1000 + at, b"01234567" * 4)
        for name, value in ({"_MACHINE_ID": machine, "_HOSTNAME": b"web1"} | entry).items():
            is_plain = all(32 <= byte < 127 for byte in value)
            out += name.encode() + (b"=" if is_plain else b"\n" + struct.pack("<Q", len(value))) + value + b"\n"
        out += b"\n"
    return out


def for_logger():
    """Calls of logger: its words, and its standard input where it has no text."""
    it = Records()
    for tag in [*NAMES, b"my prog", b"pr\xc3\xb6g", b"pr\xfeg", b"", b"a[b]:", b"line\nfeed"]:
        it.add(([b"-t", tag, it.text(b"by its tag")], None))
    for msgid in [b"ID", b"I" * 33, b"a b", b"\xc3\xb6", b""]:
        it.add(([b"-t", b"app", b"--msgid", msgid, it.text(b"by its msgid")], None))
    for text in [*TEXTS, b"line\nfeed"]:
        it.add(([b"-t", b"app", b"-p", b"auth.crit", it.text(text)], None))
    it.add(([b"-t", b"app", it.token(), b"several", b"words"], None))
    for text in it.longs(*SIZES):
        it.add(([b"-t", b"app", text], None))
    for text in it.longs(*SIZES):
        it.add(([b"-t", b"app"], text + b"\n"))
    it.add(([b"-t", b"app"], b"%s\n\n%s\nnul\0inside\n%s" % (it.text(b"lines"), it.text(b"\xff\xfe"), it.text(b"without end"))))
    it.add(([it.end()], None))
    return it


def for_logging():
    """Records of Python's logging: the program's name, and the text."""
    it = Records()
    for name in ["n", "n" * 48, "n" * 49, "n" * 200, "my prog", "pr\u00f6g", "", "line\nfeed", "\udcff"]:
        it.add((name, it.text(b"by its name").decode()))
    texts = [text.decode("utf-8", "surrogateescape") for text in TEXTS]
    for text in [*texts, "line\nfeed\r\n", "nul\0inside", "\u00f6\U0001f600", "\ud83d"]:
        it.add(("app", it.token().decode() + text))
    it.tokens.append(b"q901")
    it.add(("q901", ""))
    for text in [*it.longs(*SIZES, 200_000), *it.longs(70_000, letter=b"\xc3\xb6")]:
        it.add(("app", text.decode()))
    it.add(("app", it.end().decode()))
    return it
