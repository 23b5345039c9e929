"""A handler for Python's logging that sends records to a relay of Syc: messages of RFC 5424, in octet-counted frames over TCP.

    import logging, syc_logging
    logging.getLogger().addHandler(syc_logging.SycHandler("127.0.0.1", 6514, app_name="billing"))

logging's own SysLogHandler sends neither frames nor RFC 5424, so Syc takes nothing of it.

What it changes: in HOSTNAME and APP-NAME each byte that isn't printable ASCII becomes `_`, and they end at 255 and 48 bytes. A
text is UTF-8; what has no UTF-8, a lone surrogate, becomes its escape (`\\udcff`). A text of more than 64,000 bytes goes in
parts, with [part@32473 number="1"] and so on as their structured data. Line feeds and NULs stay as they are.

While the relay is away, a call of the logger tries again for `patience` seconds (default: 60). Then logging prints the record on
standard error, and it is lost. What the relay hadn't read when its connection broke is lost too.
"""

import datetime
import logging.handlers
import re
import select
import socket
import time

PART = 64_000
SEVERITIES = [(logging.CRITICAL, 2), (logging.ERROR, 3), (logging.WARNING, 4), (logging.INFO, 6)]
DEBUG, USER = 7, 1
PAUSE = 1  # seconds between two tries


def field(text, most):
    """A field of the header: 1 to so many printable bytes."""
    return re.sub(rb"[^!-~]", b"_", str(text).encode("utf-8", "backslashreplace"))[:most] or b"-"


class SycHandler(logging.handlers.SocketHandler):
    """Sends each record to a relay, and waits until the connection has it; `facility` is a number, 0 to 23."""

    def __init__(self, host, port, app_name, facility=USER, patience=60):
        super().__init__(host, port)
        self.app_name, self.facility, self.patience = field(app_name, 48), facility, patience
        self.hostname = field(socket.gethostname(), 255)

    def makePickle(self, record):
        """The frames of a record."""
        severity = next((it for level, it in SEVERITIES if record.levelno >= level), DEBUG)
        at = datetime.datetime.fromtimestamp(record.created, datetime.timezone.utc).isoformat(timespec="microseconds")
        head = b"<%d>1 %s %s %s %d - " % (8 * self.facility + severity, at.encode(), self.hostname, self.app_name, record.process or 0)
        text = self.format(record).encode("utf-8", "backslashreplace")
        parts = [text[it:it + PART] for it in range(0, len(text), PART)] or [b""]
        data = [b'[part@32473 number="%d"]' % it for it in range(1, len(parts) + 1)] if len(parts) > 1 else [b"-"]
        messages = [b"%s%s %s" % (head, *it) for it in zip(data, parts)]
        return b"".join(b"%d %s" % (len(it), it) for it in messages)

    def send(self, s):
        """Sends the frames of a record, over a new connection where the relay has ended the old one."""
        end = time.monotonic() + self.patience
        while True:
            try:
                if self.sock is not None and select.select([self.sock], [], [], 0)[0]:
                    self.close_socket()
                if self.sock is None:
                    self.sock = self.makeSocket()
                return self.sock.sendall(s)
            except OSError:
                self.close_socket()
                if time.monotonic() > end:
                    raise
                time.sleep(PAUSE)

    def close_socket(self):
        if self.sock is not None:
            self.sock.close()
            self.sock = None
