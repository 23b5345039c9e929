"""The senders: each is started towards a port, with the configuration of examples/senders or another, and given its records."""

import logging
import os
import re
import shutil
import socket
import subprocess
import sys

import corpus
from room import Failure, LeftOut, until

HERE = os.path.dirname(os.path.realpath(__file__))
EXAMPLES = f"{os.path.dirname(os.path.dirname(HERE))}/examples/senders"
PATH = f"{os.environ.get('PATH', '')}:/usr/sbin:/sbin"
JOURNAL_REMOTE = ["/lib/systemd/systemd-journal-remote", "/usr/lib/systemd/systemd-journal-remote"]
QUICK_START = "-XX:TieredStopAtLevel=1"
JARS = [f"/usr/share/java/log4j-{it}.jar" for it in ("api", "core")]
sys.path.insert(0, EXAMPLES)

# What rsyslogd and syslog-ng do without the examples: their own forms of messages, and their own sizes.
RSYSLOGD = """global(workDirectory="/var/spool/rsyslog")
module(load="{module}"{more})
{input}
action(type="omfwd" target="127.0.0.1" port="6514" protocol="tcp" TCP_Framing="octet-counted"{template})
"""
INPUT = 'input(type="imfile" File="/var/log/app.log" Tag="app")'
PROTOCOL_23 = ' template="RSYSLOG_SyslogProtocol23Format"'
SYSLOG_NG = """@version: 3.35
source s {{ {source}; }};
destination d {{ syslog("127.0.0.1" port(6514) transport("tcp")); }};
log {{ source(s); destination(d); }};
"""
LOG4J2 = """<Configuration status="warn"><Appenders>{appender}</Appenders>
<Loggers><Root level="info"><AppenderRef ref="relay"/></Root></Loggers></Configuration>
"""
SOCKET_APPENDER = ('<Socket name="relay" host="127.0.0.1" port="6514" protocol="TCP">'
                   '<Rfc5424Layout appName="app" facility="AUTH" useTlsMessageFormat="true"/></Socket>')
SYSLOG_APPENDER = '<Syslog name="relay" format="RFC5424" host="127.0.0.1" port="6514" protocol="TCP" appName="app" facility="AUTH"/>'

# Enters a host of its own as far as its journal goes, and becomes a daemon there.
WITH_JOURNAL = """mount -t tmpfs tmpfs /run && { [ ! -d /var/log/journal ] || mount -t tmpfs tmpfs /var/log/journal; } &&
mkdir -p "/run/log/journal/$1" && cp "$2" "/run/log/journal/$1/system.journal" && shift 2 && exec "$@"
"""


def found(name, package):
    program = shutil.which(name, path=PATH)
    if program is None:
        raise LeftOut(f"there is no {name} (package {package})")
    return program


def example(name):
    """A configuration of the examples, with what it includes."""
    with open(f"{EXAMPLES}/{name}", encoding="utf-8") as it:
        text = it.read()
    folder = os.path.dirname(name)
    return re.sub(r'(?m)^(?:include\(file=|@include )"[^"]*/([^"/]+)"\)?$', lambda it: example(f"{folder}/{it[1]}"), text)


def replaced(text, changes):
    """A text with words replaced, each of which has to be there."""
    for word, by in changes.items():
        if word not in text:
            raise Failure(f"the configuration has no {word!r}")
        text = text.replace(word, by)
    return text


class Daemon:
    """rsyslogd or syslog-ng, which reads a socket, a file or a journal."""

    def __init__(self, room, name, text, source, port):
        self.room, self.source = room, source
        is_rsyslogd = name == "rsyslogd"
        changes = {'port="6514"': f'port="{port}"', "/var/spool/rsyslog": room.folder} if is_rsyslogd else {"port(6514)": f"port({port})"}
        if not is_rsyslogd and "disk-buffer" in text:
            changes["/var/lib/syslog-ng"] = room.folder
        self.records = {"socket": corpus.on_socket, "file": corpus.in_file, "journal": corpus.in_journal}[source]()
        if source == "socket":
            named = f'load="imuxsock" SysSock.Name="{room.path("log")}"'
            changes |= {'load="imuxsock"': named} if is_rsyslogd else {"/dev/log": room.path("log")}
        if source == "file":
            changes["/var/log/app.log"] = room.path("app.log")
            room.write("app.log", b"".join(it + b"\n" for it in self.records.given))
        room.write("daemon.conf", replaced(text, changes))
        if is_rsyslogd:
            words = [found(name, "rsyslog"), "-n", "-i", "NONE", "-f", room.path("daemon.conf")]
        else:
            program = os.environ.get("SYSLOG_NG") or found(name, "syslog-ng-core, or a program that SYSLOG_NG names")
            words = [program, "--foreground", "--no-caps", "-f", room.path("daemon.conf")]
            words += [f"--{it}={room.path(it)}" for it in ("persist-file", "control", "pidfile")]
        if source == "journal":
            words = self.with_journal(words)
        with open(room.path("daemon.log"), "wb") as log:
            self.process = subprocess.Popen(words, cwd=room.folder, env=os.environ | {"TZ": "UTC"}, stdin=subprocess.DEVNULL, stdout=log,
                                            stderr=log)

    def with_journal(self, words):
        """The words that run a daemon with a journal of these records in the place of the host's."""
        remote = next((it for it in JOURNAL_REMOTE if os.path.exists(it)), None)
        if remote is None:
            raise LeftOut("there is no systemd-journal-remote (package of that name), which writes the journal")
        alone = ["unshare", "--mount", *([] if os.geteuid() == 0 else ["--map-root-user"])]
        mount = [*alone, "mount", "-t", "tmpfs", "tmpfs", "/run"]
        if subprocess.run(mount, stdin=subprocess.DEVNULL, stderr=subprocess.DEVNULL, check=False).returncode:
            raise LeftOut("a folder of its own can't be mounted for a journal")
        with open("/etc/machine-id", "rb") as it:
            machine = it.read().strip()
        journal = self.room.path("system.journal")
        subprocess.run([remote, "-o", journal, "-"], input=corpus.exported(self.records, machine), check=True, stdout=subprocess.DEVNULL,
                       stderr=subprocess.DEVNULL)
        return [*alone, "sh", "-c", WITH_JOURNAL, "-", machine.decode(), journal, *words]

    def give(self):
        if self.source != "socket":
            return
        path = self.room.path("log")
        until("the daemon listens", lambda: os.path.exists(path) or self.process.poll() is not None)
        if self.process.poll() is not None:
            raise Failure(f"the daemon did not start: {self.room.read('daemon.log').decode()}")
        with socket.socket(socket.AF_UNIX, socket.SOCK_DGRAM) as to:
            to.connect(path)
            for it in self.records.given:
                to.send(it)

    def end(self):
        self.process.terminate()
        self.process.wait()


class Log4j2:
    """A program with log4j2, which ends by itself; `kinds` are those of its records whose tokens have to come."""

    def __init__(self, room, text, port, kinds=("text", "context")):
        if not shutil.which("javac") or not all(map(os.path.exists, JARS)):
            raise LeftOut("there is no javac, or no log4j2 (packages default-jdk-headless, liblog4j2-java)")
        room.write("log4j2.xml", replaced(text, {'port="6514"': f'port="{port}"', 'level="info"': 'level="trace"'}))
        words = ["javac", QUICK_START.replace("-", "-J-", 1), "-cp", ":".join(JARS), "-d", room.folder, f"{HERE}/Corpus.java"]
        subprocess.run(words, check=True, stdin=subprocess.DEVNULL)
        self.room, self.kinds, self.records = room, kinds, corpus.Records()

    def give(self, may_fail=False):
        words = ["java", QUICK_START, "-cp", ":".join([*JARS, self.room.folder]), f"-Dlog4j2.configurationFile={self.room.path('log4j2.xml')}"]
        done = subprocess.run([*words, "Corpus", str(corpus.most)], stdin=subprocess.DEVNULL, stdout=subprocess.PIPE, stderr=subprocess.PIPE,
                              check=False)
        if (done.returncode or done.stderr) and not may_fail:
            raise Failure(f"the program with log4j2: status {done.returncode}: {done.stderr.decode('utf-8', 'replace')}")
        self.of_kind = {}
        for line in done.stdout.decode().splitlines():
            words = line.split()
            self.of_kind.setdefault(words[-2], []).append(words[-1].encode())
        self.records.given = [it for it in done.stdout.splitlines() if it.startswith(b"record")]
        self.records.without = len(self.of_kind.pop("record"))
        self.records.tokens = [it for kind in self.kinds for it in self.of_kind[kind]]

    def end(self):
        pass


class Logger:
    """Calls of a program such as logger."""

    def __init__(self, words, port):
        found("logger", "bsdutils")
        self.words, self.records, self.refused = words, corpus.for_logger(), 0
        self.environment = os.environ | {"SYC_PORT": str(port)}

    def give(self):
        for words, text in self.records.given:
            if self.words[0].endswith("syc-logger"):
                words = [b"-m" if it == b"--msgid" else it for it in words]
            source = {"stdin": subprocess.DEVNULL} if text is None else {"input": text}
            done = subprocess.run([*self.words, *words], env=self.environment, stderr=subprocess.DEVNULL, check=False, **source)
            self.refused += done.returncode != 0

    def end(self):
        pass


class PythonLogging:
    """Records of Python's logging by a handler for each program's name."""

    def __init__(self, handler):
        self.handlers, self.handler, self.records = {}, handler, corpus.for_logging()

    def give(self):
        for name, text in self.records.given:
            if name not in self.handlers:
                self.handlers[name] = self.handler(name)
            self.handlers[name].handle(logging.LogRecord("corpus", logging.ERROR, __file__, 1, text, None, None))

    def end(self):
        for it in self.handlers.values():
            it.close()
