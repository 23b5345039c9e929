"""The hosts of a page of the book: folders and addresses of this machine that stand for theirs.

A page says /etc, /var, /run and /tmp, 127.0.0.N and 192.0.2.N, and names hosts before its prompts. Here each host has a folder
/etc and addresses 127.X.H.N of its own; /var, /run and /tmp and the network 192.0.2.0/24, which is 127.X.0.0/24, are shared.
X is of the page's run, so pages and other tests don't meet at a port. /usr/share/doc/syc has the examples and the files of the
book, with these addresses.
"""

import glob
import json
import os
import re
import shutil

FOLDERS = re.compile(r"(?<![\w./-])/(etc|var|run|tmp|usr/share/doc/syc)(?=[/\s\"';]|$)")
ADDRESSES = re.compile(r"(?<![\d.])(127\.0\.0|192\.0\.2)\.(?=\d)")


class Hosts:
    def __init__(self, room, top, program, number):
        self.room, self.top, self.program, self.number, self.names = room, top, program, number, []

    def __str__(self):
        return json.dumps([self.room, self.top, self.program, self.number, self.names])

    @classmethod
    def of(cls, text):
        *made, names = json.loads(text)
        them = cls(*made)
        them.names = names
        return them

    def home(self, host):
        """The folder of a host, which is made with what every host has."""
        folder = f"{self.room}/{host}"
        if host not in self.names:
            self.names.append(host)
            shared = (f"{self.room}/{it}" for it in ("var/lib/syslog-ng", "var/log", "var/spool/rsyslog", "run", "tmp"))
            for it in (f"{folder}/etc/syc", f"{folder}/etc/syslog-ng", f"{folder}/journal", *shared):
                os.makedirs(it, exist_ok=True)
            for it in (it for of in ("examples/**", "docs/book/*/*") for it in glob.glob(of, root_dir=self.top, recursive=True)):
                if os.path.isfile(f"{self.top}/{it}"):
                    self.write_file(f"{folder}/usr/share/doc/syc/{it}", f"{self.top}/{it}", host)
        return folder

    def write_file(self, path, of, host):
        """A file of the repository, as that host has to have it."""
        os.makedirs(os.path.dirname(path), exist_ok=True)
        with open(of, encoding="utf-8") as it:
            text = self.here(it.read(), host)
        with open(path, "w", encoding="utf-8") as it:
            it.write(text)
        shutil.copymode(of, path)

    def here(self, text, host):
        """A text of a page, as this machine has to read it on that host."""
        def folder(found):
            name = found[1]
            return f"{self.room}/{host}/{name}" if name in ("etc", "usr/share/doc/syc") else f"{self.room}/{name}"

        nets = {"192.0.2": f"127.{self.number}.0.", "127.0.0": f"127.{self.number}.{self.names.index(host) + 1}."}
        return ADDRESSES.sub(lambda it: nets[it[1]], FOLDERS.sub(folder, text))

    def there(self, text, host):
        """What this machine printed, as the page would say it."""
        text = re.sub(rf"{re.escape(self.room)}/{host}(?=/(etc|usr)\b)", "", text).replace(f"{self.room}/{host}/", "")
        text = text.replace(self.room, "").replace(f"127.{self.number}.0.", "192.0.2.")
        return re.sub(rf"127\.{self.number}\.\d+\.", "127.0.0.", text)
