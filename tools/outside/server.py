"""A private PostgreSQL server: its own directory, a local socket, no network, gone at the end."""

import os
import pwd
import shutil
import subprocess
import tempfile
from pathlib import Path

SETTINGS = {"listen_addresses": "''", "fsync": "off", "jit": "off", "autovacuum": "off", "shared_buffers": "32MB"}
# Small tables need no search for the best order of joins.
OPENING = """SET join_collapse_limit = 1;
SET from_collapse_limit = 1;
SET client_min_messages = warning;
SET statement_timeout = '120s';
"""


class Failure(Exception):
    """The server or psql did not do what was asked."""


def programs():
    """The directory with initdb, pg_ctl and psql: Debian's newest, else that on the path."""
    found = [path.parent for path in Path("/usr/lib/postgresql").glob("*/bin/initdb")]
    if found:
        return max(found, key=lambda path: [int(part) for part in path.parent.name.split(".") if part.isdigit()])
    on_path = shutil.which("initdb")
    if on_path is None:
        raise Failure("no PostgreSQL found: install Debian's package postgresql")
    return Path(on_path).resolve().parent


def owner():
    """Whom to run as: PostgreSQL refuses root."""
    if os.geteuid() != 0:
        return None
    for name in ("postgres", "nobody"):
        try:
            return pwd.getpwnam(name)
        except KeyError:
            continue
    raise Failure("PostgreSQL does not run as root, and neither postgres nor nobody is a user")


class Server:
    """Used in a with statement; it is stopped and removed there, on errors too."""

    def __init__(self):
        self.programs = programs()
        self.owner = owner()
        self.place = None

    def __enter__(self):
        self.place = Path(tempfile.mkdtemp(prefix="outside-", dir="/tmp"))
        try:
            self.start()
        except BaseException:
            self.remove()
            raise
        return self

    def __exit__(self, *_):
        self.remove()

    def start(self):
        if self.owner:
            os.chown(self.place, self.owner.pw_uid, self.owner.pw_gid)
        data = self.place / "data"
        self.run("initdb", "-D", data, "-U", "check", "-A", "trust", "-E", "UTF8", "--locale=C", "--no-sync")
        settings = " ".join(f"-c {name}={value}" for name, value in SETTINGS.items())
        options = f"-k {self.place} {settings}"
        self.run("pg_ctl", "-D", data, "-l", self.place / "log", "-w", "-t", "120", "-o", options, "start")

    def remove(self):
        data = self.place / "data"
        if (data / "postmaster.pid").exists():
            self.run("pg_ctl", "-D", data, "-m", "immediate", "-w", "stop", check=False)
        shutil.rmtree(self.place, ignore_errors=True)

    def run(self, program, *arguments, check=True, **others):
        """Runs a program of PostgreSQL as the owner, and gives its output."""
        if self.owner:
            others.update(user=self.owner.pw_uid, group=self.owner.pw_gid, extra_groups=[])
        words = [str(self.programs / program), *map(str, arguments)]
        done = subprocess.run(words, cwd=self.place, capture_output=True, text=True, **others)
        if check and done.returncode != 0:
            raise Failure(f"{program}: {done.stderr.strip()}")
        return done.stdout

    def query(self, script, name):
        """The lines that psql prints for a script, columns apart by a space; the name is for a failure."""
        words = ["-X", "-q", "-A", "-t", "-F", " ", "-v", "ON_ERROR_STOP=1"]
        words += ["-h", self.place, "-U", "check", "-d", "postgres", "-f", "-"]
        try:
            return self.run("psql", *words, input=OPENING + script).splitlines()
        except Failure as failure:
            raise Failure(f"{name}: {failure}") from failure
