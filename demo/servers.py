"""PostgreSQL servers of one's own in a temporary folder, on unix sockets, of which nothing is left
behind."""
import glob
import os
import pwd
import shutil
import signal
import subprocess
import tempfile
import time
from typing import Callable, Dict, List, Optional

from demo.wire import Connection

USER = "postgres"
SETTINGS = {
    "listen_addresses": "",
    "fsync": "off",
    "synchronous_commit": "off",
    "full_page_writes": "off",
    "max_connections": "60",
}
MOST_SECONDS = 60


class Missing(Exception):
    """The programs of a PostgreSQL server aren't here."""


def program(name: str) -> str:
    """The path of a program of the server, as `initdb`; `Missing` where there is none."""
    found = shutil.which(name) or next(
        iter(sorted(glob.glob(f"/usr/lib/postgresql/*/bin/{name}"), reverse=True)), None
    )
    if found is None:
        raise Missing(f"{name} isn't here; Debian's package postgresql has it")
    return os.path.realpath(found)


def unprivileged() -> Optional[pwd.struct_passwd]:
    """The user that the servers run as where this process is root's, which PostgreSQL refuses; None
    elsewhere."""
    if os.geteuid():
        return None
    for name in ("postgres", "nobody"):
        try:
            return pwd.getpwnam(name)
        except KeyError:
            continue
    raise Missing("there is no user postgres or nobody for the servers to run as")


class Servers:
    """So many servers, each with a socket of its own: a context, at whose end they are stopped and
    their folder is removed."""

    def __init__(self, count: int) -> None:
        self.count = count
        self.folder = ""
        self.running: List[subprocess.Popen] = []  # type: ignore[type-arg]
        self.user = unprivileged()

    def __enter__(self) -> "Servers":
        try:
            self.folder = tempfile.mkdtemp(prefix="cise-", dir="/tmp")
            self.own(self.folder)
            self.initialise()
            for at in range(self.count):
                self.start(at)
            return self
        except BaseException:
            self.__exit__()
            raise

    def __exit__(self, *_: object) -> None:
        for it in self.running:
            it.send_signal(signal.SIGQUIT)
        for it in self.running:
            it.wait()
        shutil.rmtree(self.folder, ignore_errors=True)

    def own(self, path: str) -> None:
        """Gives a path to the user that the servers run as."""
        if self.user:
            os.chown(path, self.user.pw_uid, self.user.pw_gid)

    def becoming(self) -> Optional[Callable[[], None]]:
        """What a new process does first to run as that user."""
        if self.user is None:
            return None
        user, group = self.user.pw_uid, self.user.pw_gid

        def become() -> None:
            os.setgroups([])
            os.setgid(group)
            os.setuid(user)

        return become

    def started(self, *words: str) -> subprocess.Popen:  # type: ignore[type-arg]
        """A program that is started as the servers' user, in a session of its own."""
        environment: Dict[str, str] = {**os.environ, "LC_ALL": "C.UTF-8", "TZ": "UTC"}
        return subprocess.Popen(
            words,
            cwd=self.folder,
            env=environment,
            stdin=subprocess.DEVNULL,
            stdout=subprocess.DEVNULL,
            stderr=subprocess.DEVNULL,
            preexec_fn=self.becoming(),
            start_new_session=True,
        )

    def initialise(self) -> None:
        """Makes the data folders, the first by `initdb` and the others as copies."""
        first = f"{self.folder}/data0"
        words = [
            program("initdb"),
            "-D",
            first,
            "-U",
            USER,
            "-A",
            "trust",
            "-E",
            "UTF8",
            "--no-sync",
            "--locale=C.UTF-8",
        ]
        if self.started(*words).wait():
            raise Missing("initdb failed")
        for at in range(1, self.count):
            if self.started("cp", "-a", first, f"{self.folder}/data{at}").wait():
                raise Missing("a data folder couldn't be copied")

    def start(self, at: int) -> None:
        """Starts a server, and waits until it answers."""
        sockets = f"{self.folder}/s{at}"
        os.mkdir(sockets, 0o700)
        self.own(sockets)
        settings = [part for name, value in SETTINGS.items() for part in ("-c", f"{name}={value}")]
        server = self.started(
            program("postgres"), "-D", f"{self.folder}/data{at}", "-k", sockets, *settings
        )
        self.running.append(server)
        end = time.monotonic() + MOST_SECONDS
        while True:
            try:
                self.connect(at).close()
                return
            except Exception:
                if server.poll() is not None or time.monotonic() > end:
                    raise Missing("a server didn't start") from None
                time.sleep(0.02)

    def connect(self, at: int, database: str = USER) -> Connection:
        """A new connection to a server."""
        return Connection(f"{self.folder}/s{at}/.s.PGSQL.5432", database)
