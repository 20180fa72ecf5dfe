"""What is packed, and the bytes of each form: one file, a wheel, a Debian package, an archive. The
bytes depend on the files, the version and the commit alone, and on the library that compresses."""
import base64
import gzip
import hashlib
import io
import os
import subprocess
import tarfile
import time
import zipfile
from dataclasses import dataclass
from typing import IO, Dict, List, Optional, Tuple, cast

from launch.needs import GLIBC
from launch.packed import FOLDED, PACKED, folded
from launch.paths import KEPT_PROGRAM, KEPT_RECORD, TOP
from launch.version import VERSION

# The folders that answer a call, and what stands beside them.
FOLDERS = ("launch", "view", "second", "patterns")
FILES = ("cise", KEPT_PROGRAM, KEPT_RECORD, "LICENSE-MIT", "LICENSE-APACHE", "NOTICES.txt")
# What the archive and the Debian package have too.
DOCUMENTS = ("docs", "examples", "adapters", "demo", "editors")
DOCUMENT_FILES = ("README.md", "CHANGELOG.md")
LEFT_OUT = ("tests", "__pycache__", "out")
# What stands in these folders for readers alone.
READ = ("second/README.md", "view/help/README.md")
# The time of a file where no commit gives one: the first that a zip file can hold.
FIRST_TIME = 315532800
MAINTAINER = "Pigbalu maintainers <maintainers@users.noreply.pigbalu.example>"
SUMMARY = "Says whether replicas that don't wait for each other keep their promises"

ONE_FILE = "cise.pyz"
WHEEL = f"cise-{VERSION}-py3-none-manylinux_{GLIBC[0]}_{GLIBC[1]}_x86_64.whl"
PACKAGE = f"cise_{VERSION}_amd64.deb"
ARCHIVE = f"cise-{VERSION}-linux-x86_64.tar.gz"


@dataclass(frozen=True)
class File:
    """A file that is packed; `link` is where a link leads."""

    data: bytes
    runs: bool = False
    link: Optional[str] = None

    def mode(self) -> int:
        """The rights of the file."""
        return 0o755 if self.runs else 0o644


Tree = Dict[str, File]


@dataclass(frozen=True)
class Commit:
    """What is packed: the commit's name, and its time in seconds."""

    name: str
    seconds: int


def commit() -> Commit:
    """The commit that stands here, by git; it has no name where there is none."""
    name, seconds = git("rev-parse", "HEAD"), git("log", "-1", "--format=%ct")
    if not name or not seconds:
        return Commit("not known", FIRST_TIME)
    changed = git("status", "--porcelain", "--untracked-files=no")
    return Commit(name + (" with changes" if changed else ""), int(seconds))


def git(*words: str) -> str:
    """What git says, or nothing where it says nothing."""
    try:
        ran = subprocess.run(
            ["git", "-C", TOP, *words], stdin=subprocess.DEVNULL, capture_output=True
        )
    except OSError:
        return ""
    return ran.stdout.decode().strip() if ran.returncode == 0 else ""


def file_of(path: str) -> File:
    """A file of the repository."""
    whole = os.path.join(TOP, path)
    with open(whole, "rb") as file:
        return File(file.read(), os.access(whole, os.X_OK))


def files_below(folder: str) -> List[str]:
    """The paths of the files of a folder, without tests and what was made."""
    found = []
    for at, folders, names in os.walk(os.path.join(TOP, folder)):
        folders[:] = [it for it in folders if it not in LEFT_OUT]
        found += [os.path.relpath(os.path.join(at, it), TOP) for it in names]
    return sorted(found)


def layer(of: Commit) -> Tree:
    """What answers a call: program, record, script and layer."""
    paths = [*FILES, *(it for folder in FOLDERS for it in files_below(folder) if it not in READ)]
    marker = File(f"version: {VERSION}\ncommit: {of.name}\n".encode())
    return {**{it: file_of(it) for it in paths}, PACKED: marker}


def documents() -> Tree:
    """Documents and examples."""
    paths = [*DOCUMENT_FILES, *READ, *(it for folder in DOCUMENTS for it in files_below(folder))]
    return {it: file_of(it) for it in paths}


def zipped(tree: Tree, seconds: int, first: bytes = b"") -> bytes:
    """A zip file of these files, behind some first bytes."""
    whole = io.BytesIO()
    whole.write(first)
    with zipfile.ZipFile(whole, "w") as archive:
        for path, it in sorted(tree.items()):
            entry = zipfile.ZipInfo(path, time.gmtime(seconds)[:6])
            entry.external_attr, entry.create_system = (0o100000 | it.mode()) << 16, 3
            entry.compress_type = zipfile.ZIP_DEFLATED
            archive.writestr(entry, it.data, compresslevel=9)
    return whole.getvalue()


# `start.py` is told as its first word whether Ctrl-C is heeded, which the script cise finds out
# before Python starts. Modules and files are found by one name of the archive, whatever it was
# called by.
MAIN = '''"""Where cise.pyz begins."""
import os
import sys

if sys.version_info < (3, 8):
    sys.stderr.write("cise: this needs Python 3.8, and %s is older\\n" % sys.executable)
    sys.exit(10)
import _signal  # noqa: E402

is_ignored = _signal.getsignal(_signal.SIGINT) == _signal.SIG_IGN
sys.argv.insert(1, "ignored" if is_ignored else "heeded")
sys.path[0] = os.path.realpath(sys.path[0])
from launch import start  # noqa: E402, F401
'''


# The modules of launch/ that answer only where the sources stand.
WITH_SOURCES = tuple(
    f"launch/{name}.py"
    for name in "choosing kit lanes proving seen sources times unproved".split()
)


def is_left_out(path: str) -> bool:
    """Whether the one file can do without a file: the script, the record, which it has folded, what
    answers only where the sources stand, and of the patterns all but the index and what is printed
    of them."""
    if path.startswith("patterns/"):
        return path != "patterns/README.md" and not path.endswith("/accepted.cise")
    return path in ("cise", KEPT_RECORD) or path in WITH_SOURCES


def one_file(of: Commit) -> bytes:
    """cise.pyz, which Python runs as it is."""
    tree = {path: it for path, it in layer(of).items() if not is_left_out(path)}
    tree[FOLDED] = File(folded(layer(of)[KEPT_RECORD].data))
    tree["__main__.py"] = File(MAIN.encode())
    return zipped(tree, of.seconds, b"#!/usr/bin/env -S python3 -IS\n")


INIT = f'''"""The CISE checker: `main` is the command cise. {SUMMARY}."""
import os
import sys

import _signal


def main() -> None:
    """Answers a call."""
    is_ignored = _signal.getsignal(_signal.SIGINT) == _signal.SIG_IGN
    sys.argv.insert(1, "ignored" if is_ignored else "heeded")
    sys.path.insert(0, os.path.dirname(os.path.abspath(__file__)))
    from launch import start  # noqa: F401
'''
METADATA = f"""Metadata-Version: 2.1
Name: cise
Version: {VERSION}
Summary: {SUMMARY}
Author: {MAINTAINER}
License: MIT OR Apache-2.0
Requires-Python: >=3.8
Classifier: Operating System :: POSIX :: Linux
"""


def wheel(of: Commit) -> bytes:
    """A wheel, which pip and pipx install; its tag names the platform, so that no other takes
    it."""
    inside, info = "cise_checker", f"cise-{VERSION}.dist-info"
    tree = {f"{inside}/{path}": it for path, it in layer(of).items() if path != "cise"}
    tree[f"{inside}/__init__.py"] = File(INIT.encode())
    tag = WHEEL[: -len(".whl")].split("-", 2)[2]
    for name, text in (
        ("METADATA", METADATA),
        (
            "WHEEL",
            f"Wheel-Version: 1.0\nGenerator: checks/pack\nRoot-Is-Purelib: false\nTag: {tag}\n",
        ),
        ("entry_points.txt", f"[console_scripts]\ncise = {inside}:main\n"),
    ):
        tree[f"{info}/{name}"] = File(text.encode())
    rows = [
        f"{path},sha256={digest(it.data)},{len(it.data)}\n" for path, it in sorted(tree.items())
    ]
    tree[f"{info}/RECORD"] = File("".join([*rows, f"{info}/RECORD,,\n"]).encode())
    return zipped(tree, of.seconds)


def digest(data: bytes) -> str:
    """The SHA-256 of bytes, as a wheel's record has it."""
    return base64.urlsafe_b64encode(hashlib.sha256(data).digest()).decode().rstrip("=")


def tarred(tree: Tree, seconds: int, top: str) -> bytes:
    """A compressed tar file of these files below a folder, with their folders, all of root's."""
    whole = io.BytesIO()
    folders = {os.path.dirname(path) for path in tree}
    folders |= {it.rsplit("/", n)[0] for it in folders for n in range(it.count("/") + 1)} - {""}
    entries: List[Tuple[str, Optional[File]]] = [(it, None) for it in folders if it]
    entries += list(tree.items())
    with gzip.GzipFile("", "wb", 9, whole, mtime=seconds) as packed:
        with tarfile.open(
            fileobj=cast(IO[bytes], packed), mode="w", format=tarfile.GNU_FORMAT
        ) as archive:
            for path, it in sorted([("", None), *entries], key=lambda entry: entry[0]):
                info = entry_of(f"{top}/{path}".rstrip("/"), it, seconds)
                archive.addfile(info, io.BytesIO(it.data) if it and not it.link else None)
    return whole.getvalue()


def entry_of(path: str, it: Optional[File], seconds: int) -> tarfile.TarInfo:
    """The head of a file in a tar file, or of a folder."""
    info = tarfile.TarInfo(path)
    info.mtime, info.uname, info.gname = seconds, "root", "root"
    info.mode = it.mode() if it else 0o755
    if it is None:
        info.type = tarfile.DIRTYPE
    elif it.link:
        info.type, info.linkname, info.mode = tarfile.SYMTYPE, it.link, 0o777
    else:
        info.size = len(it.data)
    return info


def archive(of: Commit) -> bytes:
    """An archive with the documents and examples, to be unpacked anywhere."""
    return tarred({**layer(of), **documents()}, of.seconds, f"cise-{VERSION}")


COMPILES = """#!/bin/sh
set -e
if [ "$1" = configure ]; then
  for folder in FOLDERS; do python3 -IS -m compileall -q /usr/lib/cise/$folder || true; done
fi
"""
REMOVES = """#!/bin/sh
set -e
find /usr/lib/cise -depth -name __pycache__ -type d -exec rm -rf {} +
"""


def package(of: Commit) -> bytes:
    """A Debian package."""
    tree = {f"usr/lib/cise/{path}": it for path, it in layer(of).items()}
    about = "usr/share/doc/cise"
    tree.update({f"{about}/{path}": it for path, it in documents().items()})
    tree["usr/bin/cise"] = File(b"", True, "../lib/cise/cise")
    notices = [
        tree[f"usr/lib/cise/{it}"].data for it in ("LICENSE-MIT", "LICENSE-APACHE", "NOTICES.txt")
    ]
    tree[f"{about}/copyright"] = File(b"License: MIT OR Apache-2.0\n\n" + b"\n\n".join(notices))
    folders = " ".join(it for it in FOLDERS if os.path.isdir(os.path.join(TOP, it)))
    sums = [
        f"{hashlib.md5(it.data).hexdigest()}  {path}\n"
        for path, it in sorted(tree.items())
        if not it.link
    ]
    control = {
        "control": File(control_of(sum(len(it.data) for it in tree.values())).encode()),
        "md5sums": File("".join(sums).encode()),
        "postinst": File(COMPILES.replace("FOLDERS", folders).encode(), True),
        "prerm": File(REMOVES.encode(), True),
    }
    parts = [
        ("control.tar.gz", tarred(control, of.seconds, ".")),
        ("data.tar.gz", tarred(tree, of.seconds, ".")),
    ]
    return ar([("debian-binary", b"2.0\n"), *parts], of.seconds)


def control_of(size: int) -> str:
    """What a Debian package says of itself."""
    needed = "python3 (>= 3.8), libc6 (>= %d.%d)" % GLIBC
    return f"""Package: cise
Version: {VERSION}
Architecture: amd64
Maintainer: {MAINTAINER}
Installed-Size: {size // 1024}
Depends: {needed}
Section: devel
Priority: optional
Description: {SUMMARY[0].lower()}{SUMMARY[1:]}
 The CISE checker reads the design of a replicated store or of a collaborative
 application, and decides whether its replicas synchronise enough.
"""


def ar(parts: List[Tuple[str, bytes]], seconds: int) -> bytes:
    """The form of archive that a Debian package has."""
    whole = b"!<arch>\n"
    for name, data in parts:
        whole += f"{name:16}{seconds:<12}{0:<6}{0:<6}{'100644':8}{len(data):<10}`\n".encode()
        whole += data + b"\n" * (len(data) % 2)
    return whole


MAKERS = {ONE_FILE: one_file, WHEEL: wheel, PACKAGE: package, ARCHIVE: archive}
