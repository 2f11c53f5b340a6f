"""The files of a429 that are installed, with their paths: those of the package, of the archive, and of tools/install.

They are those of a proved build alone. The program has no names for debuggers, and is otherwise as it was built.
"""
import hashlib
import os
import shutil
import subprocess
import tempfile
import zlib
from typing import NamedTuple

import building
import libraries
import pages
import repository
from repository import ROOT, below, crates, kit_line, tracked

# The crates that something is built of.
TARGETS = ("a429", "a429_c", "a429_page")
PAGE = "a429.html"
DOCUMENTS = "share/doc/a429"
PYTHON = "lib/python3/dist-packages"


class Refused(Exception):
    """Nothing is made; its text is the reason."""


class Entry(NamedTuple):
    """A file, by its path below the prefix: its bytes and its mode, or what it is a link to."""
    path: str
    bytes: bytes = b""
    mode: int = 0o644
    link: str = ""


def read(*parts):
    return repository.read(os.path.join(ROOT, *parts))


def run(*words):
    """What a command prints. If it fails, nothing is made."""
    try:
        return subprocess.run(words, check=True, capture_output=True, text=True, errors="replace").stdout
    except subprocess.CalledProcessError as failed:
        raise Refused(f"{words[0]} failed: {last_line(failed.stderr)}") from None


def last_line(text):
    return (text or "").strip().split("\n")[-1]


def gzipped(data):
    """The bytes as gzip -9n packs them: without a name or a time."""
    packer = zlib.compressobj(9, zlib.DEFLATED, 31)
    return packer.compress(data) + packer.flush()


# ---- The proved build

def commit():
    try:
        return repository.commit()
    except (OSError, subprocess.CalledProcessError) as failed:
        raise Refused(f"the commit is not known: {last_line(getattr(failed, 'stderr', '')) or failed}") from None


def build(*commands):
    """Refuses a program that is not proved from the sources as they are. Proves and builds the libraries if they are due. First it
    looks for the commit, and for the commands that are run later."""
    commit()
    for command in ["strip", "ar", libraries.COMPILER, *commands]:
        if not shutil.which(command):
            raise Refused(f"the command {command} is not on PATH")
    program = building.Target("a429")
    if program.is_due():
        raise Refused(f"crates/a429/out/a429: {program.fault()}; tools/build proves and builds it")
    said = run(program.made, "--version").strip()
    if said != f"a429 {repository.version()}":
        raise Refused(f"the program says that it is {said}, and CHANGELOG.md that it is {repository.version()}")
    try:
        libraries.build()
    except (OSError, subprocess.CalledProcessError) as failed:
        raise Refused(f"the libraries are not built: {last_line(str(failed))}") from None
    try:
        pages.build()
    except building.Failed as failed:
        raise Refused(f"the page is not made: {last_line(str(failed))}") from None


def refuse_changes():
    """Refuses sources that were changed since `build` looked at them: PROVED-BY would have the sums of others than were proved."""
    repository.stamp.cache_clear()
    for target in (building.Target("a429"), building.Target("a429_c"), pages.PageModule()):
        fault = target.fault()
        if fault:
            raise Refused(f"crates/{target.name} was changed at the same time: {fault}")


def stripped(file):
    """The bytes of a built program without the names for debuggers."""
    with tempfile.TemporaryDirectory() as room:
        made = os.path.join(room, "made")
        run("strip", "-o", made, file)
        return repository.read(made)


# ---- The file PROVED-BY

def sums(names):
    """The checksum of each file that a proof of these crates reads."""
    files = sorted(file for name in names for file in crates()[name].files())
    return "".join(f"{building.sum_of(file)}  {os.path.relpath(file, ROOT)}\n" for file in files)


def proved_by(built):
    """The text of PROVED-BY: by what, and from which sources, these built files are proved."""
    at, proved = commit(), {name for target in TARGETS for name in [target, *below(target)]}
    changed = ", with changes that are not committed" if at.has_changes else ""
    lines = [f"a429 {repository.version()}", f"kit: {kit_line().decode().strip()}", f"commit: {at.name}{changed}",
             f"compiler: {building.Target('a429').compiler}", "", "What was built after the proof, as it is in this package:",
             *[f"  {hashlib.sha256(entry.bytes).hexdigest()}  {os.path.basename(entry.path)}" for entry in built],
             "", "The program before the names for debuggers were stripped:",
             f"  {building.sum_of(building.Target('a429').made)}  crates/a429/out/a429",
             "", "The sources that were proved for it. In a checkout of the commit, `sha256sum -c PROVED-BY` compares them."]
    text = "".join(f"# {line}".rstrip() + "\n" for line in lines)
    text += f"{building.sum_of(os.path.join(ROOT, 'crates.txt'))}  crates.txt\n" + sums(proved)
    return text + "#\n# The other crates: tests and examples, which only the gate proves.\n" + sums(set(crates()) - proved)


# ---- The files

def documents():
    """The pages and the examples. A page is where the other pages say that it is."""
    for path in ["README.md", "CONTRIBUTING.md", "CHANGELOG.md", *tracked("docs"), *tracked("examples")]:
        if path.endswith((".md", ".png")) or path.startswith("examples/"):
            yield Entry(f"{DOCUMENTS}/{path}", read(path))
    for path in tracked("c/examples"):
        yield Entry(f"{DOCUMENTS}/examples/c/{os.path.basename(path)}", read(path))


def contents(prefix="${pcfiledir}/../..", lib="lib"):
    """All files, sorted by their paths. The libraries are in the folder `lib`, and a429.pc says that they are below the prefix:
    without one it uses its own place, so that the folder of all files can be moved."""
    built = [Entry("bin/a429", stripped(building.Target("a429").made), 0o755),
             Entry(f"{lib}/{libraries.ARCHIVE}", read("out", libraries.ARCHIVE)),
             Entry(f"{lib}/{libraries.SHARED}", read("out", libraries.SHARED)),
             Entry(f"{DOCUMENTS}/{PAGE}", read("out", PAGE))]
    found = [*built,
             Entry(f"{lib}/{libraries.LINK}", link=libraries.SHARED),
             Entry(f"{lib}/pkgconfig/a429.pc", libraries.pkg_config(prefix, lib, "include").encode()),
             Entry("include/a429.h", read("c", "a429.h")),
             Entry(f"{PYTHON}/a429.py", read("c", "a429.py")),
             Entry("share/man/man1/a429.1.gz", gzipped(read("docs", "a429.1"))),
             Entry("share/bash-completion/completions/a429", read("docs", "a429.bash")),
             Entry(f"{DOCUMENTS}/PROVED-BY", proved_by(built).encode()),
             *documents()]
    refuse_changes()
    return sorted(found)


def folders(entries):
    """The folders that files are in, each after the one that it is in."""
    found = set()
    for entry in entries:
        parts = entry.path.split("/")
        found |= {"/".join(parts[:count]) for count in range(1, len(parts))}
    return sorted(found)


def put(entry, file):
    """Writes a file with its mode."""
    if entry.link:
        os.symlink(entry.link, file)
        return
    with open(file, "wb") as opened:
        opened.write(entry.bytes)
    os.chmod(file, entry.mode)
