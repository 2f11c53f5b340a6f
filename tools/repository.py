"""What the tools know of the repository: its crates, the files that each is made from, its version and commit, and how the
toolchain is asked."""
import functools
import hashlib
import os
import re
import subprocess
import sys
from typing import NamedTuple

ROOT = os.path.dirname(os.path.dirname(os.path.realpath(__file__)))
# The folders of a crate that a proof reads.
PARTS = ("src", "specs", "proofs")


class Crate:
    """A line of crates.txt."""

    def __init__(self, line):
        head, _, uses = line.partition(":")
        self.line = line
        self.name = head.split()[0]
        self.uses = uses.split()
        self.folder = os.path.join(ROOT, "crates", self.name)
        self.is_program = os.path.isfile(os.path.join(self.folder, "src", "main.rt"))
        # the statements of a library, which are all that a proof above it reads
        self.statements = os.path.join(self.folder, "out", "rlib", "statements", self.name + ".rlib")
        self.stamp = os.path.join(self.folder, "out", "rlib", "statements", "stamp")
        # the same, as `rt ci` makes them
        self.gate_statements = os.path.join(self.folder, "out", "rlib", self.name + ".rlib")

    def root_file(self):
        return "src/main.rt" if self.is_program else "src/lib.rt"

    def paths(self):
        """The files that a proof of the crate reads, and their folders, which show that a file was added or is gone."""
        found = []
        for part in PARTS:
            for at, _, names in os.walk(os.path.join(self.folder, part)):
                found += [at, *[os.path.join(at, name) for name in names]]
        return found

    def files(self):
        """The files that a proof of the crate reads, in a fixed order."""
        return sorted(path for path in self.paths() if os.path.isfile(path))

    def lines_of_code(self):
        """The measure of the work that its proof is: functions take the time, definitions and lemmas little."""
        return sum(read(file).count(b"\n") for file in self.files() if file.endswith(".rt"))


def say(text):
    print("a429: " + text, file=sys.stderr, flush=True)


def read(file):
    with open(file, "rb") as opened:
        return opened.read()


def text_of(file):
    """The text of a file; none if it cannot be read."""
    try:
        return read(file).decode(errors="replace")
    except OSError:
        return ""


def sum_of(file):
    """The checksum of a file."""
    return hashlib.sha256(read(file)).hexdigest()


def write(file, text):
    os.makedirs(os.path.dirname(file), exist_ok=True)
    with open(file, "w", encoding="utf-8") as opened:
        opened.write(text)


@functools.lru_cache(maxsize=None)
def crates():
    """The crates by their names, lowest first."""
    with open(os.path.join(ROOT, "crates.txt"), encoding="utf-8") as file:
        lines = [line.strip() for line in file if line.strip() and not line.startswith("#")]
    return {crate.name: crate for crate in map(Crate, lines)}


@functools.lru_cache(maxsize=None)
def own_uses(name):
    """The repository's libraries that a crate names."""
    return [use for use in crates()[name].uses if use in crates()]


@functools.lru_cache(maxsize=None)
def below(name):
    """The names of the repository's libraries that a crate uses, lowest first."""
    needed = {use for direct in own_uses(name) for use in [direct, *below(direct)]}
    return [other for other in crates() if other in needed]


@functools.lru_cache(maxsize=None)
def stamp(name):
    """A sum of all that a proof of the crate reads, with the libraries below it and the toolchain."""
    crate, found = crates()[name], hashlib.sha256(kit_line())
    found.update(crate.line.encode())
    for file in crate.files():
        found.update(os.path.relpath(file, crate.folder).encode() + b"\0" + hashlib.sha256(read(file)).digest())
    for use in own_uses(name):
        found.update(stamp(use).encode())
    return found.hexdigest()


# ---- The version and the commit

class Commit(NamedTuple):
    """The commit of a checkout."""
    name: str
    seconds: int
    author: str
    has_changes: bool


def git(*words):
    """What git says of this checkout, even if it belongs to another user."""
    named = ["git", "-c", "safe.directory=" + ROOT, "-C", ROOT]
    return subprocess.run([*named, *words], check=True, capture_output=True, text=True, errors="replace").stdout


def commit():
    """The commit of the checkout, and whether a file of these folders differs from it: what is built and installed, and how.
    Raises an OSError or a CalledProcessError if git knows none."""
    name, seconds, author = git("log", "-1", "--format=%H%n%ct%n%an <%ae>").splitlines()
    parts = ("crates.txt", "crates", "c", "page", "docs", "examples", "tools", "README.md", "CONTRIBUTING.md", "CHANGELOG.md")
    return Commit(name, int(seconds), author, bool(git("status", "--porcelain", "--", *parts)))


def tracked(folder):
    """The files below a folder that git has, by their paths from the top."""
    listed = git("ls-files", "-z", "--", folder).split("\0")
    return sorted(path for path in listed if os.path.isfile(os.path.join(ROOT, path)))


def version():
    """The version that the changelog begins with."""
    return re.search(rb"^## (\S+)", read(os.path.join(ROOT, "CHANGELOG.md")), re.M)[1].decode()


# ---- The toolchain

@functools.lru_cache(maxsize=None)
def kit():
    """The folder of the toolchain, that of the page that `rt doc` names."""
    try:
        said = subprocess.run(["rt", "doc"], check=True, capture_output=True, text=True).stdout
    except (OSError, subprocess.CalledProcessError):
        sys.exit("a429: the toolchain's command rt is not on PATH")
    return os.path.dirname(said.strip())


@functools.lru_cache(maxsize=None)
def kit_line():
    return read(os.path.join(kit(), "KIT-ID"))


def rattle():
    return os.path.join(kit(), "bin", "rattle")


def rattle_words(name, jobs):
    """The arguments of `rattle check` or `rattle build` that name a crate and the libraries that it uses."""
    crate, rlibs = crates()[name], os.path.join(kit(), "rlibs")
    words = ["--crate-name", name, crate.root_file(), "-L", "dependency=" + rlibs]
    of_kit = [use for use in crate.uses if use not in crates()]
    for use in ["std", *of_kit]:
        words += ["--extern", f"{use}={rlibs}/{use}.rlib"]
    for use in own_uses(name):
        words += ["--extern", f"{use}={crates()[use].statements}"]
    for use in below(name):
        words += ["-L", "dependency=" + os.path.dirname(crates()[use].statements)]
    words += ["--antt-project", os.path.join(kit(), "rattle", "logic", "antt-project.json")]
    words += ["--logic-built", os.path.join(kit(), "logic_built"), "--jobs", str(jobs), "--links", name + "="]
    return words
