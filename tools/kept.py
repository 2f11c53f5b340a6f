"""What builds and `rt ci` proved in the checkouts of this machine: the statements of libraries, and the program and the archive that
were built.

It is kept in the folder a429-kept next to the toolchain. Each entry is a folder of it, NAME.KIND.KEY: KIND is `statements` or the
compiler, and KEY is the sum of all that it was made from. In an entry are the packed files, and a note with their checksum. An
entry is written apart and then renamed, so that no build meets half of it. One that is not as its note says is not taken, and is
removed. To empty the folder, remove it.

The trust is that of what `rt ci` keeps: the folder belongs to the user who builds, and nobody else can write into it. If it is
not so, nothing is taken and nothing is kept. A full disk is no failure of a build either.
"""
import hashlib
import io
import os
import shutil
import stat
import tarfile
import tempfile
import time

import repository
from repository import below, crates, kit, kit_line, say, stamp, text_of, write

# How many entries of one name and kind are kept.
GENERATIONS = 2
# The bytes of disk that must be free, so that something more is kept.
LEAST_FREE = 5_000_000_000
# The seconds after which an entry that is still written apart was left by a build that was killed.
LEFT = 3600
STATEMENTS = "statements"
PACKED, NOTE = "files.tar.gz", "note"


def is_anew():
    """Whether all is proved from nothing, and nothing is taken that was kept."""
    return os.environ.get("A429_ANEW") == "1"


def place():
    """The folder that things are kept in."""
    return os.path.join(os.path.dirname(os.path.realpath(kit())), "a429-kept")


def is_own(folder):
    """Whether a folder is this user's, who can write into it, and nobody else can. It is made if it is not there."""
    try:
        if not os.path.lexists(folder):
            os.mkdir(folder, 0o700)
        found = os.lstat(folder)
    except OSError:
        return False
    is_alone = stat.S_ISDIR(found.st_mode) and found.st_uid == os.geteuid() and not found.st_mode & 0o022
    return is_alone and os.access(folder, os.W_OK | os.X_OK)


def marks(name):
    """What shows whether a file that a proof of a crate reads was changed meanwhile, even if it was changed back."""
    found = []
    for path in crates()[name].paths():
        try:
            at = os.stat(path)
            found.append((path, at.st_ino, at.st_size, at.st_mtime_ns, at.st_ctime_ns))
        except OSError:
            found.append((path,))
    return sorted(found)


def statements_of(name):
    return crates()[name].statements


def gate_statements_of(name):
    return crates()[name].gate_statements


def key_of_statements(name, path_of=statements_of):
    """The sum of all that the statements of a library are made from: its stamp, and the statements of the libraries below as they
    are in this checkout, since statements fit only those that they were proved over. A file `format` has the sum of its library."""
    found = hashlib.sha256(stamp(name).encode())
    for use in below(name):
        found.update(text_of(os.path.join(path_of(use), "format")).encode() + b"\0")
    return found.hexdigest()


# ---- Packed files

def pack(path):
    """The bytes of a file or of a folder."""
    packed = io.BytesIO()
    with tarfile.open(fileobj=packed, mode="w:gz", compresslevel=1) as archive:
        archive.add(path, os.path.basename(path))
    return packed.getvalue()


def unpack(packed, path):
    """Puts a file or a folder in place of what is there."""
    os.makedirs(os.path.dirname(path), exist_ok=True)
    with tempfile.TemporaryDirectory(dir=os.path.dirname(path)) as room:
        with tarfile.open(fileobj=io.BytesIO(packed), mode="r:gz") as archive:
            archive.extractall(room)
        if os.path.isdir(path):
            shutil.rmtree(path)
        os.replace(os.path.join(room, os.path.basename(path)), path)


def drop(folder):
    """Removes an entry. It is renamed first, so that no build takes half of it."""
    try:
        gone = tempfile.mkdtemp(prefix="new-", dir=os.path.dirname(folder))
        os.rename(folder, os.path.join(gone, "gone"))
        shutil.rmtree(gone, ignore_errors=True)
    except OSError:
        pass


def mark_as_used(entry):
    try:
        os.utime(entry)
    except OSError:
        pass


def age(path):
    """The seconds since something was written or taken; 0 if it is gone."""
    try:
        return time.time() - os.stat(path).st_mtime
    except OSError:
        return 0


# ---- What is kept

class Spoilt(Exception):
    """An entry is not as its note says; its text is the reason."""


def heading(entry):
    """The first lines of the note in an entry: the toolchain, and the name of the entry."""
    return [kit_line().decode().strip(), entry]


def note_of(entry, packed):
    """The note in an entry of these packed files."""
    return "\n".join([*heading(entry), hashlib.sha256(packed).hexdigest(), ""])


class Kept:
    """What is kept, as a build of these crates uses it. It is made before the build reads a source."""

    def __init__(self, names):
        self.marks = {name: marks(name) for name in names}
        self.folder = place() if is_own(place()) else None
        self.refused, self.is_full = set(), False
        if not self.folder:
            say(f"note: {place()} is no folder that this user alone can write into, so nothing is taken from it, and nothing is kept")

    def is_untouched(self, name):
        """Whether no source of a crate or of a library below it was touched since the build began."""
        return all(marks(of) == self.marks[of] for of in [*below(name), name])

    def read(self, entry):
        """The packed files of an entry, or None if it is not there."""
        at = os.path.join(self.folder, entry)
        try:
            packed = repository.read(os.path.join(at, PACKED))
            note = repository.read(os.path.join(at, NOTE)).decode(errors="replace")
        except OSError:
            # another build may have removed it meanwhile
            if not os.path.isdir(at):
                return None
            raise Spoilt("a file of it is missing") from None
        if note.split("\n")[:2] != heading(entry):
            raise Spoilt("it is of another toolchain or of other sources")
        if note != note_of(entry, packed):
            raise Spoilt("it is cut short or was changed")
        return packed

    def take(self, name, kind, key, path):
        """Puts what is kept into its place, and answers whether it is there. An entry that is spoilt is removed."""
        entry = f"{name}.{kind}.{key}"
        if not self.folder or is_anew() or entry in self.refused:
            return False
        try:
            packed = self.read(entry)
            if packed is None:
                return False
            unpack(packed, path)
        except (Spoilt, OSError) as fault:
            self.refused.add(entry)
            say(f"what is kept of {name} ({kind}) is not taken, and {name} is proved again: {fault}")
            if isinstance(fault, Spoilt):
                drop(os.path.join(self.folder, entry))
            return False
        mark_as_used(os.path.join(self.folder, entry))
        return True

    def take_statements(self, name):
        """The same for the statements of a library; the stamp beside them is written last."""
        crate = crates()[name]
        if os.path.exists(crate.stamp):
            os.remove(crate.stamp)
        is_there = self.take(name, STATEMENTS, key_of_statements(name), crate.statements)
        if is_there:
            write(crate.stamp, stamp(name))
        return is_there

    def has_room(self):
        is_full = shutil.disk_usage(self.folder).free < LEAST_FREE
        if is_full and not self.is_full:
            say(f"note: fewer than {LEAST_FREE // 10**9} GB of disk are free, so nothing more is kept")
        self.is_full = is_full
        return not is_full

    def keep(self, name, kind, key, path):
        """Keeps a file or a folder, if there is room for it. The same that another build has kept meanwhile stays."""
        entry, room = f"{name}.{kind}.{key}", None
        try:
            if not self.folder or not self.has_room():
                return
            packed = pack(path)
            room = tempfile.mkdtemp(prefix="new-", dir=self.folder)
            with open(os.path.join(room, PACKED), "wb") as file:
                file.write(packed)
            write(os.path.join(room, NOTE), note_of(entry, packed))
            os.rename(room, os.path.join(self.folder, entry))
            self.shrink(f"{name}.{kind}.")
        except OSError:
            shutil.rmtree(room or "", ignore_errors=True)

    def keep_statements(self, name, path_of=statements_of):
        """Keeps the statements of a library that was proved just now, or by the last `rt ci`."""
        if self.is_untouched(name):
            self.keep(name, STATEMENTS, key_of_statements(name, path_of), path_of(name))

    def shrink(self, of):
        """Removes the entries of one name and kind that are longest unused, and what builds that were killed left."""
        paths = [os.path.join(self.folder, entry) for entry in os.listdir(self.folder)]
        same = sorted((path for path in paths if os.path.basename(path).startswith(of)), key=age)
        left = [path for path in paths if os.path.basename(path).startswith("new-") and age(path) > LEFT]
        for path in [*same[GENERATIONS:], *left]:
            drop(path)

