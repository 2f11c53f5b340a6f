"""Proves crates and builds what is made of them: the program a429, and the archive of the static library a429_c.

Next to what it builds, in out/ of the crate, it notes what that was built from, in the file built-from: the compiler, the sum of
all that the proof read (`stamp` of repository.py), and the sum of the file that was built. Only a build that passed notes it, or
one that takes what such a build kept.

Variables: A429_JOBS is how many processors it uses; without it, all that memory is enough for. RT_BACKEND=rattle compiles
by the toolchain's other compiler: in a quarter of the time, to slower code. A429_ANEW=1 proves all from nothing, and takes nothing
that was proved or built before, in this checkout or another.

A library is proved from nothing, and what stays of it are its statements, which are all that a proof above reads: that is the
cheapest way to a proved program. If `rt check` was run in each library below a crate, its build begins with what those checks
kept, and proves only what changed. If `rt ci` made the program in this checkout, nothing is proved again.

What a build proves and makes is kept next to the toolchain (kept.py), and other checkouts on the machine take it from there. If
`rt ci` made the program in this checkout, what it proved is kept too.
"""
import fcntl
import functools
import os
import re
import signal
import subprocess
import sys
import tempfile
import threading
import time
from concurrent.futures import FIRST_COMPLETED, ThreadPoolExecutor, wait

import repository
from kept import Kept, gate_statements_of, is_anew
from repository import ROOT, below, crates, kit, kit_line, rattle, rattle_words, say, stamp, sum_of, text_of, write

# The seconds of a processor that the proof of each crate took in the last `tools/cost --build`: lines `NAME SECONDS`.
SECONDS = os.path.join(ROOT, "tools", "seconds")

# What one check takes of memory, at most, in kB.
MEMORY_OF_A_CHECK = 4_500_000


class Failed(Exception):
    """A step failed; its text is what the toolchain said."""


def processors():
    """How many processors the build uses: all that memory is enough for."""
    asked = os.environ.get("A429_JOBS", "")
    if asked.isdigit() and int(asked) > 0:
        return int(asked)
    with open("/proc/meminfo", encoding="ascii") as file:
        free = next(int(line.split()[1]) for line in file if line.startswith("MemAvailable:"))
    return max(1, min(len(os.sched_getaffinity(0)), free // MEMORY_OF_A_CHECK))


# ---- Commands of the toolchain

class Commands:
    """Runs commands, and ends those that still run if the build ends."""

    def __init__(self):
        self.running, self.lock, self.is_over = set(), threading.Lock(), False

    def run(self, words, folder):
        """Runs a command to its end, and answers its status and what it printed."""
        with self.lock:
            if self.is_over:
                raise Failed("")
            ran = subprocess.Popen(words, cwd=folder, stdin=subprocess.DEVNULL, stdout=subprocess.PIPE, stderr=subprocess.STDOUT,
                                   text=True, errors="replace", start_new_session=True)
            self.running.add(ran)
        said = ran.communicate()[0]
        with self.lock:
            self.running.discard(ran)
        return ran.returncode, said

    def begin(self):
        self.is_over = False

    def end(self):
        with self.lock:
            self.is_over = True
            for ran in self.running:
                try:
                    os.killpg(ran.pid, signal.SIGTERM)
                except ProcessLookupError:
                    pass


commands = Commands()


def without_proofs(said):
    """What the toolchain printed, without its lines of what it proved."""
    parts = ("checked ", "so far: ", "by-macro: ", "rt: ", "statements ", "logic", "crate ", "incremental")
    return "\n".join(line for line in said.split("\n") if not line.startswith(parts) and not line.endswith(": proved"))


def build(name, jobs, more):
    """Proves and builds a crate. A check that was killed, most likely for memory, is run again with one job."""
    status = -signal.SIGKILL
    for number in (jobs, 1):
        if status != -signal.SIGKILL:
            break
        words = [rattle(), "build", *rattle_words(name, number), *more]
        status, said = commands.run(words, crates()[name].folder)
    if status:
        raise Failed(f"{name} is not proved:\n{without_proofs(said)}")


# ---- Libraries, side by side

def is_built(name):
    return text_of(crates()[name].stamp) == stamp(name) and os.path.isdir(crates()[name].statements)


def build_library(name, jobs, kept):
    crate = crates()[name]
    if os.path.exists(crate.stamp):
        os.remove(crate.stamp)
    os.makedirs(os.path.dirname(crate.statements), exist_ok=True)
    build(name, jobs, ["--statements", "-o", crate.statements])
    write(crate.stamp, stamp(name))
    kept.keep_statements(name)


@functools.lru_cache(maxsize=None)
def seconds():
    """The seconds that the proof of each crate takes, by SECONDS. A crate that is not there counts by its lines of code."""
    noted = re.findall(r"^(\w+) ([1-9]\d*)$", text_of(SECONDS), re.M)
    found = {name: int(count) for name, count in noted if name in crates()}
    lines = {name: crate.lines_of_code() for name, crate in crates().items()}
    of_a_line = sum(found.values()) / sum(lines[name] for name in found) if found else 1
    return {name: found.get(name, of_a_line * lines[name]) for name in crates()}


def chains(names):
    """How many seconds of proofs wait for each library one after another, itself with them."""
    length = {}
    for name in reversed(names):
        above = [length[other] for other in names if name in below(other)]
        length[name] = seconds()[name] + max(above, default=0)
    return length


def division(ready, chain, longest, idle):
    """Divides idle processors among the libraries that are ready, which come with the longest chain first: pairs of a library and
    its processors. A second processor shortens a proof by a third, and costs a fourth more in all. So a library gets one only if
    nothing else could use it, and if the end of the build waits for its chain: it has nine tenths of the longest one that is left."""
    given = ready[:idle]
    spare, found = idle - len(given), []
    for name in given:
        has_second = spare > 0 and 10 * chain[name] >= 9 * longest
        spare -= has_second
        found.append((name, 1 + has_second))
    return found


def take_libraries(left, running, kept):
    """Takes the statements that are kept, from the lowest library up, and says of which libraries. It removes these from the list of
    libraries that are left."""
    taken = []
    for name in list(left):
        if not {*left, *running} & {*below(name)} and kept.take_statements(name):
            left.remove(name)
            taken.append(name)
    if taken:
        count = "1 library is" if len(taken) == 1 else f"{len(taken)} libraries are"
        say(f"{count} taken from {kept.folder}: {' '.join(taken)}")


def build_libraries(names, kept):
    """Takes or builds libraries, each once those below it are there."""
    chain, idle, running = chains(names), processors(), {}
    left = sorted(names, key=lambda name: -chain[name])
    with ThreadPoolExecutor(idle) as pool:
        try:
            while left or running:
                take_libraries(left, names_of(running), kept)
                waited_for = {*left, *names_of(running)}
                ready = [name for name in left if not waited_for & {*below(name)}]
                for name, jobs in division(ready, chain, chain[left[0]] if left else 0, idle):
                    left.remove(name)
                    idle -= jobs
                    running[pool.submit(build_library, name, jobs, kept)] = name, jobs
                for ended in wait(running, return_when=FIRST_COMPLETED).done:
                    name, jobs = running.pop(ended)
                    ended.result()
                    idle += jobs
                    say_step(name, names, [*left, *names_of(running)])
        except BaseException:
            commands.end()
            raise


def names_of(running):
    return [name for name, _ in running.values()]


def say_step(name, names, due):
    """Says that a library is proved, which of the steps that was, and how much is done by the seconds of the proofs."""
    done = 1 - sum(seconds()[other] for other in due) / sum(seconds()[other] for other in names)
    say(f"step {len(names) - len(due)} of {len(names)}: {name} is proved ({100 * done:.0f} %)")


def keep_libraries_of_the_gate(names, at, kept):
    """Keeps the statements of libraries, lowest first, that the last `rt ci` of this checkout made. It began at this time."""
    for name in names:
        made = crates()[name].gate_statements
        if not os.path.isdir(made) or os.stat(made).st_mtime < at:
            return
        kept.keep_statements(name, gate_statements_of)


# ---- What is built

class Target:
    """What is built of a crate: a program, or the archive of a static library."""

    def __init__(self, name):
        self.name, self.crate = name, crates()[name]
        self.made = os.path.join(self.crate.folder, "out", name if self.crate.is_program else f"lib{name}.a")
        self.compiler = os.environ.get("RT_BACKEND") or "llvm"
        self.stamp = os.path.join(self.crate.folder, "out", "built-from")

    def state(self):
        return f"{self.compiler} {stamp(self.name)}"

    def fault(self):
        """Why the file that is there cannot be taken as proved and built from the sources as they are, or None."""
        if not os.path.isfile(self.made):
            return "it is not built"
        noted = text_of(self.stamp).split()
        if len(noted) != 3:
            return "no note says what it was built from, so it is not known to be proved"
        compiler, read, made = noted
        if compiler != self.compiler:
            return f"it is built by the compiler {compiler}, and {self.compiler} is asked for"
        if read != stamp(self.name):
            return "it is older than its sources or the toolchain"
        if made != sum_of(self.made):
            return "it is another file than the one that was built after the proof"
        return None if self.names_logic() else "it does not name the logic that it is proved in"

    def names_logic(self):
        """Whether the file names the logic of the toolchain. The toolchain writes that only into code that it has proved."""
        return b"rattle logic=" + kit_line().split()[-1] in repository.read(self.made)

    def is_due(self):
        begun = time.time()
        if self.fault() is None:
            # so that the script a429 sees it without reading the sources
            self.note(self.state(), begun)
            return False
        return not self.is_of_the_gate()

    def sources(self):
        """The files and folders that it is built from."""
        names = [*below(self.name), self.name]
        return [os.path.join(ROOT, "crates.txt"), *[path for name in names for path in crates()[name].paths()]]

    def is_of_the_gate(self):
        """Whether the last `rt ci` of this checkout made the program from the sources as they are. The gate notes its begin in a
        file, and moves aside what was built before it."""
        begun = os.path.join(ROOT, ".git", "rt-ci.lock")
        if self.compiler != "llvm" or os.path.exists(self.stamp) or not os.path.isfile(begun) or not os.path.isfile(self.made):
            return False
        at = os.stat(begun).st_mtime
        if os.stat(self.made).st_mtime < at or any(os.stat(path).st_mtime >= at for path in self.sources()):
            return False
        if not self.names_logic():
            return False
        self.note(self.state(), at)
        # so that other checkouts take it; a file that was changed and then given an older time has a later ctime
        if all(os.stat(path).st_ctime < at for path in self.sources()):
            kept = Kept(below(self.name))
            self.keep(kept)
            keep_libraries_of_the_gate(below(self.name), at, kept)
        return True

    def note(self, state, at):
        """Notes what it was built from, when that was read, and what was built."""
        write(self.stamp, f"{state} {sum_of(self.made)}\n")
        os.utime(self.stamp, (at, at))

    def keep(self, kept):
        kept.keep(self.name, self.compiler, stamp(self.name), self.made)

    def is_taken(self, kept):
        """Takes what another checkout built of the same sources, if it is kept, and answers whether it did."""
        is_there = kept.take(self.name, self.compiler, stamp(self.name), self.made) and self.names_logic()
        if is_there:
            say(f"{self.name} is taken from {kept.folder}: it was proved and built from the same sources")
        return is_there

    def build(self):
        """Takes it if it is kept. Otherwise builds it: by what checks have kept, if that is there for each library below, or from the
        statements of these."""
        kept = Kept([*below(self.name), self.name])
        repository.stamp.cache_clear()
        state, begun = self.state(), time.time()
        if not self.is_taken(kept):
            self.build_with_what_is_kept() if self.has_checks() and not is_anew() else self.build_from_statements(kept)
        self.note(state, begun)

    def has_checks(self):
        """Whether there is what checks have kept of each library below."""
        return all(os.path.isdir(os.path.join(crates()[name].folder, "out", "incremental")) for name in below(self.name))

    def build_with_what_is_kept(self):
        """Builds it by the toolchain's command, which proves what changed since the last checks."""
        say(f"proving what changed, and building {self.name}")
        words = ["rt", "run" if self.crate.is_program else "lib", "--jobs", str(processors()), "--backend", self.compiler]
        status, said = commands.run(words + (["--", "--version"] if self.crate.is_program else []), self.crate.folder)
        if status:
            raise Failed(without_proofs(said))

    def build_from_statements(self, kept):
        due = [name for name in below(self.name) if is_anew() or not is_built(name)]
        say(f"proving and building {self.name}; {len(due)} of its {len(below(self.name))} libraries are due")
        build_libraries(due, kept)
        say("proving what is left, and building")
        os.makedirs(os.path.dirname(self.made), exist_ok=True)
        with tempfile.TemporaryDirectory(dir=os.path.dirname(self.made)) as room:
            os.replace(self.make(room), self.made)
        if kept.is_untouched(self.name):
            self.keep(kept)

    def make(self, room):
        """Proves the crate and makes the file in this folder; libraries below it are proved. Its path."""
        made = os.path.join(room, "made")
        kind = [] if self.crate.is_program else ["--crate-type", "staticlib"]
        words = [*kind, "--toolchain", kit() + "/toolchain", "--backend", self.compiler, "-o", made]
        build(self.name, min(2, processors()), words)
        return link(made) if self.crate.is_program else made


def link(compiled):
    """Links a program."""
    words = [kit() + "/bin/rattle-link", "--target", "x86_64-unknown-linux-gnu", "--toolchain", kit() + "/toolchain"]
    words += ["-o", compiled + ".linked", compiled, kit() + "/c/libos_c.a", kit() + "/c/liblibc_c.a"]
    status, said = commands.run(words, ROOT)
    if status:
        raise Failed("the program is not linked:\n" + said)
    return compiled + ".linked"


def build_if_due(name):
    """Builds the program or the archive of a crate if it is due."""
    build_target_if_due(Target(name))


def build_target_if_due(target):
    """Builds a target if it is due. A second build waits for the first one, and then has little to do. If it fails, its errors are
    printed, and the process ends with status 1."""
    if not is_anew() and not target.is_due():
        return
    signal.signal(signal.SIGTERM, lambda *_: sys.exit(1))
    signal.signal(signal.SIGHUP, lambda *_: sys.exit(1))
    os.makedirs(os.path.join(ROOT, "out"), exist_ok=True)
    with open(os.path.join(ROOT, "out", "build.lock"), "w") as lock:
        fcntl.flock(lock, fcntl.LOCK_EX)
        try:
            commands.begin()
            # the sources may have changed while it waited
            repository.stamp.cache_clear()
            if is_anew() or target.is_due():
                target.build()
        except Failed as failed:
            print(str(failed).strip(), file=sys.stderr)
            sys.exit("a429: the build failed")
        except KeyboardInterrupt:
            sys.exit("a429: the build was stopped; what was proved is kept")
        finally:
            commands.end()
