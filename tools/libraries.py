"""The C library of the machine, liba429.a and liba429.so.0: how both are made of the proved crate a429_c."""
import os
import re
import shutil
import subprocess
import tempfile

import building
import repository
from repository import ROOT, kit

OUT = os.path.join(ROOT, "out")
HEADER = os.path.join(ROOT, "c", "a429.h")
ARCHIVE, SHARED, LINK = "liba429.a", "liba429.so.0", "liba429.so"
COMPILER = os.environ.get("CC", "cc")


def run(*words, **options):
    return subprocess.run(words, check=True, **options)


def header_calls():
    """The names of the calls in the header."""
    return set(re.findall(r"^\w+ (a429_\w+)\(", repository.read(HEADER).decode(), re.M))


def build():
    """Proves a429_c if a source changed, and puts both libraries and a429.pc into out/."""
    building.build_if_due("a429_c")
    os.makedirs(OUT, exist_ok=True)
    with tempfile.TemporaryDirectory(dir=OUT) as room:
        archive, shared = os.path.join(room, ARCHIVE), os.path.join(room, SHARED)
        make_archive(archive, room)
        make_shared(archive, shared, room)
        os.symlink(SHARED, os.path.join(room, LINK))
        building.write(os.path.join(room, "a429.pc"), pkg_config(ROOT, "out", "c"))
        for name in (ARCHIVE, SHARED, LINK, "a429.pc"):
            os.replace(os.path.join(room, name), os.path.join(OUT, name))


def make_archive(archive, room):
    """The archive of the crate, with the heap that calls the C library's malloc. The same crate gives the same bytes."""
    shutil.copyfile(building.Target("a429_c").made, archive)
    run("ar", "x", os.path.join(kit(), "c", "liblibc_c.a"), "heap.pic.o", cwd=room)
    run("ar", "rD", archive, os.path.join(room, "heap.pic.o"), stderr=subprocess.DEVNULL)


def make_shared(archive, shared, room):
    """The shared library of an archive, which exports the calls of the header."""
    exported = os.path.join(room, "exported.map")
    building.write(exported, "{ global: a429_*; local: *; };\n")
    needed = ["-Wl,--undefined=" + name for name in sorted(header_calls())]
    run(COMPILER, "-shared", "-s", "-Wl,-soname," + SHARED, "-Wl,--gc-sections", "-Wl,--version-script=" + exported, *needed,
        archive, "-o", shared)


def pkg_config(prefix, libraries, headers):
    """The text of a429.pc, with the folders of the libraries and of the header below the prefix."""
    return (f"prefix={prefix}\nlibdir=${{prefix}}/{libraries}\nincludedir=${{prefix}}/{headers}\n\n"
            f"Name: a429\nDescription: The machine of an ARINC 429 data concentrator\nVersion: {repository.version()}\n"
            "Libs: -L${libdir} -la429\nCflags: -I${includedir}\n")
