"""The page, out/a429.html: how it is made of the proved crate a429_page and of the files in page/.

The toolchain makes an LLVM module of the proved crate, and machine code for x86-64 of that. Its own compiler for WebAssembly makes
nothing that allocates, so the page takes this LLVM module. The clang of the toolchain translates it: both machines have addresses of
64 bits and the same sizes, alignments and order of bytes. One instruction of x86-64 becomes the function of page/shuffle.ll. A module
that has something else for x86-64 alone is refused, and so is one that calls a function which the page does not have.
"""
import base64
import gzip
import hashlib
import os
import re
import subprocess
import tempfile

import building
import repository
from building import Failed, Target, write
from repository import ROOT, kit, read, say, sum_of

SOURCES = os.path.join(ROOT, "page")
OUT = os.path.join(ROOT, "out")
PAGE = os.path.join(OUT, "a429.html")
# The scripts of the page, in the order in which they are put together.
SCRIPTS = ("elements", "module", "spreadsheets", "refusals", "files", "plan", "loads", "changes", "judge", "words", "page")
# The functions of other code that the module may call: those of page/heap.c.
HEAP = {"rattle_alloc", "rattle_realloc", "rattle_dealloc"}
# The instruction of x86-64 that the standard library uses, and the function of page/shuffle.ll that does the same.
SHUFFLE, SHUFFLED = "@llvm.x86.ssse3.pshuf.b.128", "@a429_shuffle"
EXPORT = "a429_command"
STACK, LEAST_MEMORY, MOST_MEMORY = 8 << 20, 16 << 20, 4 << 30
LAYOUT = "e-m:e-p:64:64-p10:8:8-p20:8:8-i64:64-i128:128-n32:64-S128"
FLAGS = "--target=wasm64-unknown-unknown -mcpu=lime1 -mbulk-memory -O3 -ffunction-sections -fdata-sections".split()


class PageModule(Target):
    """The LLVM module of the proved crate, crates/a429_page/out/a429_page.bc."""

    def __init__(self):
        super().__init__("a429_page")
        self.compiler = "llvm-module"
        self.made = os.path.join(self.crate.folder, "out", "a429_page.bc")
        self.stamp = os.path.join(self.crate.folder, "out", "module-from")

    def is_of_the_gate(self):
        return False

    def names_logic(self):
        return True

    def has_checks(self):
        """What checks have kept is of no use: the LLVM module is not in it."""
        return False

    def make(self, room):
        """Proves the crate, and keeps the module that the toolchain's compiler is given."""
        kept = os.path.join(room, "kept.bc")
        building.build(self.name, min(2, building.processors()), ["--crate-type", "staticlib", "--toolchain", keeping_toolchain(room, kept),
                                                                  "-o", os.path.join(room, "lib.a")])
        return kept


def keeping_toolchain(room, kept):
    """A folder like that of the toolchain, whose clang copies the LLVM module that it compiles."""
    folder, real = os.path.join(room, "toolchain"), os.path.join(kit(), "toolchain")
    os.makedirs(os.path.join(folder, "bin"))
    for part in os.listdir(real):
        if part != "bin":
            os.symlink(os.path.join(real, part), os.path.join(folder, part))
    for name in os.listdir(os.path.join(real, "bin")):
        if name != "clang":
            os.symlink(os.path.join(real, "bin", name), os.path.join(folder, "bin", name))
    clang = os.path.join(folder, "bin", "clang")
    write(clang, f"""#!/usr/bin/env python3
import os, shutil, sys
for word in sys.argv[1:]:
    if word.endswith(".bc"):
        shutil.copyfile(word, {kept!r})
os.execv({os.path.join(real, "bin", "clang")!r}, ["clang", *sys.argv[1:]])
""")
    os.chmod(clang, 0o755)
    return folder


# ---- From the LLVM module to WebAssembly

def run(*words):
    """Runs a command of the toolchain."""
    ran = subprocess.run([os.path.join(kit(), "toolchain", "bin", words[0]), *words[1:]], capture_output=True, text=True, errors="replace")
    if ran.returncode:
        raise Failed(f"{words[0]} failed:\n{ran.stderr.strip()}")


def refuse_foreign(text):
    """Refuses the text of an LLVM module that has something for x86-64 alone, or that calls what the page does not have."""
    alone = sorted(set(re.findall(r"@llvm\.x86[\w.]*| asm (?:sideeffect )?\"", text)) - {SHUFFLE})
    if alone:
        raise Failed(f"the module has code for x86-64 alone: {' '.join(alone)}")
    declared = set(re.findall(r"^declare [^@]*@\"?([\w.$:]+)", text, re.M))
    foreign = sorted(name for name in declared if not name.startswith("llvm.") and name not in HEAP)
    if foreign:
        raise Failed(f"the module calls functions that the page does not have: {' '.join(foreign)}")


def for_wasm(text):
    """The text of the LLVM module for the other machine: its layout, its target, no features of x86-64, and no instruction of it."""
    text = re.sub(rf"^declare .*{re.escape(SHUFFLE)}\(.*", "", text, flags=re.M).replace(SHUFFLE, SHUFFLED) + source("shuffle.ll")
    text = re.sub(r"^target datalayout = .*", f'target datalayout = "{LAYOUT}"', text, flags=re.M)
    text = re.sub(r"^target triple = .*", 'target triple = "wasm64-unknown-unknown"', text, flags=re.M)
    features = r' ?"(?:probe-stack|stack-probe-size|target-cpu|target-features|tune-cpu)"="[^"]*"'
    return re.sub(r"^attributes .*", lambda line: re.sub(features, "", line[0]), text, flags=re.M)


def compile_module(module, made, room):
    """Compiles the LLVM module, with the heap and the helpers, into a module of WebAssembly."""
    text, objects = os.path.join(room, "module.ll"), [os.path.join(room, "module.o")]
    run("clang", "-x", "ir", module, "-S", "-emit-llvm", "-Xclang", "-disable-llvm-passes", "-o", text)
    said = repository.text_of(text)
    refuse_foreign(said)
    write(text, for_wasm(said))
    run("clang", *FLAGS, "-mllvm", "-expand-div-rem-bits=64", "-mllvm", "-trap-unreachable", "-Wno-override-module", "-c", "-x", "ir", text,
        "-o", objects[0])
    for name in ("heap", "memory", "helpers"):
        objects.append(os.path.join(room, name + ".o"))
        run("clang", *FLAGS, "-std=c11", "-Wall", "-Wextra", "-Werror", "-ffreestanding", "-nostdinc", "-fno-builtin", "-fwrapv",
            "-fno-strict-aliasing", "-c", os.path.join(SOURCES, name + ".c"), "-o", objects[-1])
    run("ld.lld", "-flavor", "wasm", "-mwasm64", "--no-entry", "--import-memory", "--stack-first", "-z", f"stack-size={STACK}",
        f"--initial-memory={LEAST_MEMORY}", f"--max-memory={MOST_MEMORY}", "--gc-sections", "--strip-all", "--fatal-warnings",
        f"--export={EXPORT}", *objects, "-o", made)


# ---- From the parts to one file

def source(*path):
    return repository.text_of(os.path.join(SOURCES, *path))


def script():
    return "".join(source("script", name + ".js") for name in SCRIPTS)


def policy(text):
    """The rule that the browser keeps: only this script runs, and nothing is loaded from anywhere."""
    mark = base64.b64encode(hashlib.sha256(text.encode()).digest()).decode()
    return (f"default-src 'none'; script-src 'sha256-{mark}' 'wasm-unsafe-eval' blob:; worker-src blob:; style-src 'unsafe-inline'; "
            "img-src data: blob:; base-uri 'none'; form-action 'none'")


def page_text(module):
    """The page with these bytes as its module."""
    packed = base64.b64encode(gzip.compress(module, 9, mtime=0)).decode()
    scripts = script()
    parts = {"VERSION": repository.version(), "POLICY": policy(scripts), "STYLE": source("style.css"), "MODULE": packed,
             "WORKER": source("worker.js"), "SCRIPT": scripts}
    return re.sub("@(" + "|".join(parts) + ")@", lambda found: parts[found[1]], source("page.html"))


def stamp():
    """A sum of all that the page is made of."""
    found = hashlib.sha256(sum_of(PageModule().made).encode() + repository.kit_line())
    files = [os.path.join(at, name) for at, _, names in os.walk(SOURCES) for name in names if "tests" not in at]
    for file in sorted([*files, os.path.join(ROOT, "tools", "pages.py"), os.path.join(ROOT, "CHANGELOG.md")]):
        found.update(os.path.relpath(file, ROOT).encode() + b"\0" + hashlib.sha256(read(file)).digest())
    return found.hexdigest()


def build():
    """Proves and makes the page if something that it is made of changed."""
    building.build_target_if_due(PageModule())
    noted = os.path.join(OUT, "page-from")
    if os.path.isfile(PAGE) and repository.text_of(noted) == f"{stamp()} {sum_of(PAGE)}\n":
        return
    say("translating the commands to WebAssembly")
    with tempfile.TemporaryDirectory(dir=OUT) as room:
        made = os.path.join(room, "a429_page.wasm")
        compile_module(PageModule().made, made, room)
        write(os.path.join(room, "a429.html"), page_text(read(made)))
        os.replace(os.path.join(room, "a429.html"), PAGE)
    write(noted, f"{stamp()} {sum_of(PAGE)}\n")
