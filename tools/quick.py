"""Builds programs and tests without proofs, optimised, with run-time checks.

`rt try` translates a program and its libraries, with checks in place of proofs, into LLVM bitcode in its temporary
folder, and compiles that without optimisation. Here the bitcode is kept as soon as it is written, `rt` is ended, and
the kit's own clang compiles the bitcode at -O2.
"""
import contextlib
import datetime
import functools
import os
import pathlib
import re
import shutil
import signal
import subprocess
import sys
import tempfile
import time

import processes
from processes import Missing

TOP = pathlib.Path(__file__).resolve().parent.parent
# What `rt try` and clang take at most for the largest program, in bytes
MEMORY = 2_500_000_000
# rt try first has clang compile an empty module, of some hundred bytes; a program has a million and more
SMALLEST = 100_000
# The flags of clang that the kit gives for machine code, optimised
CLANG = ["--target=x86_64-unknown-linux-gnu", "-march=x86-64-v2", "--no-default-config", "-fPIC", "-O2", "-x", "ir"]


# ---- one program

@functools.lru_cache
def kit():
    """The folder of the kit, once all is there that a quick build needs."""
    rt = shutil.which("rt")
    if rt is None:
        raise Missing("rt is not on the path")
    # A kit has its libraries in c/; where rt is a script elsewhere, the path of its first page leads to the kit.
    places = list(pathlib.Path(rt).resolve().parents)
    page = subprocess.run(["rt", "doc"], capture_output=True, text=True, stdin=subprocess.DEVNULL).stdout.strip()
    places += list(pathlib.Path(page).resolve().parents) if page else []
    folder = next((place for place in places if (place / "c" / "libos_c.a").is_file()), None)
    if folder is None:
        raise Missing(f"no folder of a kit, with c/libos_c.a, is above {rt}")
    for part in ("toolchain/bin/clang", "c/liblibc_c.a"):
        if not (folder / part).is_file():
            raise Missing(f"the kit has no {part}")
    if shutil.which("cc") is None:
        raise Missing("there is no C compiler (cc) to link with")
    return folder


def drop_hint(tool):
    """Ends the check that `rt try` runs next to the translation, and that takes as long; returns whether it was there.

    That check looks for reserved names only, and `rt check` and `rt ci` look for them too.
    """
    try:
        children = pathlib.Path(f"/proc/{tool.pid}/task/{tool.pid}/children").read_text().split()
        for child in children:
            if b"\0--start\0no function\0" in pathlib.Path(f"/proc/{child}/cmdline").read_bytes():
                os.kill(int(child), signal.SIGKILL)
                return True
    except (OSError, ValueError):
        pass
    return False


def keep_bitcode(tmp, kept):
    """Links the bitcode as `kept`, if it is in the folder `tmp` and whole."""
    # A folder may be gone before it is read, as long as the translation works.
    with contextlib.suppress(FileNotFoundError):
        for path in tmp.rglob("module.bc"):
            # It is whole once clang has begun to make an object file of it.
            if any(path.parent.glob("module*.o*")) and path.stat().st_size >= SMALLEST:
                os.link(path, kept)


def bitcode(crate, room, tests=False):
    """Has `rt try` write the bitcode of the crate in the folder `crate`; returns its path in the folder `room`."""
    tmp, kept, log = room / "tmp", room / "module.bc", room / "rt.log"
    tmp.mkdir()
    words = ["rt", "try", *["--test"] * tests, "--steps", "1", "--seconds", "1"]
    env = {**os.environ, "TMPDIR": str(tmp)}
    with open(log, "wb") as said:
        tool = processes.begin(words, cwd=crate, env=env, stdin=subprocess.DEVNULL, stdout=said, stderr=said)
    dropped = False
    try:
        while tool.poll() is None and not kept.exists():
            dropped = dropped or drop_hint(tool)
            keep_bitcode(tmp, kept)
            time.sleep(0.01)
    finally:
        processes.end(tool)
        processes.end_those_in(tmp)
        shutil.rmtree(tmp, ignore_errors=True)
    if processes.stopped.is_set():
        raise processes.Stopped
    if not kept.exists():
        raise Missing(f"rt try wrote no bitcode:\n{processes.last_lines(log)}")
    return kept


def clang(module, made, *words):
    """Has the kit's clang make the file `made` of bitcode."""
    processes.need([kit() / "toolchain/bin/clang", *CLANG, *words, module, "-o", made], made.with_suffix(".log"))


def program(crate, made, say, tests=False):
    """Builds the program (or the tests) of the crate in the folder `crate` as the file `made`."""
    name, start = crate.name, time.monotonic()
    with tempfile.TemporaryDirectory(prefix=f".{name}-", dir=made.parent) as room:
        room = pathlib.Path(room)
        say(f"{name}: rt try translates it")
        module = bitcode(crate, room, tests)
        size, took = module.stat().st_size / 1e6, time.monotonic() - start
        say(f"{name}: bitcode of {size:.1f} MB after {took:.0f} s, clang -O2 compiles it")
        code, whole = room / "program.o", room / "program"
        clang(module, code, "-c")
        libraries = [kit() / "c/libos_c.a", kit() / "c/liblibc_c.a", "-lpthread"]
        processes.need(["cc", "-pie", code, *libraries, "-o", whole], room / "cc.log")
        os.replace(whole, made)
        say(f"{name}: built after {time.monotonic() - start:.0f} s")


def how_many():
    """How many programs are built at a time: bounded by the processors and by the memory that is free."""
    lines = open("/proc/meminfo").read().splitlines()
    free = next((int(line.split()[1]) * 1024 for line in lines if line.startswith("MemAvailable")), MEMORY)
    return max(1, min(len(os.sched_getaffinity(0)), free // MEMORY))


# ---- what says how a build was made

def commit():
    """The commit of the sources, and whether they differ from it."""
    def git(*words):
        return subprocess.run(["git", "-C", TOP, *words], capture_output=True, text=True).stdout.strip()
    changed = git("status", "--porcelain", "--", "crates", "crates.txt")
    return (git("rev-parse", "--short=8", "HEAD") or "unknown") + (" with changes" if changed else "")


def describe(readme, names, tool, is_quick, built_of):
    """Says in the file `readme` of each build next to it whether it is proved, when it was made and of which commit."""
    rows = dict(re.findall(r"^\| ([\w.]+) (\|.*)$", readme.read_text(), re.M)) if readme.exists() else {}
    now = datetime.datetime.now(datetime.timezone.utc).strftime("%Y-%m-%d %H:%M UTC")
    kind = "quick: not proved, with run-time checks" if is_quick else "proved"
    rows |= {name: f"| {kind} | {now} | {built_of} |" for name in names}
    lines = [f"| {name} {rows[name]}\n" for name in sorted(rows) if (readme.parent / name).exists()]
    readme.write_text(
        f"Made by {tool}. `{tool}` proves and replaces what is quick; `{tool} --quick` builds without proofs.\n\n"
        "| File | Build | When | Commit |\n|---|---|---|---|\n" + "".join(lines))
