"""A program's stored run: the files stdin, args, status, data/ and stdout next to its src/, as `rt ci` reads them."""
import difflib
import shutil
import subprocess
import tempfile

import processes
from quick import TOP

# What `rt ci` gives a program, in seconds
SECONDS = 120


class StoredRun:
    def __init__(self, crate):
        def read(name):
            return (crate / name).read_bytes() if (crate / name).is_file() else b""
        self.crate, self.stdin, self.stdout = crate, read("stdin"), read("stdout")
        self.words = [word for word in read("args").decode().split("\n") if word]
        self.status = int(read("status") or 0)

    def play(self, program, seconds=SECONDS):
        """Runs the program where its data lies.

        Returns its output, the end of what it complained of, and its status, which is None after too long a time.
        """
        with tempfile.TemporaryDirectory(prefix="stored-") as room:
            if (self.crate / "data").is_dir():
                shutil.copytree(self.crate / "data", room, dirs_exist_ok=True)
            pipes = {"stdin": subprocess.PIPE, "stdout": subprocess.PIPE, "stderr": subprocess.PIPE}
            child = processes.begin([program, *self.words], cwd=room, **pipes)
            try:
                printed, complained = child.communicate(self.stdin, seconds)
                status = child.returncode
            except subprocess.TimeoutExpired:
                printed, complained, status = b"", b"", None
            finally:
                processes.end(child)
        if processes.stopped.is_set():
            raise processes.Stopped
        return printed, complained.decode(errors="replace")[-1000:], status

    def fault(self, printed, complained, status):
        """What is wrong with a run, or nothing."""
        if status is None:
            return f"not done after {SECONDS} seconds"
        found = []
        if status != self.status:
            found += [f"status {status}, and not {self.status}"] + complained.splitlines()[-5:]
        if printed != self.stdout:
            found += difference(self.stdout, printed)
        return "\n".join(found)


def difference(wanted, printed, count=12):
    """The first lines of the difference of two outputs."""
    wanted, printed = (text.decode(errors="replace").splitlines() for text in (wanted, printed))
    pairs = enumerate(zip(wanted, printed))
    first = next((at for at, pair in pairs if pair[0] != pair[1]), min(len(wanted), len(printed)))
    part = slice(max(0, first - 2), first + 200)
    lines = list(difflib.unified_diff(wanted[part], printed[part], "stdout", "printed", n=2, lineterm=""))
    return [f"the output differs from line {first + 1} on:"] + lines[:count] + ["..."] * (len(lines) > count)


def programs():
    """The folders of the programs, by name."""
    folders = [path.parent.parent for path in sorted((TOP / "crates").glob("*/src/main.rt"))]
    return {folder.name: folder for folder in folders}
