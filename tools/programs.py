"""Where tools find the built programs: in the folder of their word `--bin`, or in bin/, which `tools/install` makes. And how they build one over the library for C."""
import os
import pathlib
import subprocess

TOP = pathlib.Path(__file__).resolve().parent.parent


def take_folder(words):
    """Adds the word --bin to the words of a tool."""
    words.add_argument("--bin", default=str(TOP / "bin"), metavar="DIR", help="the folder of the built programs (default: bin/)")


def program(folder, name):
    """The whole path of the built program `name`; without one, ends with the way to build it."""
    path = os.path.abspath(os.path.join(folder, name))
    if not os.path.isfile(path):
        raise SystemExit(f"there is no program {path}: tools/install --quick makes errands, fleet and depot in bin/")
    return path


def take_library(words):
    """Adds the word --dir to the words of a tool."""
    words.add_argument("--dir", type=pathlib.Path, default=TOP / "build_c", help="the folder of the library for C (default: build_c/)")


def linked(source, folder, room):
    """The path of the program in the folder `room` that g++ makes of a C++ source and the library in `folder`; without one, ends with the way to build it."""
    library = folder / "libnashirudder.a"
    if not library.is_file():
        raise SystemExit(f"there is no library {library}: tools/build_c --quick makes it in build_c/")
    made = pathlib.Path(room) / source.stem
    flags = ("-std=c++17", "-O2", "-Wall", "-Wextra", "-Wpedantic", "-I", TOP / "bindings" / "c")
    subprocess.run(["g++", *flags, source, library, "-lpthread", "-lm", "-o", made], check=True)
    return made
