"""Where the program `fleet` and the library are found. The first place that has what is looked for is taken:

1. `built`, an argument of each class: the program or the library itself, or a folder that has it; 2. the folder that
the environment variable NASHIRUDDER_DIR names; 3. the package itself, if it came as a wheel of `tools/wheel`, which has
both; the folder that this Python is installed in (`sys.prefix`: of a virtual environment its own), and the clone of
Nashirudder whose `bindings/python` this package is; 4. the program: the folders in PATH. The library: where the system
looks (as in /usr/local/lib, or LD_LIBRARY_PATH).

Of a folder itself and `bin/`, `lib/`, `lib64/` and `build_c/` below it are looked at: so it may be the PREFIX of
`tools/install_c`, the folder `bin` or `build_c` of a clone, or the clone. Where `built` is given no other place is
looked at.
"""

import os
import pathlib
import shutil
import sys
from typing import List, Optional, Sequence, Union

from .errors import Missing

Place = Union[str, "os.PathLike[str]"]

VARIABLE = "NASHIRUDDER_DIR"
PROGRAM = ("fleet",)
# The number after .so is that of the binary interface, which this package is written for
SONAME = "libnashirudder.so.0.1"
LIBRARY = (SONAME, "libnashirudder.so")

_TO_GET_PROGRAM = "`tools/install --quick fleet` in a clone of Nashirudder builds it as bin/fleet, in some minutes"
_TO_GET_LIBRARY = (
    "`tools/build_c --quick` in a clone of Nashirudder builds it in build_c/, in some minutes, and "
    "`tools/install_c PREFIX` installs it"
)
_TO_NAME = f"name it by the argument `built`, or its folder by {VARIABLE}"


def _in_folder(folder: pathlib.Path, names: Sequence[str]) -> Optional[pathlib.Path]:
    """The first of these files that the folder, or a usual folder below it, has."""
    for below in (".", "bin", "lib", "lib64", "build_c"):
        for name in names:
            path = folder / below / name
            if path.is_file():
                return path.absolute()
    return None


def _folders() -> List[pathlib.Path]:
    """The folders to look at, if no other one is named."""
    found = [pathlib.Path(__file__).resolve().parent / "built", pathlib.Path(sys.prefix)]
    named = os.environ.get(VARIABLE)
    if named:
        found.insert(0, pathlib.Path(named))
    clone = list(pathlib.Path(__file__).resolve().parents)[3:4]
    return found + [folder for folder in clone if (folder / "crates.txt").is_file()]


def _named(built: Place, names: Sequence[str], what: str, way: str) -> str:
    """What an argument names."""
    path = pathlib.Path(built)
    if path.is_dir():
        found = _in_folder(path, names)
        if found is None:
            raise Missing(f"the folder {path} does not have {what}: {way}")
        return str(found)
    if not path.is_file():
        raise Missing(f"{path}, which should be {what}, is not there: {way}")
    return str(path.absolute())


def _looked_for(names: Sequence[str]) -> Optional[str]:
    places = (_in_folder(folder, names) for folder in _folders())
    return next((str(place) for place in places if place is not None), None)


def program(built: Optional[Place] = None) -> str:
    """The path of the program `fleet`. Raises Missing if it is in none of these places."""
    if built is not None:
        return _named(built, PROGRAM, "the program `fleet`", _TO_GET_PROGRAM)
    found = _looked_for(PROGRAM) or shutil.which(PROGRAM[0])
    if found is None:
        looked = ", ".join(map(str, _folders()))
        way = f"{_TO_GET_PROGRAM}; then {_TO_NAME}, or put it on PATH"
        raise Missing(f"the program `fleet` is not in {looked} or PATH. {way}")
    return found


def library(built: Optional[Place] = None) -> str:
    """The path of the shared library, or its name alone if the system has to look for it. Raises Missing if `built`
    does not have it.
    """
    if built is not None:
        return _named(built, LIBRARY, SONAME, _TO_GET_LIBRARY)
    return _looked_for(LIBRARY) or SONAME


def no_library(path: str, why: object) -> Missing:
    """What to raise where the library at this path, or of this name, cannot be loaded."""
    if path != SONAME:
        return Missing(f"the library {path} cannot be loaded: {why}")
    looked = ", ".join(map(str, _folders()))
    way = f"{_TO_GET_LIBRARY}; then {_TO_NAME}"
    return Missing(f"the library {SONAME} is not in {looked} or where the system looks. {way}")
