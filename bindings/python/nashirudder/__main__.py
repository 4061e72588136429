"""`python3 -m nashirudder WORD ..` is the program `fleet`, wherever it is found (`nashirudder.finding`)."""

import os
import sys

from . import finding
from .errors import Missing


def main() -> None:
    try:
        program = finding.program()
    except Missing as missing:
        sys.exit(f"nashirudder: {missing}")
    os.execv(program, ["fleet", *sys.argv[1:]])


if __name__ == "__main__":
    main()
