"""Words that both command lines have."""

import argparse
from typing import Tuple


def broker_at(text: str) -> Tuple[str, int]:
    host, _, port = text.partition(":")
    if not host or port and not (port.isdigit() and 0 < int(port) < 65_536):
        raise argparse.ArgumentTypeError(f"{text!r} is no HOST or HOST:PORT")
    return host, int(port or 1883)
