"""The gateway's clients: tokens, and how much each may do. The file of tokens is TOML:

    [client.alice]
    sha256 = "2bb80d53..."      # of the token's bytes; `nashirudder-gateway token` makes both
    open = 1000                 # errands that may be open at once
    rate = 100                  # posts in a second
    sockets = 16                # WebSockets at once

    [operator.ops]
    sha256 = "9f86d081..."
"""

import hashlib
import hmac
import pathlib
import re
import secrets
import time
import tomllib
from dataclasses import dataclass, field
from typing import List, Optional


class BadTokens(Exception):
    """The file of tokens is not as it has to be."""


@dataclass(eq=False)
class Client:
    """An operator is a client that also reads all errands, shuts robots and ends chapters."""

    name: str
    sha256: bytes
    is_operator: bool = False
    open: int = 1000
    rate: float = 100.0
    sockets: int = 16
    _left: float = field(default=0.0, init=False)
    _at: float = field(default=0.0, init=False)

    def __post_init__(self) -> None:
        self._left = self.rate

    def wait(self, now: Optional[float] = None) -> float:
        """Takes one post of the rate, and returns 0; or takes nothing, and returns the seconds until there is one."""
        now = time.monotonic() if now is None else now
        self._left = min(self.rate, self._left + (now - self._at) * self.rate) if self._at else self._left
        self._at = now
        if self._left >= 1:
            self._left -= 1
            return 0.0
        return (1 - self._left) / self.rate


def anyone() -> Client:
    """Who posts where there are no tokens: whoever reaches the port of this machine."""
    return Client("anyone", b"", is_operator=True, open=60_000, rate=1e6, sockets=1000)


class Clients:
    """All clients. Without a file of tokens everybody is `anyone`."""

    def __init__(self, clients: Optional[List[Client]] = None) -> None:
        self._clients = clients
        self._anyone = anyone() if clients is None else None

    @property
    def has_tokens(self) -> bool:
        return self._clients is not None

    def of(self, token: str) -> Optional[Client]:
        """Whose token it is. It takes as long for a wrong token as for a right one."""
        if self._clients is None:
            return self._anyone
        given, found = hashlib.sha256(token.encode()).digest(), None
        for client in self._clients:
            if hmac.compare_digest(given, client.sha256):
                found = client
        return found


def read(path: pathlib.Path) -> Clients:
    """The clients of a file of tokens. Raises BadTokens."""
    try:
        told = tomllib.loads(path.read_text())
    except (OSError, ValueError) as error:
        raise BadTokens(f"{path}: {error}") from error
    clients = []
    for kind, group in told.items():
        if kind not in ("client", "operator") or not isinstance(group, dict):
            raise BadTokens(f"{path}: {kind!r} is neither client nor operator")
        clients += [_client(path, name, kind == "operator", words) for name, words in group.items()]
    if not clients or len({it.sha256 for it in clients}) < len(clients) or len({it.name for it in clients}) < len(clients):
        raise BadTokens(f"{path}: it has no client, or two with one name or token")
    return Clients(clients)


def _client(path: pathlib.Path, name: str, is_operator: bool, words: object) -> Client:
    if not isinstance(words, dict) or not re.fullmatch("[0-9a-f]{64}", str(words.get("sha256"))):
        raise BadTokens(f"{path}: {name} has no sha256 of 64 digits from 0 to f")
    limits = {word: number for word, number in words.items() if word != "sha256"}
    for word, number in limits.items():
        if word not in ("open", "rate", "sockets") or type(number) not in (int, float) or not 1 <= number <= 1e6:
            raise BadTokens(f"{path}: {name}: {word} is no limit, or not from 1 to 1,000,000")
    return Client(name, bytes.fromhex(words["sha256"]), is_operator, **limits)


def new_token(name: str, is_operator: bool = False) -> str:
    """A new token and its lines for the file of tokens."""
    token = secrets.token_urlsafe(32)
    kind = "operator" if is_operator else "client"
    return f'# token: {token}\n[{kind}.{name}]\nsha256 = "{hashlib.sha256(token.encode()).hexdigest()}"\n'
