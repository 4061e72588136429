"""What the gateway refuses, by status and word."""

from typing import Optional

from nashirudder.names import sentence_of

# of a verdict, or of a line that was not taken; all others are 409
_STATUS_OF = {"queue-full": 429, "no-robot": 404, "no-errand": 404, "no-cell": 422, "blocked": 422, "unreachable": 422}
_SENTENCES = {
    "token": "no client has this token",
    "origin": "the Origin is not this gateway's",
    "host": "the Host is not this gateway's: --name names further ones",
    "operator": "this is for operators",
    "no-route": "there is nothing at this path, or not by this method",
    "not-json": "the body is not JSON in UTF-8",
    "not-application/json": "the Content-Type is not application/json",
    "too-long": "the body is too long",
    "too-slow": "the body did not come in time",
    "key": "an Idempotency-Key has 1 to 128 printable characters of ASCII without blanks",
    "key-reused": "this key was posted with another errand",
    "rate": "the client posts faster than it may",
    "too-many-open": "the client has as many open errands as it may",
    "too-many-sockets": "the client has as many WebSockets as it may",
    "not-ready": "the fleet is starting: the errand was not taken",
    "behind": "the fleet or the disk is behind: a post with a key may be repeated",
    "full": "the gateway has as many open errands as it may",
    "no-vehicles": "the gateway was started without --mqtt",
    "no-socket": "this path is for WebSockets",
}


class Refusal(Exception):
    """`wait` is how many seconds later the same request may succeed, if that is so."""

    def __init__(self, status: int, error: str, detail: str = "", wait: Optional[float] = None) -> None:
        super().__init__(error)
        self.status, self.error, self.wait = status, error, wait
        self.detail = detail or _SENTENCES.get(error) or sentence_of(error) or error

    def view(self) -> dict:
        return {"error": self.error, "detail": self.detail}


def of_verdict(verdict: str) -> Refusal:
    """The refusal that a verdict is."""
    status = _STATUS_OF.get(verdict, 409)
    return Refusal(status, verdict, wait=1.0 if status == 429 else None)
