"""A gateway to a fleet: HTTP, WebSocket and a page in a browser, in front of the program `fleet live`. docs/GATEWAY.md
has its use, its statuses and what it defends against."""

__version__ = "0.1.0"
