"""The gateway as `python3 -m nashirudder_gateway`."""

import sys

try:
    from .main import main
except ModuleNotFoundError as error:
    if error.name not in ("aiohttp", "pydantic"):
        raise
    sys.exit(f"gateway: {sys.executable} has no {error.name}: apt-get install python3-aiohttp python3-pydantic")

sys.exit(main())
