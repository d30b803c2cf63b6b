"""Values as they are written in JSON."""
from __future__ import annotations

import json
from collections.abc import Iterable
from typing import Any


class Written(str):
    """The JSON of a value. Thousands of small values take longer to make, and then to write, than to write at once."""


def written(value: Any) -> Written:
    """The JSON of a value, in one line."""
    if isinstance(value, Written):
        return value
    return Written(json.dumps(value, ensure_ascii=False, check_circular=False, separators=(",", ":")))


def joined(parts: Iterable[str]) -> Written:
    """The JSON of a list of values that are written."""
    return Written(f"[{','.join(parts)}]")
