"""What arguments may be. An error names the argument, and is raised where it was given."""

import math
from collections.abc import Iterable

LAST_NUMBER = 2**64 - 1


def whole(name: str, value: object, most: int = LAST_NUMBER) -> int:
    """Returns a whole number from 0 to `most`. Raises `TypeError` or `ValueError` for anything else."""
    # (true and false count as numbers, and are nobody's)
    if isinstance(value, bool) or not isinstance(value, int):
        raise TypeError(f"{name}: a whole number, not {value!r}")
    if not 0 <= value <= most:
        raise ValueError(f"{name}: a number from 0 to {most}, not {value}")
    return value


def seconds(name: str, value: object, least: float = 0.0) -> float:
    """Returns a number of seconds, `least` or more. Raises `TypeError` or `ValueError` for anything else."""
    if isinstance(value, bool) or not isinstance(value, (int, float)):
        raise TypeError(f"{name}: a number of seconds, not {value!r}")
    if math.isnan(value) or value < least:
        raise ValueError(f"{name}: {least:g} seconds or more, not {value}")
    return value


def listed(name: str, values: object) -> list[object]:
    """Returns the values of a list or of what else has some. Raises `TypeError` for text, and for what has none."""
    if isinstance(values, (str, bytes)) or not isinstance(values, Iterable):
        raise TypeError(f"{name}: a list, not {values!r}")
    return list(values)
