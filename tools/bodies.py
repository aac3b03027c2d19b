#!/usr/bin/env python3
"""Lists the functions of a built crate by the length of their bodies, the longest first: python3 tools/bodies.py CRATE

What a function drops at each way out is written out in its body, so this says without a check which functions are slow
to prove: on the machine of bench/README.md 40 statements take half a second, 200 some eight seconds.
"""

import json
import pathlib
import sys

top = pathlib.Path(__file__).resolve().parent.parent


def statements(body):
    """Returns how many statements a body has, in all its branches."""
    if isinstance(body, dict):
        return sum(map(statements, body.values()))
    if not isinstance(body, list):
        return 0
    own = len(body) - 1 if body[:1] == ["Seq"] else 0
    return own + sum(map(statements, body))


def bodies(crate):
    """Returns each function of the crate, its drops left out, with its statements."""
    file = top / "crates" / crate / "out" / "rlib" / f"{crate}.rlib" / "toolchain" / "mir.json"
    for name, function in json.loads(file.read_text()):
        if name.startswith(f"{crate}::") and "+" not in name:
            yield statements(function.get("body")), name


if __name__ == "__main__":
    if len(sys.argv) != 2:
        sys.exit(__doc__)
    try:
        longest = sorted(bodies(sys.argv[1]), reverse=True)
    except FileNotFoundError:
        sys.exit(f"{sys.argv[1]} is not built: try `rt lib {sys.argv[1]}` in its folder")
    for count, name in longest[:40]:
        print(f"{count:6} {name}")
    print(f"{sum(count for count, _ in longest):6} in {len(longest)} functions")
