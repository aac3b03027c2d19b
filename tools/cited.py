#!/usr/bin/env python3
"""Lists which crates cite lemmas in proofs/ of another crate, but for the three crates whose lemmas are made to be cited
and for laws that cite laws: each such lemma is a clause that a contract lacks."""

import pathlib
import re
import textwrap

MADE_TO_BE_CITED = {"crsm_base", "crsm_fact_log", "crsm_fact_step"}
top = pathlib.Path(__file__).resolve().parent.parent


def rooms():
    """Returns the room of each crate, the lowest room first."""
    found, room = {}, ""
    for line in (top / "crates.txt").read_text().splitlines():
        if heading := re.match(r"## (\w+):", line):
            room = heading[1]
        elif crate := re.match(r"crsm\w*", line):
            found[crate[0]] = room
    return found


def imports(crate):
    """Yields each crate and module whose proofs a file of this crate imports, once an import."""
    for part in ("src", "specs", "proofs"):
        for file in sorted((top / "crates" / crate / part).rglob("*")):
            if file.suffix in (".rt", ".antt"):
                yield from re.findall(r"use Rattle\.(crsm\w*)\.proofs\.(\w+)", file.read_text())


def main():
    room_of = rooms()
    count = of_three = of_laws = 0
    cited = {}
    for crate, room in room_of.items():
        for other, module in imports(crate):
            if other == crate:
                continue
            count += 1
            if other in MADE_TO_BE_CITED:
                of_three += 1
            elif room == room_of[other] == "law":
                of_laws += 1
            else:
                modules, by = cited.setdefault(other, (set(), {}))
                modules.add(module)
                by[crate] = True
    print(f"{count} imports from proofs/ of another crate: {of_three} of the three, {of_laws} of laws by laws,")
    print(f"and {count - of_three - of_laws} of these modules by these crates:")
    for crate in (it for it in room_of if it in cited):
        modules, by = cited[crate]
        line = f"{crate} {{{', '.join(sorted(modules))}}} by {', '.join(by)}"
        print(textwrap.fill(line, 120, subsequent_indent="  ", break_long_words=False))


main()
