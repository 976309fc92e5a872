#!/usr/bin/env python3
"""unfolding.py: writes crates/rules/specs/Computes.antt, the list of all definitions by which a row computes, from what the other files declare.
Run it after a definition was added, renamed or taken away."""
import os
import re

TOP = os.path.dirname(os.path.dirname(os.path.dirname(os.path.abspath(__file__))))
SPECS = os.path.join(TOP, "crates", "rules", "specs")
BASE = os.path.join(TOP, "crates", "base", "specs")
# Files whose definitions no row computes with: this list, the tables, and the working forms that only proofs use.
LEFT_OUT = ("Computes", "Examples", "Edges", "JobEdges", "Accepted", "Ranks")


def modules(folder):
    text = open(os.path.join(folder, "Lib.antt"), encoding="utf-8").read()
    return re.findall(r"^pub mod (\S+)", text, re.M)


def declared(folder, module):
    """The names that a module lets others unfold."""
    text = open(os.path.join(folder, module + ".antt"), encoding="utf-8").read()
    return re.findall(r"^unfoldable pub (\S+) :", text, re.M)


def main():
    texts = [open(os.path.join(SPECS, m + ".antt"), encoding="utf-8").read() for m in modules(SPECS) if m not in LEFT_OUT]
    cited = sorted(set(re.findall(r"^use Rattle\.base\.specs\.([A-Z]\w*)\.\{", "\n".join(texts), re.M)))
    from_base = [(f"Rattle.base.specs.{m}", declared(BASE, m)) for m in cited if m != "declared"]
    from_rules = [(f"Rattle.rules.specs.{m}", declared(SPECS, m)) for m in modules(SPECS) if m not in LEFT_OUT]
    used = [(m, names) for m, names in from_base + from_rules if names]
    lines = [
        "-- All definitions by which a row computes, named once: a proof by computing says `unfolding computes`. Written by oracle/antt/unfolding.py.",
        "use Rattle.std.specs.Prelude.{ℕ}",
        "use mathlib.Core.List.{flatten}",
        "use Rattle.std.specs.Float.Ieee.{of_bits, lt}",
    ]
    lines += ["use %s.{%s}" % (m, ", ".join(names)) for m, names in used]
    lines += ["", "unfoldable pub computes : ℕ", "unfolding flatten of_bits lt"]
    lines += ["    " + " ".join(names) for _, names in used]
    lines += ["computes = 0", ""]
    with open(os.path.join(SPECS, "Computes.antt"), "w", encoding="utf-8") as out:
        out.write("\n".join(lines))


if __name__ == "__main__":
    main()
