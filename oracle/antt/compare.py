#!/usr/bin/env python3
"""compare.py [--most N] [FILE | FOLDER]: lets the checker compute the definitions of crate rules on inputs whose answers are known.
A FOLDER holds stored vectors (default: crates/replay/data); a FILE holds rows of `oracle antt SEED COUNT`. Each row becomes an
equation `definition of the input ≡ answer` in a crate of a workspace in the folder for temporary files, closed by `refl`. Says how many rows of each kind held and
which did not. --most: rows of each kind that are taken of stored vectors (default 150)."""
import argparse
import os
import re
import sys
from collections import Counter

import vectors
import workspace

USES = """use Rattle.std.specs.Prelude.{◌≡◌, refl, true, false, [], ◌∷◌}
use Rattle.std.specs.Float.{binary64}
use Rattle.std.specs.Float.Ieee.{of_bits}
use Rattle.rules.specs.Text.{text}
use Rattle.rules.specs.Script.{looks}
use Rattle.rules.specs.Moves.{looks_by_moves}
use Rattle.rules.specs.Place.{minimizer_by_scoring, interval_by_scoring}
use Rattle.rules.specs.Finder.{minimizer_found, interval_found}
use Rattle.rules.specs.Refusals.{minimizer_call, interval_call, script_call, minimizer_finder_call, interval_finder_call}
use Rattle.rules.specs.Lines.{said}
use Rattle.rules.specs.Told.{told_refused, told_done, told_sweep, told_script, told_finder, told_looks, told_candidates}
use Rattle.rules.specs.Calls.{minimizer_premises, interval_premises}
use Rattle.rules.specs.Computes.{computes}

"""
IN_ONE_FILE = 250


def written(path):
    """The rows of a file of `oracle antt`."""
    for line in open(path, encoding="utf-8"):
        name, equation = line.rstrip("\n").split(" : ", 1)
        given, wanted = equation.rsplit(" ≡ ", 1)
        yield name, given, wanted


def lay_out(top, rows):
    """A crate `rows` that claims them all."""
    folder = os.path.join(top, "crates", "rows")
    workspace.write(os.path.join(folder, "src"), "lib.rt", "// Rows only.\n")
    workspace.write(top, "crates.txt", "base:\nrules: base\nrows: base rules\n")
    files = [rows[i : i + IN_ONE_FILE] for i in range(0, len(rows), IN_ONE_FILE)]
    for number, some in enumerate(files):
        claims = [f"{name} : {given} ≡ {wanted}\nunfolding computes\n{name} = refl\n" for name, given, wanted in some]
        workspace.write(os.path.join(folder, "specs"), f"Rows{number}.antt", USES + "\n".join(claims))
    lib = "".join(f"pub mod Rows{number}\n" for number in range(len(files)))
    workspace.write(os.path.join(folder, "specs"), "Lib.antt", lib)


def kind(name):
    return re.match(r"[a-z]+", name).group(0)


def main():
    parser = argparse.ArgumentParser(description=__doc__)
    parser.add_argument("--most", type=int, default=150)
    parser.add_argument("rows", nargs="?", default=os.path.join(workspace.TOP, "crates", "replay", "data"))
    options = parser.parse_args()
    source = vectors.rows(options.rows, options.most) if os.path.isdir(options.rows) else written(options.rows)
    rows = list(source)
    top = workspace.copy("compare", tables=False)
    lay_out(top, rows)
    status, said = workspace.check(top, "rows")
    wrong = set(re.findall(r"error: `([a-z]+[0-9]+)`", said))
    of_all, of_wrong = Counter(kind(name) for name, _, _ in rows), Counter(map(kind, wrong))
    for name in of_all:
        print("%-22s %5d rows, %d wrong" % (name, of_all[name], of_wrong[name]))
    for name in sorted(wrong):
        print("WRONG", name)
    if status and not wrong:
        print(said[-3000:])
    print("%d rows, %d wrong" % (len(rows), len(wrong)) if not status or wrong else "the checker did not get to the rows")
    sys.exit(1 if status else 0)


if __name__ == "__main__":
    main()
