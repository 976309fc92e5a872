"""A copy of the crates base and rules, in which the checker computes rows or meets a wrong definition."""
import os
import shutil
import subprocess
import tempfile

TOP = os.path.dirname(os.path.dirname(os.path.dirname(os.path.abspath(__file__))))
# Outside the checkout, where rt ci refuses a second crates.txt; each checkout has its own.
WORKSPACES = os.path.join(tempfile.gettempdir(), "kelonbaro-antt", TOP.strip(os.sep).replace(os.sep, "-"))
TABLES = ("Examples", "Edges", "JobEdges")


def copy(name, tables):
    """A fresh workspace of that name: the specs alone of rules (its laws are not asked here), with its tables or without.
    Only what the checker kept of earlier runs, in each crate's out/, stays."""
    top = os.path.join(WORKSPACES, name)
    crates = os.path.join(top, "crates")
    for crate in os.listdir(crates) if os.path.isdir(crates) else []:
        for part in os.listdir(os.path.join(crates, crate)):
            if part != "out":
                shutil.rmtree(os.path.join(crates, crate, part))
    for crate in ("base", "rules"):
        left_out = shutil.ignore_patterns("must-fail", "out", *["proofs"] * (crate == "rules"))
        shutil.copytree(os.path.join(TOP, "crates", crate), os.path.join(crates, crate), ignore=left_out, dirs_exist_ok=True)
    write(top, "crates.txt", "base:\nrules: base\n")
    for table in TABLES:
        keep(top, table, tables)
    return top


def keep(top, table, wanted):
    """Puts a table of rules into the workspace, or takes it out."""
    specs = os.path.join(top, "crates", "rules", "specs")
    path = os.path.join(specs, table + ".antt")
    lib = open(os.path.join(specs, "Lib.antt"), encoding="utf-8").read().split("\n")
    lines = [line for line in lib if line and line != "pub mod " + table]
    if wanted:
        shutil.copy(os.path.join(TOP, "crates", "rules", "specs", table + ".antt"), path)
        lines.append("pub mod " + table)
    elif os.path.exists(path):
        os.remove(path)
    write(specs, "Lib.antt", "\n".join(lines) + "\n")


def write(folder, name, text):
    os.makedirs(folder, exist_ok=True)
    with open(os.path.join(folder, name), "w", encoding="utf-8") as out:
        out.write(text)


def check(top, crate):
    """Checks a crate over those below it: the status of `rt check` (0 proved, 1 refused, else not judged), and all that it said."""
    done = subprocess.run(["rt", "check"], cwd=os.path.join(top, "crates", crate), capture_output=True, text=True)
    return done.returncode, done.stdout + done.stderr
