#!/usr/bin/env python3
"""mutants.py [FROM [TO]]: puts each small wrong definition of mutants.txt into crate rules, one at a time, and says which of them no table refuses.
A line of mutants.txt is `FILE ⇒ TEXT ⇒ WRONG TEXT`; the text stands once in specs/FILE.antt. FROM and TO choose lines by number.
A table refuses where the checker finds fault with the `refl` of its claims alone: a wrong text that does not check is no refusal."""
import os
import re
import sys

import workspace

HERE = os.path.dirname(os.path.abspath(__file__))
# The table of jobs is dear, and is asked only where these definitions are wrong.
OF_JOBS = ("Limits", "Text", "Job", "Lines")
# Words that a wrong text uses and its file may not, with their names in a `use` line.
WORDS = {"+": "◌+◌", "true": "true", "false": "false"}


def mutants():
    lines = open(os.path.join(HERE, "mutants.txt"), encoding="utf-8").read().split("\n")
    return [line.split(" ⇒ ") for line in lines if line and not line.startswith("#")]


def with_words(text, new):
    """The text of a file, with a `use` line for each word of the library in the wrong text that the file has no use for itself."""
    brought = {name.strip() for names in re.findall(r"^use .*\{(.*)\}", text, re.M) for name in names.split(",")}
    wanted = [name for word, name in WORDS.items() if word in re.findall(r"[^\s(){};,]+", new) and name not in brought]
    return text.replace("\nuse ", "\nuse Rattle.std.specs.Prelude.{%s}\nuse " % ", ".join(wanted), 1) if wanted else text


def errors(said):
    return [line for line in said.split("\n") if re.match(r"(\S+ )?error\b", line)]


def first_error(said):
    return (errors(said) or [said[-400:]])[0][:400]


def claims_refused(top, said):
    """The claims of tables that the checker refuses, as TABLE.CLAIM; None if it finds fault with anything else."""
    found = []
    for line in errors(said):
        at = re.match(r"\./specs/(\w+)\.antt:(\d+):\d+: error: `(\w+)`: ", line)
        if not at or at[1] not in workspace.TABLES:
            return None
        table = open(os.path.join(top, "crates", "rules", "specs", at[1] + ".antt"), encoding="utf-8").read().split("\n")
        if table[int(at[2]) - 1] != at[3] + " = refl":
            return None
        found.append(f"{at[1]}.{at[3]}")
    return found


def verdict(top, file, old, new):
    workspace.keep(top, "JobEdges", file in OF_JOBS)
    path = os.path.join(top, "crates", "rules", "specs", file + ".antt")
    text = open(path, encoding="utf-8").read()
    if text.count(old) != 1:
        return "BAD: the text stands %d times" % text.count(old)
    workspace.write(os.path.dirname(path), file + ".antt", with_words(text, new).replace(old, new))
    status, said = workspace.check(top, "rules")
    workspace.write(os.path.dirname(path), file + ".antt", text)
    if status == 0:
        return "LIVES"
    refused = claims_refused(top, said)
    if status != 1 or not refused:
        return "BAD: refused, but by no row: " + first_error(said)
    return "refused by " + ", ".join(refused)


def main():
    chosen = mutants()
    first = int(sys.argv[1]) if len(sys.argv) > 1 else 0
    last = int(sys.argv[2]) if len(sys.argv) > 2 else len(chosen)
    top = workspace.copy("mutants%d" % first, tables=True)
    status, said = workspace.check(top, "rules")
    if status:
        sys.exit("the definitions are not proved as they stand: " + first_error(said))
    living = 0
    for number, (file, old, new) in list(enumerate(chosen))[first:last]:
        found = verdict(top, file, old, new)
        living += not found.startswith("refused")
        print(number, found, "|", file, "|", old, "⇒", new, flush=True)
    print("%d wrong definitions, %d not refused" % (last - first, living))
    sys.exit(1 if living else 0)


if __name__ == "__main__":
    main()
