#!/usr/bin/env python3
"""Brings the wrong definitions of oracle/antt/mutants.txt to the text that stands today, by the words that turn_edits.py learns.

usage: python3 turn_mutants.py COMMIT [TOP]

COMMIT is the one before port.py. A line is `FILE ⇒ TEXT ⇒ WRONG TEXT`, of crates/rules/specs/FILE.antt. A line whose TEXT then does not stand
exactly once is printed: mend it by hand. Comments are left as they are. A second run changes nothing.
"""
import os
import re
import subprocess
import sys

from turn_edits import learned, tight


def main():
    commit, top = sys.argv[1], os.path.abspath(sys.argv[2] if len(sys.argv) > 2 else ".")
    path = os.path.join(top, "oracle/antt/mutants.txt")
    with open(path, encoding="utf-8") as f:
        lines = f.read().split("\n")
    files, changed = {}, 0
    for k, line in enumerate(lines):
        if not line or line.startswith("#"):
            continue
        file, *texts = line.split(" ⇒ ")
        if file not in files:
            at = f"crates/rules/specs/{file}.antt"
            with open(os.path.join(top, at), encoding="utf-8") as f:
                now = f.read()
            before = subprocess.run(["git", "-C", top, "show", f"{commit}:{at}"], capture_output=True, text=True, check=True).stdout
            files[file] = now, learned(before, now)
        now, words = files[file]
        if now.count(texts[0]) != 1:
            texts = [re.sub(r"[^\s(){}.;,@\"«»]+", lambda w: words.get(w[0], w[0]), tight(text)) for text in texts]
        if now.count(texts[0]) != 1:
            print(f"look: {k + 1}: stands {now.count(texts[0])} times in {file}: {texts[0]}")
        lines[k] = " ⇒ ".join([file, *texts])
        changed += lines[k] != line
    with open(path, "w", encoding="utf-8") as f:
        f.write("\n".join(lines))
    print(f"turn_mutants: {changed} lines changed")


main()
