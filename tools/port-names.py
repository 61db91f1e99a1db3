#!/usr/bin/env python3
"""Brings the names of definitions and lemmas to today's spelling, by the table port-names.txt: OLD NEW, a line each.

usage: python3 tools/port-names.py ROOT    rewrites the .rt and .antt files of ROOT/crates, once, after the kit's port.py

Only whole names are replaced. Names of src/ (functions, types, constants) and exported names are not in the table.
"""
import os
import re
import sys

HERE = os.path.dirname(os.path.realpath(__file__))
NAME = re.compile(r"[^\s(){}\[\].,:;λ→∷×@\"`=|]+")
# One lemma would meet a definition of its file under the new spelling.
ALONE = {"crates/basis/specs/First.antt": {"add_left": "add_left_alone"}}


def main(root):
    with open(os.path.join(HERE, "port-names.txt"), encoding="utf-8") as f:
        table = dict(line.split() for line in f)
    for folder, dirs, files in os.walk(os.path.join(root, "crates")):
        dirs[:] = [d for d in dirs if d != "out"]
        for name in files:
            if not name.endswith((".rt", ".antt")):
                continue
            path = os.path.join(folder, name)
            here = table | ALONE.get(os.path.relpath(path, root), {})
            with open(path, encoding="utf-8") as f:
                old = f.read()
            new = NAME.sub(lambda m: here.get(m.group(0), m.group(0)), old)
            if new != old:
                with open(path, "w", encoding="utf-8") as f:
                    f.write(new)


main(sys.argv[1])
