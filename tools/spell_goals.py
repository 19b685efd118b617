#!/usr/bin/env python3
"""Brings the names of goals and steps in proof files to today's spelling: an identifier of the source keeps its own.

usage: python3 tools/spell_goals.py [CRATE ..]   at the top of the repository, after port.py and spell_names.py
"""
import os
import re
import sys

WORDS = ["overflow_add", "overflow_sub", "overflow_mul", "overflow_shl", "overflow_shr", "overflow_cast", "overflow_step",
         "nonzero_div", "nonzero_rem", "slice_bounds", "offset_bounds", "in_ok", "in_err", "in_default", "invariant_of", "type_inv"]
DASHED = re.compile(r"(?<![\w'-])[A-Za-z_][\w']*(?:[-+][\w']+)+(?![\w'-])")


def read(p):
    with open(p, encoding="utf-8") as f:
        return f.read()


def walk(top, ends):
    for d, dirs, names in os.walk(top):
        dirs[:] = sorted(x for x in dirs if x != "out")
        for n in sorted(names):
            if n.endswith(ends):
                yield os.path.join(d, n)


def main():
    crates = sys.argv[1:] or sorted(os.listdir("crates"))
    idents = set()
    for p in walk("crates", (".rt",)):
        t = re.sub(r"//.*", "", read(p))
        idents |= {w for w in re.findall(r"[a-z][a-z0-9]*(?:_[a-z0-9]+)+", t)}
    idents |= set(WORDS)
    by_dash = {w.replace("_", "-"): w for w in idents}
    # the longest first, and only whole parts of a name
    parts = re.compile(r"(?:(?<=[-+])|^)(%s)(?=[-+]|$)" % "|".join(sorted(map(re.escape, by_dash), key=len, reverse=True)))
    for c in crates:
        for p in walk(os.path.join("crates", c, "proofs"), ("Answers.antt", "Invariants.antt", "Proof.antt")):
            t = read(p)
            library = set()
            for m in re.finditer(r"^use ([\w.+'-]+)\.\{([^}]*)\}", t, re.M):
                if not re.search(r"\.(Goals|Given)$", m.group(1)):
                    library |= {x.strip().split(" as ")[0].strip() for x in m.group(2).split(",")}

            def swap(m):
                n = m.group(0)
                if n in library:
                    return n
                return parts.sub(lambda q: by_dash[q.group(1)], n)
            new = DASHED.sub(swap, t)
            if new != t:
                with open(p, "w", encoding="utf-8") as f:
                    f.write(new)


main()
