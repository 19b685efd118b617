#!/usr/bin/env python3
"""Brings the repository's own definitions and lemmas to one spelling: words in snake case, types and facts in camel case.

usage: python3 tools/spell_names.py [--dry]   at the top of the repository, once, right after port.py

Functions of src/, strings, inputs and outputs keep their names, and so do the library's names and the names that the
check makes for goals and steps (they are joined by dashes). Prints what it renamed, and names that would fall together.
"""
import collections
import os
import re
import sys

OWN = ("ranked", "sharing", "rules", "laws", "matching", "book", "trial", "replay", "book_tests")
NAME = r"[A-Za-z_][\w'+-]*"
DASHED = re.compile(r"(?<![\w'-])[A-Za-z_][\w']*(?:-[\w']+)+(?![\w'-])")


def files():
    for top, dirs, names in os.walk("crates"):
        dirs[:] = sorted(d for d in dirs if d not in ("out", ".git"))
        for n in sorted(names):
            if n.endswith((".antt", ".rt", ".edit")):
                yield os.path.join(top, n)


def read(p):
    with open(p, encoding="utf-8") as f:
        return f.read()


def is_answers(p):
    return os.path.basename(p) in ("Answers.antt", "Invariants.antt", "Proof.antt")


def library_names(text):
    """The names that a file takes from a library."""
    out = set()
    for m in re.finditer(r"use ([\w.+'-]+)\.\{([^}]*)\}", text):
        if not re.match(r"Rattle\.(%s)\." % "|".join(OWN), m.group(1)):
            for x in m.group(2).split(","):
                out.add(x.strip().split(" as ")[0].strip())
    return out


def code_only(text):
    return re.sub(r"--.*", "", text)


def own_names():
    lib, own, fields = set(), set(), set()
    texts = {p: read(p) for p in files()}
    for p, t in texts.items():
        lib |= library_names(t)
    for p, t in texts.items():
        if not p.endswith(".antt"):
            continue
        c = code_only(t)
        if is_answers(p):
            # a helper of the file's own, and what a term binds; not the goals, nor what the check names
            for m in re.finditer(r"^\s*(?:abbrev |unfoldable |pub )*(%s) : (?!goal\.|need\.)" % NAME, c, re.M):
                own.add(m.group(1))
            for m in re.finditer(r"\blet (%s)\b|[λ(]\s*((?:%s )+):" % (NAME, NAME), c):
                own |= set((m.group(1) or "").split()) | set((m.group(2) or "").split())
            for m in re.finditer(r"λ ((?:%s ?)+)\." % NAME, c):
                own |= set(m.group(1).split())
        else:
            # in a file of definitions or lemmas each dashed name is its own or a library's
            body = re.sub(r"^use .*$", "", c, flags=re.M)
            own |= set(DASHED.findall(body))
            for m in re.finditer(r"^use Rattle\.(?:%s)\.[\w.+'-]+\.\{([^}]*)\}" % "|".join(OWN), c, re.M):
                own |= {w for x in m.group(1).split(",") for w in x.replace(" as ", " ").split()}
            for m in re.finditer(r"^\s*pub (%s) :" % NAME, c, re.M):
                fields.add(m.group(1))
    own = {n for n in own if "-" in n and DASHED.fullmatch(n)}
    made = {n for n in own if n in lib}
    return own - lib, made, fields, texts


def spelled(n):
    if n[0].isupper():
        return "".join(w[0].upper() + w[1:] for w in n.split("-"))
    return n.replace("-", "_")


def clause_spans(text):
    """In a source file only clauses, ghost members and ghost imports are antt."""
    spans = []
    for m in re.finditer(r"^\s*(?:ghost|requires|ensures)\b[^\n]*", text, re.M):
        spans.append(m.span())
        # a clause over several lines ends where its brace does
        depth, i = 0, m.start()
        end = m.end()
        while i < len(text):
            ch = text[i]
            if ch == "{":
                depth += 1
            elif ch == "}":
                depth -= 1
                if depth == 0:
                    break
            elif ch == ";" and depth == 0:
                break
            i += 1
        spans[-1] = (m.start(), max(end, i + 1))
    return spans


def main():
    dry = "--dry" in sys.argv
    own, made, fields, texts = own_names()
    table = {n: spelled(n) for n in own}
    by_new = collections.defaultdict(set)
    for a, b in table.items():
        by_new[b].add(a)
    for b, olds in sorted(by_new.items()):
        if len(olds) > 1:
            print("together:", b, sorted(olds))
    for p, t in sorted(texts.items()):
        here = {n for n in DASHED.findall(t) if n in table}
        words = set(re.findall(r"[A-Za-z_][\w']*", re.sub(DASHED, " ", t)))
        both = sorted(n for n in here if table[n] in words)
        if both:
            print("beside:", p, [(n, table[n]) for n in both])
    changed = 0
    for p, t in texts.items():
        def swap(m):
            n = m.group(0)
            before = t[max(0, m.start() - 40):m.start()] if whole else part[max(0, m.start() - 40):m.start()]
            if n not in table:
                return n
            # behind a dot: a field of a record of ours, or a name in a module; never a step or a fact that the check names
            if before.endswith(".") and n not in fields and is_answers(p):
                print("kept:", p, before.split()[-1] + n)
                return n
            if re.search(r"(goal|need)\.$", before):
                return n
            return table[n]
        if p.endswith(".antt"):
            whole = True
            new = DASHED.sub(swap, t)
        elif p.endswith(".rt"):
            whole = False
            new, at = "", 0
            for a, b in clause_spans(t):
                if a < at:
                    continue
                part = t[a:b]
                new += t[at:a] + DASHED.sub(swap, part)
                at = b
            new += t[at:]
        else:
            whole = True
            new = DASHED.sub(swap, t)
        if new != t:
            changed += 1
            if not dry:
                with open(p, "w", encoding="utf-8") as f:
                    f.write(new)
    pages = ["README.md"] + sorted(os.path.join("docs", n) for n in os.listdir("docs") if n.endswith(".md"))
    for p in pages:
        t = read(p)
        new = re.sub(r"`[^`\n]+`", lambda q: DASHED.sub(lambda m: table.get(m.group(0), m.group(0)), q.group(0)), t)
        if new != t:
            changed += 1
            if not dry:
                with open(p, "w", encoding="utf-8") as f:
                    f.write(new)
    for a in sorted(table):
        print("name:", a, table[a])
    print(len(table), "names,", changed, "files")


main()
