#!/usr/bin/env python3
"""Brings the repository's own definitions and lemmas to snake case.

usage: python3 tools/respell.py [--dry]     at the top of the repository, right after the kit's port.py

A name is the repository's own where a file of specs/ or proofs/ declares it: a definition, a lemma, a field of a record, a constructor.
goodCall becomes good_call and call-good becomes call_good, in specs/, proofs/, must-fail/ and the clauses of src/.
A name that a file takes from elsewhere (a use line with a path of another library, or a name that Rattle makes) stays as it is in that file.
Functions of src/ and text in quotes keep their names. A new name that stood in a file before is reported, and the exit status is 1.
"""

import os
import re
import sys

LETTER = r"[^\W\d_]"
TOKEN = re.compile(r"(?<![\w'-])((?:_|" + LETTER + r")(?:[\w']|-(?=\w))*)")
DECLARED = re.compile(r"^\s*(?:abbrev |unfoldable |ghost )?(?:pub )?((?:" + LETTER + r"[\w'-]*)(?: " + LETTER + r"[\w'-]*)*) :(?!:) (.*)$")
CASE = re.compile(r"^\s+(?:pub )?(" + LETTER + r"[\w'-]*) :(?!:)")
GOALS = re.compile(r"^(?:tie|goal)\.")
TAKEN = re.compile(r"^\s*(?:pub )?(?:ghost )?use ([^\s{;]+)\.\{([^}]*)\}", re.M)

# new names that would fall together with another word: the name that is taken instead
APART = {"room_in": "room_walked", "oneMore": "one_more_dropped"}


def snake(name):
    name = re.sub(r"([a-z0-9'])([A-Z])(?![A-Z])", lambda m: m[1] + "_" + m[2].lower(), name) if name[:1].islower() else name
    return name.replace("-", "_")


def files(root):
    for folder, dirs, names in os.walk(os.path.join(root, "crates")):
        dirs[:] = sorted(d for d in dirs if d != "out")
        for n in sorted(names):
            if n.endswith((".antt", ".rt", ".edit")):
                yield os.path.join(folder, n)


def place(path):
    parts = path.split(os.sep)
    if path.endswith(".rt") or path.endswith(".edit"):
        return "code"
    return "specs" if "specs" in parts else "lemmas" if parts[-2] == "proofs" else "proof"


def declared(path, text):
    found, inside = set(), False
    for line in text.split("\n"):
        m = DECLARED.match(line)
        if not m:
            continue
        if place(path) == "proof" and (line[:1] == " " or GOALS.match(m[2])):
            continue
        if place(path) == "lemmas" and line[:1] == " " and "where" not in text and not line.lstrip().startswith("pub "):
            continue
        found.update(m[1].split())
    return found


def elsewhere(text, own):
    """The names that a file takes from a library that is not the repository's."""
    out = set()
    for m in TAKEN.finditer(text):
        path = m[1].split(".")
        if path[0] == "Rattle" and len(path) > 1 and path[1] in own and "Goals" not in path and "Tie" not in path and "declared" not in path:
            continue
        out.update(w.split(" as ")[0].strip() for w in m[2].split(","))
    return out


def clauses(text):
    """The stretches of a .rt file outside quotes and comments."""
    at = 0
    for m in re.finditer(r'"(?:\\.|[^"\\])*"|//[^\n]*', text):
        yield True, text[at : m.start()]
        yield False, m[0]
        at = m.end()
    yield True, text[at:]


def main(argv):
    root = "."
    if not os.path.isdir(os.path.join(root, "crates")):
        print("respell: run it at the top of the repository", file=sys.stderr)
        return 2
    own = set(os.listdir(os.path.join(root, "crates")))
    texts = {}
    for p in files(root):
        with open(p, encoding="utf-8") as f:
            texts[p] = f.read()
    shared, local = set(), {}
    for p, t in texts.items():
        if place(p) in ("specs", "lemmas"):
            shared |= declared(p, t)
        elif place(p) == "proof":
            local[p] = declared(p, t)
    both = {snake(n) for n in shared if "-" not in n and snake(n) != n} & {snake(n) for n in shared.union(*local.values()) if "-" in n}
    bad, turned = [], 0
    for p, t in texts.items():
        mine = (shared | local.get(p, set())) - elsewhere(t, own)
        turn = {n: APART.get(n, snake(n)) for n in mine if n in APART or snake(n) != n}
        # a lemma that would have the name of what it is about
        turn |= {n: snake(n) + "_lem" for n in mine if "-" in n and snake(n) in both}
        words = set(TOKEN.findall(t))
        for n in turn.keys() & words:
            at = re.compile(r"(?<![\w'.-])" + re.escape(turn[n]) + r"(?![\w'-])")
            if turn[n] not in turn and not p.endswith(".rt") and any(at.search(l) for l in t.split("\n") if not l.startswith("--")):
                bad.append(f"{p}: {n} becomes {turn[n]}, which stands there already")

        here = sorted(turn.keys() & words)
        for i, n in enumerate(here):
            for k in here[:i]:
                if turn[n] == turn[k]:
                    bad.append(f"{p}: {k} and {n} both become {turn[n]}")

        def word(m):
            return turn.get(m[1], m[1])

        if place(p) == "code":
            turn = {n: s for n, s in turn.items() if "-" not in n}
            new = "".join(TOKEN.sub(word, part) if code else part for code, part in clauses(t)) if p.endswith(".rt") else TOKEN.sub(word, t)
        else:
            new = "\n".join(l if l.lstrip().startswith("--") else TOKEN.sub(word, l) for l in t.split("\n"))
        if new != t:
            turned += 1
            if "--dry" not in argv:
                with open(p, "w", encoding="utf-8") as f:
                    f.write(new)
    print("\n".join(bad))
    print(f"respell: {turned} files; {len(bad)} names fall together with another word of their file")
    return 1 if bad else 0


if __name__ == "__main__":
    raise SystemExit(main(sys.argv[1:]))
