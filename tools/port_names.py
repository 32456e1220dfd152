#!/usr/bin/env python3
"""Brings this repository's own definitions to the spelling that port.py leaves to the repository: words in snake case, facts and modules in camel case.

Run once, at the top, right after port.py. Names are found where .antt files declare them; a name that port.py or the library has spelled already is left.
A dash still joins the parts of a lemma's name, as in the library's length-append; a field or constructor of specs/ is one word (no_fault for no-fault),
but for the laws of a ring, which are lemmas. Functions of src/, exported names, strings, inputs and outputs are not touched.
Lemmas whose names would fall together with a definition's go first (TAKEN). With --check nothing is written, and the new names are printed
with those that would fall together."""
import glob
import re
import sys

NAME = r"[^\s(){}\[\];,.λ→∷`\"]+"
HEAD = re.compile(rf"^\s*(?:(?:abbrev|unfoldable|pub|private|record|data|module)\s+)*({NAME})(?:\s+(?:\([^)]*\)|\{{[^}}]*\}}))*\s+:\s")
WORD = re.compile(r"[\w'′₀-₉-]*[^\W\d_][\w'′₀-₉-]*")
# a fact or a type that was spelled as a word, and the numbers of refusals, which have the names of the code's constants
BY_HAND = {
    "Unit-of": "IsUnit",
    "not-closed": "NotClosed",
    "DESK-CLOSED": "DESK_CLOSED",
    "NO-CODEWORD": "NO_CODEWORD",
    "OUT-OF-RANGE": "OUT_OF_RANGE",
    "TOO-FEW-SHARES": "TOO_FEW_SHARES",
    "WIDE-WORD": "WIDE_WORD",
    "part-getD": "part-get_or",
    "newNumber": "new_number",
    "newWords": "new_words",
    "oldNumber": "old_number",
    "oldWords": "old_words",
}

# lemmas and fields that have, in snake case, the name of the definition that they are about
TAKEN = {
    "holder_ok": "holder_ok_lem",
    "same_params": "same_params_lem",
    "shares_at": "shares_at_lem",
    "read_next": "read_next_lem",
}
TAKEN_IN = {
    "crates/promises/": ("params_ok", "params_in_range"),
    "crates/secrecy/": ("params_ok", "params_in_range"),
}


def snake(name):
    return re.sub(r"(?<=[a-z0-9₀-₉])([A-Z])", lambda m: "_" + m[1].lower(), name)


def files():
    antt = sorted(f for f in glob.glob("crates/*/**/*.antt", recursive=True) if "/out/" not in f)
    rt = sorted(glob.glob("crates/*/src/*.rt"))
    return antt, rt


def declared(antt):
    names = dict(BY_HAND)
    for f in antt:
        laws = f.endswith("algebra/specs/Ring.antt")
        proof = is_proof(f)
        for line in open(f, encoding="utf-8"):
            m = HEAD.match(line)
            if not m:
                continue
            old = m[1]
            if old in BY_HAND or not old[0].islower():
                continue
            new = snake(old)
            if "/specs/" in f and not laws and not proof:
                new = new.replace("-", "_")
            if new != old:
                if names.get(old, new) != new:
                    new = names[old] if "-" in names[old] else new
                names[old] = new
    return names


def free(path, text):
    """The text with the names of TAKEN out of the way; a comment that names a function of src/ stays."""
    for at, (old, new) in TAKEN_IN.items():
        if path.startswith(at):
            text = re.sub(rf"(?<![\w'-]){old}(?![\w'-])", new, text)
    out = []
    for line in text.splitlines(keepends=True):
        if not (is_proof(path) and line.startswith("--")):
            for old, new in TAKEN.items():
                line = re.sub(rf"(?<![\w.'-]){old}(?![\w.'-])", new, line)
        out.append(line)
    return "".join(out)


def is_proof(path):
    return bool(re.search(r"/proofs/[^/]+/[A-Z]\w*\.antt$", path))


def main():
    antt, rt = files()
    names = declared(antt)
    check = "--check" in sys.argv
    if check:
        by = {}
        for o, n in names.items():
            by.setdefault(n, []).append(o)
        every = {}
        for f in antt:
            for line in open(f, encoding="utf-8"):
                m = HEAD.match(line)
                if m:
                    every.setdefault(m[1], set()).add(f)
        for o, n in sorted(names.items()):
            print(o, n, *(["TWO", by[n]] if len(by[n]) > 1 else []), *(["HERE", sorted(every[n])] if n in every else []))
        for f in antt:
            text = open(f, encoding="utf-8").read()
            bare = set(re.findall(r"(?<![\w.'-])" + WORD.pattern, text))
            for o, n in names.items():
                if o in bare and n in bare:
                    print("BOTH", f, o, n)
        left = {}
        for f in antt:
            for w in WORD.findall(open(f, encoding="utf-8").read()):
                if re.search(r"^[a-z].*[a-z][A-Z]", w) and w not in names:
                    left.setdefault(w, set()).add(f)
        for w, fs in sorted(left.items()):
            print("LEFT", w, sorted(fs)[:3])
        return
    for f in antt + rt:
        with open(f, encoding="utf-8") as it:
            old = it.read()
        new = free(f, old) if f.endswith(".antt") else old
        # in code a dash is a minus, and clauses cite no name with one
        use = names if f.endswith(".antt") else {o: n for o, n in names.items() if "-" not in o}
        new = WORD.sub(lambda m: use.get(m[0], m[0]), new)
        if new != old:
            with open(f, "w", encoding="utf-8") as it:
                it.write(new)


main()
