#!/usr/bin/env python3
"""Brings the repository's own definitions and lemmas to the spelling of Rattle's guides.

usage: respell.py            at the top of the repository, once, after the kit's script for older repositories

Words are in snake case: maxRuns -> max_runs, idForm? -> id_form?. A dash stays between two names of definitions
(length-area_in), and is an underscore before or after any other word (hash-next -> hash_next).
Types, modules, variants, names of Rattle code, of the library and of what Rattle generates keep their names.
It writes the pairs of old and new names to docs/names.tsv.
"""

import os
import re
import sys

OPEN = "crates"
W = r"[^\s(){}.;,@\"«»\[\]\\:λ⌜⌝]+"
TOKEN = re.compile(r"--[^\n]*|//[^\n]*|\"(?:[^\"\\]|\\.)*\"|b?'(?:[^'\\]|\\.)'|" + W)
CAMEL = re.compile(r"[a-z][a-z0-9']*(?:[A-Z][A-Za-z0-9']*)+\??'*$")
DECLARED = re.compile(r"^(\s*)(?:(?:abbrev|unfoldable|pub|axiom|ruleset)\s+)*([a-zA-Zα-ωℕ][^\s(){}.;,@\"«»\[\]\\:]*)\s*(?=:(?!:))", re.M)
USE = re.compile(r"(?:ghost )?use ([A-Za-z_][\w.'-]*)\.\{([^}]*)\}")


def texts(*ends):
    for folder, dirs, files in os.walk(OPEN):
        dirs[:] = sorted(d for d in dirs if d != "out")
        for f in sorted(files):
            if f.endswith(ends):
                p = os.path.join(folder, f)
                with open(p, encoding="utf-8") as it:
                    yield p, it.read()


def snake(part):
    m = re.match(r"^([^?']*)([?']*)$", part)
    body, tail = (m.group(1), m.group(2)) if m else (part, "")
    body = re.sub(r"(?<=[a-z0-9])([A-Z])", lambda h: "_" + h.group(1).lower(), body)
    return body + tail


def own(path):
    return path.startswith("Rattle.") and os.path.isdir(os.path.join(OPEN, path.split(".")[1]))


def main():
    declared, words, library, rust, defined, given = set(), set(), set(), set(), set(), set()
    for p, t in texts(".antt", ".rt"):
        for m in USE.finditer(t):
            if not own(m.group(1)):
                for n in m.group(2).split(","):
                    n = n.strip().split(" as ")[0].strip()
                    library.add(n)
                    if "-" not in n:
                        words.add(n)
    for p, t in texts(".antt"):
        found = {m.group(2) for m in DECLARED.finditer(t)}
        if p.endswith("/Proof.antt"):
            made = {m.group(2) for m in DECLARED.finditer(t) if re.match(r":\s*(tie\.|\{M : Type 1\} → statement)", t[m.end() :])}
            found = {n for n in found if n not in made and not n.endswith("-spec")}
        declared |= found
        if "/specs/" in p:
            words |= {n for n in found if "-" not in n}
            defined |= found
    for p, t in texts(".rt"):
        rust |= set(re.findall(r"\b(?:fn|const|static|struct|enum|mod|let(?: mut)?)\s+(\w+)", t))
        given |= set(re.findall(r"\b(\w+)\s*:(?!:)", t))
    words = {snake(w) for w in words if len(w) > 1 and not w[0].isupper()}
    plain = {"at", "all", "any", "none", "some", "one", "new", "next", "here", "no", "not", "so", "start", "end", "first", "last", "line", "label", "text", "same", "other", "low", "high", "is", "by", "to", "met", "left", "right", "fits", "said", "read", "names", "refused", "cond", "true", "false", "runs", "labels", "lines", "id", "count", "list", "length_", "kept", "top", "node", "nodes", "rest", "place", "places", "value", "values", "byte", "bytes", "answer", "begin", "finish", "yes", "inside", "part", "parts", "area", "work", "given", "found", "known", "done", "row", "rows", "table", "set_", "keep", "moment", "run", "free", "full", "seen", "over", "under", "before", "after", "room", "size", "wide", "whole", "letter", "digit", "sign", "signs", "rule", "rules", "meaning", "verdict", "verdicts", "tally", "slip", "slips", "form", "log", "book", "piece", "record", "columns", "column", "pair", "pairs", "ranks", "rank", "order", "written", "stored", "scope", "scoped", "shape", "bound", "variables", "variable", "atom", "atoms", "event", "events", "trace", "applies", "apply", "held", "open", "running", "finished", "closed", "close", "mark", "marked", "fresh", "absent", "empty", "blank", "zero", "suc"}
    words -= plain

    def new_name(old):
        parts = [snake(x) for x in old.split("-")]
        out = parts[0]
        for a, b in zip(parts, parts[1:]):
            keep = a in words and b in words or not b or not a or not re.match(r"[A-Za-z]", b) or not re.match(r".*[A-Za-z0-9?']$", a)
            out += ("-" if keep else "_") + b
        return out

    pairs = {"inOrder": "put_in_order", "trueOf": "true_for", "readBack": "reads_back"}
    for n in sorted(declared):
        if n in pairs or n in library or n[0].isupper() or "·" in n:
            continue
        if "-" in n or CAMEL.match(n):
            m = new_name(n)
            if m != n:
                pairs[n] = m
    for p, t in texts(".antt", ".rt"):
        for m in TOKEN.finditer(t):
            n = m.group()
            if CAMEL.match(n) and n not in library and n not in pairs:
                pairs[n] = snake(n)
    # A definition of specs/ has the plain name; a lemma that would share it ends in _lem.
    taken = {}
    order = sorted(pairs, key=lambda n: (n not in defined or "-" in n, "-" in n, n))
    for old in order:
        new = pairs[old]
        if new in library or new in taken or new in declared:
            if new in declared and new not in library and new not in taken and new not in defined and old in defined:
                lem = new + "_lem"
                pairs[new] = lem
                taken[lem] = new
                print(f"falls together: {old} -> {new}, and the lemma {new} -> {lem}", file=sys.stderr)
            else:
                lem = new + "_lem"
                while lem in declared or lem in taken:
                    lem += "'"
                print(f"falls together: {old} -> {lem} beside {taken.get(new, new)}", file=sys.stderr)
                pairs[old] = new = lem
        taken[new] = old
    for new, old in sorted(taken.items()):
        if new in given:
            print(f"a parameter or field has the name: {old} -> {new}", file=sys.stderr)

    def turned(t, code):
        def one(m):
            n = m.group()
            if n.startswith(("--", "//")):
                return re.sub(r"`([^`\s]+)`|(?<![\w`-])([a-z][a-z0-9]*(?:[A-Z][a-z0-9]*)+\??)(?![\w-])", lambda h: ("`" + pairs.get(h.group(1), h.group(1)) + "`") if h.group(1) else pairs.get(h.group(2), h.group(2)), n)
            if n.startswith('"') or n not in pairs:
                return n
            return pairs[n]

        return TOKEN.sub(one, t)

    GHOST = re.compile(r"^\s*(ghost|requires|ensures|decreases|invariant)\b|[≡≤≢∷λ→×⊎↔]|\b(result|old|new|now)\b")
    for p, t in texts(".antt", ".rt", ".edit"):
        if p.endswith(".antt"):
            u = turned(t, False)
        elif p.endswith(".rt"):
            u = "".join(turned(l, True) if GHOST.search(l) or "//" in l or re.search(r"[a-z][A-Z]", l) else l for l in t.splitlines(keepends=True))
        else:
            u = "".join(turned(l, True) if re.match(r"(old|new):", l) else l for l in t.splitlines(keepends=True))
        if u != t:
            with open(p, "w", encoding="utf-8") as it:
                it.write(u)
    os.makedirs("docs", exist_ok=True)
    with open("docs/names.tsv", "w", encoding="utf-8") as it:
        for old in sorted(pairs):
            it.write(old + "\t" + pairs[old] + "\n")
    print(f"{len(pairs)} names")


main()
