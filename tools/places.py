#!/usr/bin/env python3
"""Counts the places of older forms in src/, by the points of docs/DESIGN-PASS.md.

usage: places.py [POINT] [--list] [COMMIT]     at the top of the repository; without COMMIT, the files as they stand

 1  enums of the shape of Option or Result, refusals as numbers, a value that stands for none, kinds as numbers
 2  groups of functions whose bodies are the same but for names, types and numbers
 3  `while` and `loop`
 4  equality, copying, conversion and printing by hand: functions named for it, and impls that a derive could write
 5  three or more parameters that three or more functions share in one order; a clause that three or more functions repeat
 6  two or more slices with one length, a slice or an array with a count beside it
 7  a branch on a kind, a mode or a layout that picks the step
"""

import collections
import os
import re
import subprocess
import sys


def files(commit):
    """The .rt files of crates/*/src: (name, text)."""
    if commit:
        names = subprocess.run(["git", "ls-tree", "-r", "--name-only", commit, "crates"], capture_output=True, text=True, check=True).stdout
        for n in names.splitlines():
            if "/src/" in n and n.endswith(".rt"):
                yield n, subprocess.run(["git", "show", f"{commit}:{n}"], capture_output=True, text=True, check=True).stdout
        return
    for folder, dirs, names in os.walk("crates"):
        dirs[:] = sorted(d for d in dirs if d != "out")
        for n in sorted(names):
            p = os.path.join(folder, n)
            if "/src/" in p and n.endswith(".rt"):
                with open(p, encoding="utf-8") as f:
                    yield p, f.read()


def bare(text):
    """The text without comments, line for line."""
    return re.sub(r"//[^\n]*", "", text)


def line_of(text, at):
    return text.count("\n", 0, at) + 1


def functions(text):
    """Each function: its line, name, parameters, result, clauses, body."""
    for m in re.finditer(r"(?m)^[ ]*(?:pub )?(?:const )?(?:extern \"C\" )?fn (\w+)[^(]*\(", text):
        at, depth = m.end(), 1
        while depth:
            depth += {"(": 1, ")": -1}.get(text[at], 0)
            at += 1
        params = text[m.end():at - 1]
        rest = text[at:]
        body = re.search(r"(?m)^[ ]*\{$| \{$|^\{", rest)
        inline = re.match(r"[^\n]*\{\s*$", rest.split("\n", 1)[0])
        if inline:
            head_end = rest.index("{", 0)
            start = rest.split("\n", 1)[0].rindex("{")
        elif body:
            start = body.end() - 1
        else:
            continue
        head = rest[:start]
        depth, end = 0, start
        while end < len(rest):
            depth += {"{": 1, "}": -1}.get(rest[end], 0)
            end += 1
            if depth == 0:
                break
        yield line_of(text, m.start()), m.group(1), params, head, rest[start:end]


def parameters(params):
    out, depth, part = [], 0, ""
    for c in params + ",":
        depth += {"(": 1, "[": 1, "<": 1, ")": -1, "]": -1, ">": -1}.get(c, 0)
        if c == "," and depth == 0:
            if ":" in part:
                name, kind = part.split(":", 1)
                out.append((name.strip().replace("mut ", ""), " ".join(kind.split())))
            part = ""
        else:
            part += c
    return out


NONE_LIKE = r"Refused|Nothing|Missing|Failed|Outside|Bad|Other|NoBook|DoesNot"


def point1(all_files):
    for name, text in all_files:
        t = bare(text)
        for m in re.finditer(r"(?m)^(?:pub )?enum (\w+)[^{]*\{(.*?)^\}", t, re.S):
            variants = re.findall(r"(?m)^    (\w+)", m.group(2))
            if any(re.fullmatch(NONE_LIKE, v) for v in variants):
                yield name, line_of(t, m.start()), f"enum {m.group(1)}: {', '.join(variants)}"
        for m in re.finditer(r"Refused(?:\(|::\w+\()(\d+)\)", t):
            yield name, line_of(t, m.start()), f"refusal by number: {m.group(0)}"
        for m in re.finditer(r"\b(\w+)\.(count|length|at) == 0 \{\s*return \1;", t):
            yield name, line_of(t, m.start()), f"a count of 0 for none: {m.group(0).split('{')[0].strip()}"
        for m in re.finditer(r"(?m)^    (?:return )?(MAX_RUNS|LABEL_PLACES|255|LAST);?$|: usize = 255;", t):
            yield name, line_of(t, m.start()), f"a number for none: {m.group(0).strip()}"
        for m in re.finditer(r"\bkind: (?:u8|usize)|\.kind == \d|match \w*\.?kind\b", t):
            yield name, line_of(t, m.start()), f"a kind as a number: {m.group(0)}"


KEYWORDS = set("let mut if else while for in return match true false as fn pub loop break continue self usize u8 u16 u32 u64 bool".split())


def shape(body):
    """The body with names, types and numbers by their order of first use."""
    seen, out = {}, []
    for w in re.findall(r"\w+|\S", body):
        if re.fullmatch(r"\w+", w) and (w not in KEYWORDS or re.fullmatch(r"u(8|16|32|64|size)", w)):
            w = seen.setdefault(w, f"${len(seen)}")
        out.append(w)
    return " ".join(out)


def point2(all_files):
    groups = collections.defaultdict(list)
    for name, text in all_files:
        t = bare(text)
        for line, fn, params, head, body in functions(t):
            s = shape(body)
            if len(s.split()) >= 24:
                groups[s].append((name, line, fn))
    for g in groups.values():
        if len(g) > 1:
            for name, line, fn in g:
                yield name, line, f"{fn}, with {', '.join(x[2] for x in g if x != (name, line, fn))}"


def point3(all_files):
    for name, text in all_files:
        for k, l in enumerate(text.splitlines(), 1):
            if re.match(r"\s*(?:'\w+: )?(while|loop)\b", l):
                yield name, k, l.strip()


def point4(all_files):
    for name, text in all_files:
        t = bare(text)
        for line, fn, params, head, body in functions(t):
            if re.match(r"(same|equal|copy|clear|fill|spread|to|into)_|(choose|count|higher|lower|max|min|most|least)$", fn):
                yield name, line, f"fn {fn}"


def point5(all_files):
    groups, clauses = collections.defaultdict(list), collections.defaultdict(list)
    for name, text in all_files:
        t = bare(text)
        crate = name.split("/")[1]
        for line, fn, params, head, body in functions(t):
            ps = [f"{n}: {k.replace(chr(39) + 'a ', '').replace('mut ', '')}" for n, k in parameters(params)]
            best = set()
            for size in range(len(ps), 2, -1):
                for i in range(len(ps) - size + 1):
                    best.add(tuple(ps[i:i + size]))
            for b in best:
                groups[b].append((name, line, fn))
            for c in re.findall(r"requires(?: \w+)? \{(.*?)\}\n", head + "\n", re.S):
                for part in re.split(r"\) × \(", c.strip()):
                    part = " ".join(part.strip(" ()").split())
                    if re.search(r"[A-Z]\w+ ", part):
                        clauses[(crate, re.sub(r"\.(old|now|new)\b", "", part))].append((name, line, fn))
    taken = set()
    for b, g in sorted(groups.items(), key=lambda x: -len(x[0])):
        g = [x for x in g if x not in taken]
        if len(g) >= 3:
            for x in g:
                taken.add(x)
                yield x[0], x[1], f"{x[2]}: {', '.join(p.split(':')[0] for p in b)}"
    for (crate, c), g in clauses.items():
        if len(g) >= 3:
            for x in g:
                yield x[0], x[1], f"{x[2]}: {c}"


def point6(all_files):
    for name, text in all_files:
        t = bare(text)
        for line, fn, params, head, body in functions(t):
            ps = parameters(params)
            slices = [n for n, k in ps if re.match(r"&('\w+ )?(mut )?\[", k)]
            counts = [n for n, k in ps if k == "usize" and re.fullmatch(r"n|count|length|size|d|runs|rows", n)]
            if slices and counts:
                yield name, line, f"{fn}: {', '.join(slices)} with {', '.join(counts)}"
        for m in re.finditer(r"(?m)^(?:pub )?struct (\w+)[^{;]*\{(.*?)^\}", t, re.S):
            fields = re.findall(r"(?:pub )?(\w+): ([^\n]*),", m.group(2))
            if any(k.startswith("[") for _, k in fields) and any(n in ("count", "length", "size") for n, _ in fields):
                yield name, line_of(t, m.start()), f"struct {m.group(1)}: {', '.join(n for n, _ in fields)}"


def point7(all_files):
    for name, text in all_files:
        t = bare(text)
        for m in re.finditer(r"match (\w*\.?(?:kind|mode|layout|way|step))\b|if (\w+\.kind == \d|mode == \w+|is_\w+\(last\))", t):
            yield name, line_of(t, m.start()), m.group(0)


POINTS = {"1": point1, "2": point2, "3": point3, "4": point4, "5": point5, "6": point6, "7": point7}


def main():
    args = sys.argv[1:]
    listing = "--list" in args
    args = [a for a in args if a != "--list"]
    wanted = [a for a in args if a in POINTS] or sorted(POINTS)
    commit = next((a for a in args if a not in POINTS), None)
    everything = list(files(commit))
    for p in wanted:
        found = list(POINTS[p](everything))
        print(f"point {p}: {len(found)} places")
        if listing:
            for name, line, what in found:
                print(f"  {name}:{line}: {what}")


main()
