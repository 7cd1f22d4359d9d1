#!/usr/bin/env python3
# Counts the places that docs/DESIGN-PASS.md speaks of, by crate: `tools/places.py` prints the table, `tools/places.py POINT` each place of one.
# It reads the source with its comments taken out (but for point none), so what it finds has to be looked at; it judges nothing.
import difflib
import glob
import os
import re
import sys
from collections import Counter, defaultdict

ROOT = os.path.join(os.path.dirname(os.path.abspath(__file__)), "..", "crates")
POINTS = ["shape", "flag", "kinds", "none", "twins", "near", "loops", "by_hand", "together", "clauses", "length", "as_slice", "switch", "bool"]
MEANING = {
    "shape": "1: an enum with at most four variants, of which some have a value and some have none",
    "flag": "1: a struct with a field that says whether the others count (status, more, whole, placed, keep, agreed, written, bad)",
    "kinds": "1: constants in a row with the numbers 0, 1, 2 .. (or letters of one kind), each of them",
    "none": "1: a function that answers a number, and whose comment says which number stands for none",
    "twins": "2: functions with the same body but for names, numbers and types, of twelve words at least",
    "near": "2: functions of a crate whose bodies, of twenty words at least, are alike to four fifths in their order of words, twins left out",
    "loops": "3: while and loop",
    "by_hand": "4: a function that is only a cast or a 0 and 1 of a flag, equality field by field, and lines that take a number apart into bytes, or put it together",
    "together": "5: functions with two parameters, of the same names and types, that three or more functions of the crate have, and of the functions that have either, three in four",
    "clauses": "5: functions with a clause, other than one that says what the result is, that three or more functions of the crate have, but for names",
    "length": "6: a parameter that is an array or a slice with a length beside it, and a struct with an array and a length",
    "as_slice": "6: a function that only hands an array on as a slice",
    "switch": "7: a match on a number that says which step is run",
    "bool": "a match on true and false",
}


def strip(text):
    """without comments and the letters of strings; lines stay where they are"""
    def blank(m):
        w = m.group(0)
        if w.startswith("//"):
            return ""
        if w.endswith('"'):
            return '"' + "\n" * w.count("\n") + '"'
        return w
    return re.sub(r"//[^\n]*|b?'(?:\\.|[^\\'\n])'|\"(?:\\.|[^\"\\])*\"", blank, text)


def functions(text):
    """name, line, parameters, clauses, body, the comment above"""
    out = []
    for m in re.finditer(r"^([ \t]*)(?:pub(?:\([a-z]+\))? )?(?:extern \"C\" )?fn (\w+)(?:<[^(]*>)?\(", text, re.M):
        i = m.end()
        depth = 1
        while depth:
            c = text[i]
            depth += c == "("
            depth -= c == ")"
            i += 1
        params = strip(text[m.end(): i - 1])
        brace = text.find("\n" + m.group(1) + "{", i)
        same = text.find("{", i)
        line_end = text.find("\n", i)
        start = same if same < line_end and "ensures" not in text[i:same] and "requires" not in text[i:same] else brace + 1
        if start <= 0:
            continue
        head = text[i:start]
        stop = text.find("\n" + m.group(1) + "}", start)
        above = []
        for line in reversed(text[: m.start()].rstrip("\n").split("\n")):
            if line.strip().startswith("//"):
                above.append(line)
            else:
                break
        out.append((m.group(2), text.count("\n", 0, m.start()) + 1, params, head, strip(text[start:stop]), " ".join(above)))
    return out


def split_params(params):
    parts, depth, cur = [], 0, ""
    for c in params:
        depth += c in "([<"
        depth -= c in ")]>"
        if c == "," and depth == 0:
            parts.append(cur)
            cur = ""
        else:
            cur += c
    parts.append(cur)
    return [" ".join(p.split()) for p in parts if p.strip()]


def shape_of(body):
    names = {}
    words = re.findall(r"[A-Za-z_]\w*|\d\w*|b'(?:\\.|.)'|b\"[^\"]*\"|[^\s\w]", body)
    out = []
    for w in words:
        if re.match(r"\d|b['\"]", w):
            out.append("0")
        elif re.match(r"[A-Za-z_]", w) and w not in ("if", "else", "return", "match", "while", "let", "mut", "for", "in", "loop", "break", "continue", "true", "false", "self", "as"):
            out.append("v%d" % names.setdefault(w, len(names)))
        else:
            out.append(w)
    return out


found = {p: defaultdict(list) for p in POINTS}
every = defaultdict(list)
crates = sorted(os.path.basename(d) for d in glob.glob(os.path.join(ROOT, "*")))
for crate in crates:
    pairs, singles, clauses, owners = Counter(), Counter(), Counter(), {}
    for path in sorted(glob.glob(os.path.join(ROOT, crate, "src", "**", "*.rt"), recursive=True)):
        raw = open(path, encoding="utf-8").read()
        text = strip(raw)
        where = os.path.relpath(path, ROOT)

        def add(point, line, what):
            found[point][crate].append("%s:%d %s" % (where, line, what))

        for m in re.finditer(r"enum (\w+)[^{]*\{(.*?)\n\}", text, re.S):
            variants = [v.strip() for v in re.findall(r"^    (\w[^\n]*),$", m.group(2), re.M)]
            if len(variants) <= 4 and any("(" in v for v in variants) and any("(" not in v for v in variants):
                add("shape", text.count("\n", 0, m.start()) + 1, m.group(1))
        for m in re.finditer(r"^(?:pub(?:\([a-z]+\))? )?struct (\w+)[^{;]*\{(.*?)\n\}", text, re.M | re.S):
            fields = re.findall(r"^    (?:pub(?:\([a-z]+\))? )?(\w+): ([^\n]+),$", m.group(2), re.M)
            flags = [n for n, t in fields if n in ("status", "more", "whole", "placed", "keep", "agreed", "written", "bad") and t in ("bool", "u8", "u32")]
            if flags and len(fields) > 1:
                add("flag", text.count("\n", 0, m.start()) + 1, m.group(1) + ": " + ", ".join(flags))
            arrays = [n for n, t in fields if re.match(r"\[.*; .*\]", t)]
            lengths = [n for n, t in fields if n in ("n", "length", "len", "size", "held")]
            if arrays and lengths:
                add("length", text.count("\n", 0, m.start()) + 1, "struct " + m.group(1))
        run = []
        consts = [(m.group(1), m.group(2), int(m.group(3), 0), text.count("\n", 0, m.start()) + 1)
                  for m in re.finditer(r"^[ \t]*(?:pub(?:\([a-z]+\))? )?const (\w+): (u8|u16|u32|u64|usize|i32) = (0x[0-9a-fA-F]+|\d+);", text, re.M)]

        def flush():
            if len(run) > 1:
                for c in run:
                    add("kinds", c[3], "%s = %d" % (c[0], c[2]))

        for c in consts:
            if run and c[1] == run[-1][1] and c[2] == run[-1][2] + 1:
                run.append(c)
            else:
                flush()
                run = [c]
        flush()
        for i, line in enumerate(text.split("\n"), 1):
            if re.search(r"\bwhile\b|\bloop \{", line):
                add("loops", i, line.strip())
            if re.search(r"/ 256 % 256|\* 65536\b|\* 256 \+|/ 65536 % 256|<< 24|<< 16 \|", line):
                add("by_hand", i, line.strip())
            if re.search(r"\bmatch (mode|kind|op|script|step|due|way|item|command|sought|self\.script|self\.mode)\b", line):
                add("switch", i, line.strip())
        for m in re.finditer(r"(true|false) => [^\n]*\n\s*(true|false) =>", text):
            add("bool", text.count("\n", 0, m.start()) + 1, "match on true and false")
        for name, line, params, head, body, above in functions(raw):
            parts = [p for p in split_params(params) if p not in ("self", "mut self", "&self", "&mut self")]
            inner = " ".join(body.strip().lstrip("{").split())
            if re.search(r"-> (u\d+|usize)\b", head) and re.search(r"\bnone\b|\bno more\b|\bno such\b|nowhere|\bNONE\b|or 4,096|or 68|is no |are no ", above):
                add("none", line, name)
            if re.fullmatch(r"\(?(?!self\b|exit\b)\w+( % \d+)?\)? as \w+", inner) or re.fullmatch(r"if (\w+|\d+ < \w+) \{ return 1; \} 0", inner) or inner.count(" == b.") + inner.count("] != b") >= 1:
                add("by_hand", line, "fn " + name)
            for k, p in enumerate(parts[:-1]):
                if re.search(r": &?(mut )?(?:\[|Tape|Answers|Memory|Line)", p) and re.match(r"(n|length|len|size|end|to): (usize|u8|u32|u64)$", parts[k + 1]):
                    add("length", line, "fn " + name)
            if len(parts) and re.search(r": &(mut )?\[[^\]]*; ", " ".join(parts)) and re.fullmatch(r"(\w+::)*\w+\([\w, &:]*\)", inner):
                add("as_slice", line, "fn " + name)
            names = sorted(set(re.sub(r"^mut ", "", p) for p in parts))
            for a in names:
                singles[a] += 1
            for a in range(len(names)):
                for b in range(a + 1, len(names)):
                    pairs[(names[a], names[b])] += 1
            owners[(where, line, name)] = (names, set())
            for m in re.finditer(r"(requires|ensures)[^{\n]*\{ (.*) \}$", head, re.M):
                c = " ".join(shape_of(m.group(2)))
                if len(c.split()) > 2 and "≡" not in c:
                    clauses[c] += 1
                    owners[(where, line, name)][1].add(c)
            s = shape_of(body)
            if len([w for w in s if re.match(r"\w", w)]) >= 12:
                every[" ".join(s)].append((crate, "%s:%d fn %s" % (where, line, name)))
    for (where, line, name), (names, cs) in owners.items():
        shared = [(x, y) for (x, y), n in pairs.items() if n >= 3 and 4 * n >= 3 * max(singles[x], singles[y]) and x in names and y in names]
        if shared:
            found["together"][crate].append("%s:%d fn %s: %s" % (where, line, name, "; ".join(sorted(set(sum(([x, y] for x, y in shared), []))))))
        if any(clauses[c] >= 3 for c in cs):
            found["clauses"][crate].append("%s:%d fn %s" % (where, line, name))
for group in every.values():
    if len(group) > 1:
        for crate, what in group:
            found["twins"][crate].append(what + " (one of %d: %s)" % (len(group), group[0][1].split()[-1]))

for crate in crates:
    bodies = [(g.split(), what) for g, group in every.items() for c, what in group[:1] if c == crate and len(g.split()) >= 40]
    for i, (a, one) in enumerate(bodies):
        for b, other in bodies[:i] + bodies[i + 1:]:
            if abs(len(a) - len(b)) * 5 > max(len(a), len(b)):
                continue
            match = difflib.SequenceMatcher(None, a, b, autojunk=False)
            if match.real_quick_ratio() >= 0.8 and match.quick_ratio() >= 0.8 and match.ratio() >= 0.8:
                found["near"][crate].append(one + " (like " + other.split()[-1] + ")")
                break

if len(sys.argv) > 1:
    for crate in crates:
        for p in found[sys.argv[1]][crate]:
            print(p)
else:
    for p in POINTS:
        counts = [(c, len(found[p][c])) for c in crates if found[p][c]]
        print("%-9s %4d  %s" % (p, sum(n for _, n in counts), ", ".join("%s %d" % x for x in counts)))
        print("          " + MEANING[p])
