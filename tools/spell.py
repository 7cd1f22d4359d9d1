#!/usr/bin/env python3
"""Spells the definitions and lemmas below crates/ in snake case, as `writeOf` and `iw2-is` to `write_of` and `iw2_is`.

usage: python3 tools/spell.py [FOLDER]

FOLDER is the top of the repository, this folder's parent if it is left out. What is renamed: each name that a file of specs/ or proofs/
declares and that begins with a small letter, in those files and in the clauses and `ghost use` items of src/. Pages are left.
A function's own Proof.antt is read for what it cites, and what it declares by itself is left, since those are names of goals.
Names that a library has stay. Where a definition and a law about it would get one name, the law's ends in `_law` (LAWS).
It is run once, right after the kit's port.py. Where a proof is in answers already, whose names are the check's, it writes nothing.
"""

import collections
import os
import re
import sys

WORD = r"[^\s(){}.;,@\"«»]+"
COMMENT = re.compile(r"(?m)(?<!\S)--.*$")
DECLARED = re.compile(
    r"(?m)^ *(?:(?:pub|abbrev|unfoldable|private|opaque|infixr|infixl|infix) )*(" + WORD + r")(?: \{[^{}\n]*\})* :(?= )"
)
LIBRARY = re.compile(
    r"use ((?:mathlib|Prim|lib|native|borrow|base|denote|seplogic|Rattle\.(?:std|core|libc|io|os|std_\w+))[\w.◌'-]*)\.\{([^}]*)\}"
)
# Laws that would be spelled as the definition that they are about: the old name, what it is called now, and the crates where it is so.
LAWS = {
    "bit-of": ("bit_of_law", None),
    "by-turning": ("by_turning_law", None),
    "channel-good": ("channel_good_law", None),
    "counter-good": ("counter_good_law", None),
    "cycle-answer": ("cycle_answer_law", None),
    "fed-answers": ("fed_answers_law", None),
    "fed-memory": ("fed_memory_law", None),
    "highest-of": ("highest_of_law", None),
    "in-range": ("in_range_law", None),
    "loads-now": ("loads_now_law", None),
    "mode-test": ("mode_test_law", None),
    "own-widths": ("own_widths_law", None),
    "record-at": ("record_at_law", None),
    "rest-at": ("rest_at_law", None),
    "slave-int": ("slave_int_law", None),
    "slave-lines": ("slave_lines_law", None),
    "slave-written": ("slave_written_law", None),
    "step-of": ("step_of_law", None),
    "unit-of": ("unit_of_law", None),
    "with-one": ("with_one_law", None),
    "answer_at": ("answer_at_law", ("promises",)),
    "first_byte": ("first_byte_law", ("promises",)),
    "goes_on": ("goes_on_law", ("promises",)),
    "last_of": ("last_of_law", ("promises",)),
    "passed_on": ("passed_on_law", ("promises", "records")),
    "ran_on": ("ran_on_law", ("promises",)),
    "too_small": ("too_small_law", ("promises",)),
    "with_two": ("with_two_law", ("promises",)),
}


def texts(top, *endings):
    for folder, folders, names in os.walk(top):
        folders[:] = sorted(it for it in folders if it not in ("out", ".git", "target"))
        for name in sorted(names):
            path = os.path.join(folder, name)
            if name.endswith(endings) and not os.path.islink(path):
                with open(path, encoding="utf-8") as f:
                    yield path, f.read()


def snake(name):
    return re.sub(r"(?<=[a-z0-9'])[A-Z]", lambda m: "_" + m[0].lower(), name).replace("-", "_")


def table(crates):
    """The names to turn, each with its new spelling, and the fields of records among them."""
    declared, library, fields = set(), set(), set()
    for path, text in texts(crates, ".antt", ".rt"):
        for it in LIBRARY.finditer(text):
            library |= {name.split(" as ")[0].strip() for name in it[2].split(",")}
        if path.endswith(".antt") and not path.endswith("/Proof.antt"):
            code = COMMENT.sub("", text)
            declared |= set(DECLARED.findall(code))
            for it in re.finditer(r"(?m)^(?:\w+ )*record [^\n]* where\n((?:(?: [^\n]*)?\n)+)", code):
                fields |= set(DECLARED.findall(it[1]))
    own = {name for name in declared if re.match(r"[a-z]", name) and snake(name) != name and name not in library}
    turned = {name: snake(name) for name in own} | {old: new for old, (new, where) in LAWS.items() if where is None and old in declared}
    return turned, {name for name in fields if name in turned}


def turn_antt(text, turned, fields, is_proof):
    if not is_proof:
        return re.sub(WORD, lambda m: turned.get(m[0], m[0]), text)
    # what the file declares by itself is the name of a goal, and stays
    own = set(DECLARED.findall(COMMENT.sub("", text)))
    kept = {old: new for old, new in turned.items() if old not in own}

    def cited(m):
        behind = text[m.start() - 1 : m.start()] == "."
        if behind and m[0] not in fields:
            return m[0]
        return kept.get(m[0], m[0])

    return re.sub(WORD, cited, text)


def turn_rt(text, turned):
    def escaped(m):
        return turned.get(m[1], m[0]) if m[1] in turned else m[0]

    def item(m):
        return re.sub(WORD, lambda w: turned.get(w[0], w[0]), m[0])

    text = re.sub(r"«([^»\n]*)»", escaped, text)
    text = re.sub(r"ghost use[^;]*;", item, text)
    # elsewhere only names with a capital inside: no item of the language is spelled so
    return re.sub(
        r"\"(?:[^\"\\\n]|\\.)*\"|\b[a-z][a-z0-9]*(?:[A-Z][a-z0-9]*)+\b",
        lambda m: m[0] if m[0][0] == '"' else turned.get(m[0], m[0]),
        text,
    )


def main(argv):
    top = argv[0] if argv else os.path.dirname(os.path.dirname(os.path.realpath(__file__)))
    crates = os.path.join(top, "crates")
    if any("/proofs/" in path and path.endswith(("/Answers.antt", "/Invariants.antt")) for path, _ in texts(crates, ".antt")):
        print("spell: proofs are in answers already: nothing is renamed", file=sys.stderr)
        return 1
    turned, fields = table(crates)
    meets = collections.defaultdict(set)
    for old, new in turned.items():
        meets[new].add(old)
    # two names may fall together only where no file has both
    for path, text in texts(crates, ".antt"):
        words = set(re.findall(WORD, COMMENT.sub("", text)))
        for new, olds in sorted(meets.items()):
            if len(olds & words) > 1:
                print(f"spell: {path}: {sorted(olds & words)} would both be {new}", file=sys.stderr)
                return 1
    changed = 0
    work = [(path, text, ".antt" if path.endswith(".antt") else ".rt") for path, text in texts(crates, ".antt", ".rt")]
    for path, text, kind in work:
        crate = os.path.relpath(path, crates).split(os.sep)[0]
        here = dict(turned)
        for old, (new, where) in LAWS.items():
            if where and crate in where and old in turned.values():
                here[old] = new
        if kind == ".antt":
            new = turn_antt(text, here, fields, path.endswith("/Proof.antt"))
        else:
            new = turn_rt(text, turned)
        if new != text:
            changed += 1
            with open(path, "w", encoding="utf-8") as f:
                f.write(new)
    print(f"spell: {len(turned)} names, {changed} files")
    return 0


if __name__ == "__main__":
    raise SystemExit(main(sys.argv[1:]))
