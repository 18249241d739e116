#!/usr/bin/env python3
"""Brings this repository's own names to today's spelling, once, behind port.py.

usage: tools/respell.py [--check]      at the top of the repository; --check writes nothing and lists the names

A name of specs/ or proofs/ that has capitals inside gets snake case: firstAbove is first_above. A dash joins two names,
each of a definition in specs/, of a function in src/ or one of the library's below, and a name made of anything else has
underscores: run-append stays, fault-short is fault_short, back-room-exactly is back_room_exactly. A lemma that would
have the name of something else gets _lem. Types, records and modules keep their capitals, names of src/ stay, and so
do the goals that a Proof.antt answers.
"""
import collections
import glob
import re
import sys

# Words that the library's lemmas join by a dash: they are names of its functions, operators and constructors.
LIBRARY = set("""append nil cons map length take drop zero suc one two set get get_or replicate filter fold sum min max
add sub mul div mod pow not and or if cond xor shr eqb ltb leb lt le eq refl true false some none""".split())
KEYWORD = r"(?:(?:abbrev|unfoldable|pub|record|data|infixl?|infixr)\s+)*"
DECLARED = re.compile(r"^\s*" + KEYWORD + r"([^\s:(){}.;,]+)(?:\s*(?:\([^()]*\)|\{[^{}]*\}))*\s*:\s", re.M)
WORD = re.compile(r"[^\s(){}.;,@\"«»\[\]|`]+")
COMMENT = re.compile(r"--[^\n]*")


def files(*patterns):
    found = []
    for p in patterns:
        found += [f for f in glob.glob(p, recursive=True) if "/out/" not in f and "/target/" not in f]
    return sorted(found)


def read(path):
    with open(path, encoding="utf-8") as f:
        return f.read()


def snake(name):
    return re.sub(r"(?<=[a-z0-9])([A-Z])", lambda m: "_" + m.group(1).lower(), name)


def is_camel(name):
    return name[:1].islower() and re.search(r"[a-z0-9][A-Z]", name)


def respelled(name, names):
    parts = name.split("-")
    if not all(parts) or not parts[0][0].isalpha():
        return name
    parts = [p if p[:1].isupper() else snake(p) for p in parts]
    joint = "-" if len(parts) == 2 and parts[0] in names and parts[1].rstrip("'0123456789") in names else "_"
    return joint.join(parts)


def main():
    check = "--check" in sys.argv[1:]
    texts = files("crates/*/specs/**/*.antt", "crates/*/proofs/**/*.antt")
    code = files("crates/*/src/**/*.rt")
    declared, goals, words, by_file = set(), collections.defaultdict(set), set(), {}
    for f in texts:
        t = COMMENT.sub("", read(f))
        found = {n for n in DECLARED.findall(t)}
        by_file[f] = set(WORD.findall(t))
        words |= by_file[f]
        if f.endswith("/Proof.antt"):
            goals[f] = found
        else:
            declared |= found
    in_specs = set()
    for f in files("crates/*/specs/**/*.antt"):
        in_specs |= {n for n in DECLARED.findall(COMMENT.sub("", read(f))) if "-" not in n}
    in_code = set()
    for f in code:
        in_code |= set(re.findall(r"\bfn\s+(\w+)", read(f)))
    names = {snake(n) for n in in_specs} | in_code | LIBRARY
    table = {}
    for n in sorted(declared | {w for w in words if is_camel(w) and "-" not in w and w.isidentifier()}):
        to = respelled(n, names)
        if to != n:
            table[n] = to
    # a lemma that would have the name of a definition, or of another lemma
    met = collections.defaultdict(list)
    for n in sorted(declared | set(table), key=lambda n: (not is_camel(n), "-" in n, n)):
        met[table.get(n, n)].append(n)
    together = {}
    for to, of in met.items():
        for n in of[1:]:
            if any(n in w and of[0] in w for w in by_file.values()):
                table[n] = to + "_lem"
                together[to] = of
    if check:
        for n, to in sorted(table.items()):
            print(f"{n}\t{to}")
    for to, of in sorted(together.items()):
        print(f"together: {to}: {', '.join(of)}")
    if check:
        return 0

    def turn(text, stay=(), behind_dots=True, rust=False):
        def one(m):
            w = m.group(0)
            if w in stay or w not in table or rust and not is_camel(w) and "-" not in w:
                return w
            if not behind_dots and not is_camel(w) and m.start() and text[m.start() - 1] == ".":
                return w
            return table[w]

        return WORD.sub(one, text)

    changed = 0
    for f in texts + code + files("crates/*/must-fail/*.edit"):
        t = read(f)
        proof = f.endswith("/Proof.antt")
        if proof:
            lines = t.split("\n")
            new = "\n".join(turn(l, goals[f], l.startswith("use ")) for l in lines)
        else:
            new = turn(t, rust=f.endswith(".rt") or f.endswith(".edit"))
        if new != t:
            changed += 1
            with open(f, "w", encoding="utf-8") as out:
                out.write(new)
    for f in ["README.md", "docs/PROMISES.md", "docs/DECISIONS.md", "docs/MANUAL.md"]:
        t = read(f)
        new = re.sub(r"`[^`\n]+`", lambda m: turn(m.group(0), rust=True), t)
        if new != t:
            changed += 1
            with open(f, "w", encoding="utf-8") as out:
                out.write(new)
    print(f"respell: {len(table)} names, {changed} files")
    return 0


if __name__ == "__main__":
    raise SystemExit(main())
