#!/usr/bin/env python3
"""Spells this repository's own definitions and lemmas as the toolchain does: words in snake case, a dash only between two names.

usage: tools/names.py [--list] [--check]     at the top of the repository, once, after port.py

A name's words are joined by `_`; a dash stays beside a type or a fact (upper camel case) and beside an operator. `'` stays. Texts in quotes, names of src/ (functions, fields, constants, variants),
goals and steps that the check makes, and all that the toolchain has keep their spelling. --list prints each old and new name; --check
writes nothing. It stops where two names would fall together, and names those that would meet a name of src/.
"""
import collections, glob, os, re, sys

WORD = re.compile(r"[^\s(){}.;,@\"«»\[\]`]+")
DEF = re.compile(r"^(\s*)((?:abbrev|unfoldable|pub|record|data|module|ruleset)\s+)*([^\s(){}:;=λ⌜]+)\s*((?:\(|\{).*)?\s:\s")


# Names that would fall together with another of their own, or with a field of their own record.
BY_HAND = {
    "distances-good": "good_distances", "eventOf": "event_at", "firstPart": "first_part_at", "flag-of": "flag_for", "frame-of": "is_framed",
    "goesOn": "goes_on_with", "good-but-height": "good_but_its_height", "hasPart": "opens_part", "in-name": "within_name", "isDigit": "is_digit_byte",
    "is-several": "several_reads", "kind-of": "kind_parts", "laid-at": "laid_there", "laidOut": "is_laid_out", "line-end": "line_end_is",
    "ofParts": "good_parts", "other-turn": "other_turn_is", "secondAt": "second_child", "size-of": "size_stands",
    "sought-outcome": "sought_is_outcome", "takes-cap": "cap_taken", "tests-of": "own_tests", "behind-j": "place_behind_j", "K1-to-K12": "K1_to_K12",
}


def files(*globs):
    return sorted({f for g in globs for f in glob.glob(g, recursive=True) if "/out/" not in f})


def own_names():
    """The names that specs/ and proofs/*.antt declare: definitions, lemmas, fields, constructors. Not those inside proofs/F/, which are one proof's own."""
    specs, laws = set(), set()
    for f in files("crates/*/specs/**/*.antt", "crates/*/proofs/*.antt", "more-edits/**/*.antt"):
        into = specs if "/specs/" in f else laws
        for line in open(f):
            if line.lstrip().startswith("--"):
                continue
            m = DEF.match(line)
            if m:
                into.add(m.group(3))
    return specs, laws


def foreign(text):
    """The names that a file imports from the toolchain's libraries: they stay."""
    mine = tuple(f"Rattle.{c}." for c in os.listdir("crates")) + ("proofs.", "specs.")
    names = set()
    for m in re.finditer(r"^\s*(?:ghost )?use ([^\s{]+)\.\{([^}]*)\}", text, re.M):
        if not m.group(1).startswith(mine):
            names |= {x.split(" as ")[0].strip() for x in m.group(2).split(",")} | {x.split(" as ")[-1].strip() for x in m.group(2).split(",")}
    return names


def snake(word):
    if not re.match(r"[a-z]", word):
        return word
    return re.sub(r"(?<=[a-z0-9'])([A-Z])", lambda m: "_" + m.group(1).lower(), word)


def plain(part):
    return re.search(r"[A-Za-z0-9]", part) is not None


def turned(name):
    if name in BY_HAND:
        return BY_HAND[name]
    parts = name.split("-")
    if any(p == "" for p in parts) or not re.search(r"[A-Za-z]", name):
        return name
    text = parts[0]
    for right in parts[1:]:
        left = text.rsplit("-", 1)[-1]
        kept = re.match(r"[A-Z]", right) or re.match(r"[A-Z][a-z]", left) or not plain(left) or not plain(right)
        text += ("-" if kept else "_") + right
    return "-".join("_".join(snake(w) for w in p.split("_")) for p in text.split("-"))


def main(argv):
    specs, laws = own_names()
    own = specs | laws
    table = {n: turned(n) for n in own}
    table = {a: b for a, b in table.items() if a != b}
    bad = False
    taken = {b for a, b in table.items() if "-" not in a} | {n for n in own if n not in table}
    for a, b in list(table.items()):
        if "-" in a and b in taken and a not in BY_HAND:
            table[a] = b + "_lem"
    back = collections.defaultdict(set)
    for n in own:
        back[table.get(n, n)].add(n)
    for b, olds in sorted(back.items()):
        if len(olds) > 1:
            print(f"falls together: {b}: {', '.join(sorted(olds))}")
            bad = True
    rust = collections.defaultdict(set)
    for f in files("crates/*/src/**/*.rt"):
        crate = f.split("/")[1]
        for m in re.finditer(r"[A-Za-z_][A-Za-z0-9_]*", re.sub(r"//.*", "", open(f).read())):
            rust[m.group(0)].add(crate)
    if "--list" in argv:
        for a, b in sorted(table.items()):
            print(a, b)
    for f in files("crates/**/*.antt", "more-edits/**/*.antt"):
        text = open(f).read()
        theirs = foreign(text)
        for w in set(WORD.findall(text)) & set(table):
            if w not in theirs and table[w] in theirs:
                print(f"meets an import: {f}: {w} -> {table[w]}")
                bad = True
    for f in files("crates/*/src/**/*.rt"):
        text = open(f).read()
        for w in set(WORD.findall(text)) & set(table):
            if re.search(r"(?:fn|let|let mut|const|struct|mut)\s+" + re.escape(table[w]) + r"\b|[(,]\s*(?:mut )?" + re.escape(table[w]) + r"\s*:", text):
                print(f"meets a name of src/: {f}: {w} -> {table[w]}")
    if bad:
        return 1
    if "--check" in argv:
        return 0
    n = 0

    theirs, extra = set(), {}
    plain_own = {n for n in own if "_" in n}

    def code(text):
        parts = re.split(r'("(?:[^"\\\n]|\\.)*")', text)
        return "".join(p if k % 2 else turned_code(p) for k, p in enumerate(parts))

    def turned_code(text):
        # a step of a function's proof, `c.before.step`, has the name of src/
        text = re.sub(r"(?<![\w.'-])c((?:\.before)*)\.([\w'-]+)", lambda m: f"c{m.group(1)}.\x00{m.group(2)}" if table.get(m.group(2), m.group(2).replace("-", "_")) != m.group(2).replace("-", "_") else m.group(0), text)
        text = WORD.sub(lambda m: m.group(0) if m.group(0) in theirs else extra.get(m.group(0)) or table.get(m.group(0), m.group(0)), text)
        return text.replace("\x00", "")

    def prose(text):
        """Outside code spans a dash may be English: there only names with a hump are turned. `bad-line` is what the listing program prints."""
        parts = re.split(r"(`[^`\n]*`)", text)
        return "".join(p if p == "`bad-line`" else code(p) if k % 2 else WORD.sub(lambda m: table.get(m.group(0), m.group(0)) if "-" not in m.group(0) else m.group(0), p) for k, p in enumerate(parts))

    def whole(f, text):
        if f.endswith(".md"):
            return prose(text)
        mark = "--" if f.endswith(".antt") else "//"
        lines = []
        for line in text.splitlines(keepends=True):
            k = line.find(mark + " ") if mark == "//" or line.lstrip().startswith(mark) else line.find(" " + mark + " ")
            lines.append(code(line) if k < 0 else code(line[:k]) + prose(line[k:]))
        return "".join(lines)

    for f in files("crates/**/*.antt", "crates/*/src/**/*.rt", "crates/*/must-fail/*.edit", "more-edits/**/*.edit", "crates/**/*.md", "docs/**/*.md", "README.md", "crates.txt"):
        old = open(f).read()
        theirs.clear()
        theirs.update(foreign(old))
        # an import of a name that port.py turned where it is declared, and not here
        extra.clear()
        for w in set(WORD.findall(old)):
            if "-" in w and w not in own and w not in theirs and re.fullmatch(r"[\w'-]+", w) and turned(w) in plain_own and f.endswith(".antt"):
                extra[w] = turned(w)
        if f.endswith(".rt"):  # there a name with neither dash nor hump may be a function's
            theirs.update(a for a in table if re.fullmatch(r"[a-z0-9_]+", a))
        new = whole(f, old)
        if new != old:
            open(f, "w").write(new)
            n += 1
    print(f"{len(table)} names, {n} files")
    return 0


if __name__ == "__main__":
    sys.exit(main(sys.argv[1:]))
