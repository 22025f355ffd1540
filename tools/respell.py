#!/usr/bin/env python3
"""Brings this repository's own definitions and lemmas to snake case: 'setPoint' to 'set_point', 'done-made' to 'done_made'.

usage: tools/respell.py [--check] [PATH ..]   (default: crates)

Run once, after port.py. The names are those that the .antt files of specs/ and proofs/ declare; types and modules stay in camel case, and what is in
a .rt file outside clauses, ghost imports and comments' code spans stays. --check prints the table and the names that fall together, and writes nothing.
"""
import collections
import os
import re
import sys

WORD = re.compile(r"[^\s(){}.;,@\"«»`|\[\]⟨⟩]+")
DECL = re.compile(r"^\s*(?:(?:pub|abbrev|unfoldable|data|record|ruleset|where)\s+)*(?:«?)([^\s:(){}«»]+)(?:»?)\s*(?:[({].*[)}]\s*)?:(?=\s|$)(.*)")
SPAN = re.compile(r"`[^`\n]+`")


# Constructors of the lists of calls.
CALLS = set("make-loose connect-points navigate-until-con read-point read-side remove-connection remove-edge-condition set-edge-con-weight set-knot-coordinates set-point cast-ray point-knot-vectors generate-knot-vectors".split())
# Names that would fall together with a library's, with a field's or with a local one.
ROWS = {
    "is-nan": "is_nan_lem",
    "nan-bits": "nan_bits_lem",
    "byTests": "pull_by_tests",
    "bySide": "checked_by_side",
    "bottomLeft": "at_bottom_left",
    "bottomRight": "at_bottom_right",
    "topRight": "at_top_right",
    "topLeft": "at_top_left",
}
# In one file alone: local names that port.py had turned already.
ALONE = {
    "crates/ledger/specs/ChangeLaws.antt": {"is_made": "was_made"},
    "crates/soundness/specs/PlacingLaws.antt": {"is_made": "was_made"},
    "crates/pull/specs/PullLaws.antt": {"is_made": "was_made"},
    "crates/calls/specs/GoodLaws.antt": {"with_first": "with_first_lem"},
    "crates/map_writing/specs/TheoremsProof.antt": {"position_in": "position_in_lem"},
}


def snake(name):
    def part(p):
        if p[:1].isupper():
            return p
        p = re.sub(r"(?<=[a-z0-9])([A-Z])(?=[a-z])", lambda m: "_" + m.group(1).lower(), p)
        return re.sub(r"(?<=[a-z0-9])([A-Z]+)", lambda m: "_" + m.group(1).lower(), p)

    if "-" not in name[1:-1]:
        return part(name)
    parts = re.split(r"(?<=.)-(?=.)", name)
    return "_".join(part(p) for p in parts)


def files(paths):
    for path in paths:
        if os.path.isfile(path):
            yield path
        for folder, dirs, names in os.walk(path):
            dirs[:] = sorted(d for d in dirs if d not in ("out", ".git"))
            for n in sorted(names):
                if n.endswith((".antt", ".rt")):
                    yield os.path.join(folder, n)


def declared(paths):
    """Each name that an .antt file declares, but for the answers to generated goals."""
    found = collections.defaultdict(set)
    for path in files(paths):
        if not path.endswith(".antt"):
            continue
        with open(path, encoding="utf-8") as f:
            for line in f:
                if line.lstrip().startswith(("--", "use ", "let ", "(", "→", "∙", "[", "|")):
                    continue
                m = DECL.match(line)
                if m and not re.match(r"\s*(tie|goal)\.", m.group(2)) and not m.group(1).endswith("-spec"):
                    found[m.group(1)].add(path)
    return found


def imported(text, owned):
    """The names that a file takes from modules of the library."""
    found = set()
    for module, items in re.findall(r"^(?:ghost )?use ([^\s{]+)\.\{([^}]*)\}", text, re.M):
        if not (module.startswith("Rattle.") and module.split(".")[1] in owned):
            found |= {part for item in items.split(",") for part in item.strip().split(" as ")}
    return found


def turned(text, table, code):
    def word(m):
        if m.group(0) not in table:
            return m.group(0)
        return snake(m.group(0)) if m.string[m.start() - 1 : m.start()] == "." else table[m.group(0)]

    out = []
    for line in text.split("\n"):
        at = line.find("--") if code == "antt" else line.find("//")
        if code == "antt":
            m = re.search(r"(?:^|\s)--(?=\s|$|-)", line)
            at = m.start() if m else -1
        body, comment = (line, "") if at < 0 else (line[:at], line[at:])
        if code == "antt":
            body = WORD.sub(word, body)
        elif clause(line):
            body = WORD.sub(lambda m: word(m) if re.search(r"[A-Z]|-", m.group(0)) else m.group(0), body)
        comment = SPAN.sub(lambda m: WORD.sub(word, m.group(0)), comment)
        comment = WORD.sub(lambda m: table[m.group(0)] if m.group(0) in table and re.search(r"[a-z][A-Z]", m.group(0)) else m.group(0), comment)
        out.append(body + comment)
    return "\n".join(out)


def clause(line):
    """A line of an .rt file that may hold ghost text: own names are in camel case or have a dash, which Rust's words of such a file are not."""
    return True


def main(argv):
    check = "--check" in argv
    paths = [a for a in argv if a != "--check"] or ["crates"]
    names = declared(paths)
    table = {n: snake(n) for n in names if snake(n) != n}
    fields = set()
    for path in files(paths):
        if path.endswith(".antt") and not path.endswith("/Proof.antt"):
            with open(path, encoding="utf-8") as f:
                fields |= set(re.findall(r"(?<=[\w)])\.([^\s(){}.;,@\"«»`|\[\]⟨⟩]+)", f.read()))
    taken = collections.defaultdict(set)
    for n in names:
        if "-" not in n[1:-1]:
            taken[table.get(n, n)].add(n)
    for old in sorted(table):
        # A lemma that would have its definition's name, a call that would have its function's.
        if "-" in old[1:-1] and taken.get(table[old]) and old not in fields:
            table[old] += "_call" if old in CALLS else "_lem"
    table.update(ROWS)
    to = collections.defaultdict(list)
    for old, new in table.items():
        to[new].append(old)
    for new, olds in sorted(to.items()):
        if new in names:
            olds = olds + [new]
        if len(olds) > 1:
            print("together:", new, ":", "; ".join(f"{o} ({', '.join(sorted(names[o])[:3])})" for o in olds))
    owned = set(os.listdir("crates"))
    for path in files(paths):
        with open(path, encoding="utf-8") as f:
            text = f.read()
        words = set(WORD.findall(text))
        for old in words & set(table):
            if table[old] in words:
                print(f"look: {path}: {old} becomes {table[old]}, which stands there too")
        if not check:
            alone = ALONE.get(os.path.normpath(path), {})
            theirs = imported(text, owned)
            new = turned(text, {**{o: n for o, n in table.items() if o not in theirs}, **alone}, "antt" if path.endswith(".antt") else "rt")
            if new != text:
                with open(path, "w", encoding="utf-8") as f:
                    f.write(new)
    if check:
        for old, new in sorted(table.items()):
            print("row:", old, new)
    return 0


if __name__ == "__main__":
    raise SystemExit(main(sys.argv[1:]))
