#!/usr/bin/env python3
"""Brings the names of this repository's own definitions and lemmas to snake case, once, after the kit's port.py: a hyphen and a capital inside a
name become an underscore. Types, relations that begin with a capital, modules, names of the kit and everything in Rust code keep their spelling.

usage: tools/respell.py [--check] [ROOT]

Where a lemma's name would fall together with a definition's, the lemma gets `_lem` (LEMMAS below). --check changes nothing and lists the names that
would fall together in one file.
"""

import os
import re
import sys

# lemmas whose name would be a definition's
LEMMAS = set(
    """read-bytes le-at float-route observe-refusal new-metrics new-receiver new-sender from-srtt with-bounds due-after round-trips report-refusal
    process-refusal first-no rtt-ms spin-rule sender-rule receiver-rule metrics-rule accessor-refusal etx-of update-refusal srtt-step
    as-signed place-of""".split()
)
# other names that would fall together
OTHERS = {"keepsRule": "keeps_the_rule", "laid_out": "laid_out_lem", "inOrder": "ends_in_order"}

SIGNATURE = re.compile(r"^(\s*)(?:(?:abbrev|unfoldable|pub)\s+)*([^\s(){}\[\];,.:=λ]+)\s+:(?:\s|$)")
HEAD = re.compile(r"^(\s*)(?:(?:abbrev|unfoldable|pub|open)\s+)*(record|data|module|ruleset)\s+(\S+)")
# what ends a name
ENDS = r"\s(){}\[\];,.«»⌜⌝"
NAME = re.compile(f"[^{ENDS}]+")
IMPORT = re.compile(r"use\s+([^\s;{]+)\.\{([^}]*)\}", re.S)


def texts(root, ends):
    for folder, dirs, names in os.walk(os.path.join(root, "crates")):
        dirs[:] = sorted(d for d in dirs if d != "out")
        for n in sorted(names):
            if n.endswith(ends):
                yield os.path.join(folder, n)


def read(path):
    with open(path, encoding="utf-8") as f:
        return f.read()


def snake(name):
    return re.sub(r"([a-z0-9])([A-Z])", lambda m: m.group(1) + "_" + m.group(2).lower(), name.replace("-", "_"))


def declared(root):
    """The names that files of specs/ and proofs/ declare, but for the proofs of functions, whose goals Rattle names."""
    found = set()
    for path in texts(root, ".antt"):
        if path.endswith("/Proof.antt"):
            continue
        for line in read(path).split("\n"):
            if line.lstrip().startswith("--") or HEAD.match(line):
                continue
            m = SIGNATURE.match(line)
            if m:
                found.add(m.group(2))
    return found


def respelt(root):
    found = declared(root)
    table = {}
    for n in found:
        if n[0].isupper() and "-" not in n or not re.match(r"^\w", n):
            continue
        s = OTHERS.get(n) or snake(n) + ("_lem" if n in LEMMAS else "")
        if s != n:
            table[n] = s
    return table


def foreign(text):
    """Names that a file takes from the kit."""
    out = set()
    for path, names in IMPORT.findall(text):
        if not re.match(r"Rattle\.(?!std\b)", path):
            for n in names.split(","):
                out.add(n.split(" as ")[-1].strip())
    return out


def turned(text, table, rust):
    skip = foreign(text)

    def one(m):
        w = m.group(0)
        if w in skip or w not in table or rust and "-" in w:
            return w
        return table[w]

    def quoted(m):
        return "`" + NAME.sub(one, m.group(1)) + "`"

    out = []
    for line in text.split("\n"):
        if rust:
            code, sign, said = line.partition("//")
            if line.lstrip().startswith("ghost use"):
                line = NAME.sub(lambda m: table.get(m.group(0), m.group(0)) if m.group(0) not in skip else m.group(0), line)
            elif '"' not in code:
                line = NAME.sub(one, code) + sign + re.sub(r"`([^`]*)`", quoted, said)
        else:
            m = re.match(r"^(.*?)(\s--\s.*|^--.*)?$", line)
            code, said = m.group(1), m.group(2) or ""
            line = NAME.sub(one, code) + re.sub(r"`([^`]*)`", quoted, said)
        out.append(line)
    return "\n".join(out)


def main():
    words = sys.argv[1:]
    check = "--check" in words
    roots = [w for w in words if w != "--check"]
    root = roots[0] if roots else "."
    table = respelt(root)
    changed = 0
    for path in texts(root, (".antt", ".rt")):
        text = read(path)
        if check:
            skip = foreign(text)
            code = "\n".join(l for l in text.split("\n") if not l.lstrip().startswith(("--", "//")))
            words_in = set(NAME.findall(code))
            new = {}
            for w in words_in:
                t = table.get(w, w) if w not in skip else w
                if path.endswith(".rt") and not (re.search(r"[a-z][A-Z]", w) or w == t):
                    continue
                new.setdefault(t, set()).add(w)
            for t, ws in sorted(new.items()):
                if len(ws) > 1:
                    print(os.path.relpath(path, root), t, sorted(ws))
            continue
        new = turned(text, table, path.endswith(".rt"))
        if new != text:
            changed += 1
            with open(path, "w", encoding="utf-8") as f:
                f.write(new)
    for path in texts(root, ".edit"):
        lines, rust, new = read(path).split("\n"), True, []
        for line in lines:
            word, sign, said = line.partition(": ")
            if word == "file":
                rust = said.strip().endswith(".rt")
            elif word in ("old", "new"):
                line = word + sign + turned(said, table, rust)
            new.append(line)
        if new != lines and not check:
            changed += 1
            with open(path, "w", encoding="utf-8") as f:
                f.write("\n".join(new))
    print(f"respell: {len(table)} names, {changed} files")


if __name__ == "__main__":
    main()
