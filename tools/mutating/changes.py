"""Changes to a function that keep the code's shape: an operand, a constant, a comparison, a condition, a field, an argument, an assignment, a method, a check, a question, a saturation or what is handed back."""
import re

FIELD = r"\b(self|rr|state|s|t|kept|new|base|short|ended|stats|seen|opened|pace)\.([a-z_0-9]+)\b(?!\()"

# a kind of mistake: what stands in the code, and what may stand in its place
KINDS = [
    ("comparison", r" <= ", [" < ", " >= "]),
    ("comparison", r" < ", [" <= ", " > "]),
    ("comparison", r" == ", [" != "]),
    ("operand", r" \+ ", [" - "]),
    ("operand", r" - ", [" + "]),
    ("operand", r" \* ", [" + "]),
    ("operand", r" / ", [" * "]),
    ("operand", r" % ", [" / "]),
    ("operand", r" & ", [" | "]),
    ("operand", r" \| ", [" & "]),
    ("operand", r" && ", [" || "]),
    ("constant", r"(?<![\w.])[0-9][0-9_]*\b(?![\].])", ["+1"]),
    ("constant", r"\b(?:true|false)\b", ["flipped"]),
    ("constant", r"(?<![\w.])[0-9][0-9_]*\.[0-9]+\b", ["doubled"]),
    ("constant", r"\blimits::[A-Z_]+\b|(?<![\w:])[A-Z][A-Z_]{3,}\b", ["one less"]),
    ("arguments", r"\((\w[\w.]*), (\w[\w.]*)(?=[,)])", ["swapped"]),
    ("arguments", r", [a-z_][\w.]*(?=[,)])", [", 0", ", 1", ", true", ", false"]),
    ("method", r"\.min\(", [".max("]),
    ("method", r"\.max\(", [".min("]),
    ("method", r"\.is_none_or\(", [".is_some_and("]),
    ("method", r"\.is_some_and\(", [".is_none_or("]),
    ("arguments", r"(?<=\w\()[a-z_][\w.]*(?=\))", ["0", "1"]),
    ("assignment dropped", r"(?<=    )(?:state|q|self|counted|at)\.\w+ \+?= [^;]*;", [""]),
    ("condition turned round", r"\bif (\w[\w.]*(?:\(\w*\))?) \{", ["negated"]),
    ("condition turned round", r"\b\w+_ok\(\w[\w.]*\)", ["not"]),
    ("check dropped", r"(?<=q\.)(\w+) = [^;]*;", ["yes"]),
    ("check dropped", r"(?<=    )\w+(?:\.\w+)?\([\w*, ]*\)\?;", [""]),
    ("saturation removed", r"(?<=\.)saturating_(add|sub|mul)(?=\()", ["wrapping"]),
    ("question", r"\bRefusal::(\w+)(?= =>|\))", ["Refusal::State", "Refusal::Values"]),
    ("field", FIELD, []),
    ("what is handed back", r"(?<=: )([a-z_][\w.]*)(?=,\n| \})", ["0", "1", "false"]),
    ("what is handed back", r"(?<=[{,] )[a-z_]+(?= \})|(?<=        )[a-z_]+(?=,\n)", ["named 0", "named 1"]),
    ("what is handed back", r"(?<==> )[a-z_]\w*(?=,)", ["0", "1"]),
    ("what is handed back", r"\bSome\(\w[\w.]*(?:\(\))?\)", ["None"]),
    ("what is handed back", r"(?<=\bOk\()[a-z_][\w.]*(?=\)$)", ["0", "1", "false", "true"]),
]


class Change:
    """In `file`, at `at`, `old` becomes `new`; `of` is the function whose answer it is to change, `inside` the one whose body has it."""

    def __init__(self, kind, of, inside, at, old, new):
        self.kind, self.of, self.inside, self.file, self.at, self.old, self.new = kind, of, inside, inside.file, at, old, new

    def applied(self, text):
        assert text[self.at : self.at + len(self.old)] == self.old
        return text[: self.at] + self.new + text[self.at + len(self.old) :]

    def line(self, text):
        start = text.rfind("\n", 0, self.at) + 1
        return text[start : text.index("\n", self.at)].strip()


def replaced(m, how):
    old = m.group(0)
    if how == "+1":
        return str(int(old.replace("_", "")) + 1)
    if how == "flipped":
        return "false" if old == "true" else "true"
    if how == "doubled":
        return str(2 * float(old.replace("_", "")) or 1.0)
    if how == "one less":
        return f"({old} - 1)"
    if how == "swapped":
        return f"({m.group(2)}, {m.group(1)}"
    if how == "negated":
        return f"if !{m.group(1)} {{"
    if how.startswith("named "):
        return f"{old}: {how[-1]}"
    if how == "not":
        return f"!{old}"
    if how == "yes":
        return f"{m.group(1)} = true;"
    if how == "wrapping":
        return f"wrapping_{m.group(1)}"
    return how


def within(inside, of):
    """Every change of a kind above in the body of one function."""
    text = open(inside.file).read()
    fields = sorted(set(f for _, f in re.findall(FIELD, text)))
    found, at = [], inside.start
    for line in text[inside.start : inside.end].splitlines(keepends=True):
        code = line.split("//")[0] + ("\n" if "//" in line else "")
        if not re.search("[≡×∷λ]", code) and not code.strip().startswith(("requires", "ensures", "invariant", "decreases", "ghost", "prove!")):
            for kind, pattern, replacements in KINDS:
                for m in re.finditer(pattern, code):
                    news = [f"{m.group(1)}.{f}" for f in fields] if kind == "field" else [replaced(m, how) for how in replacements]
                    if m.re.pattern.startswith("(?<=[{,] )") and not re.search(r"(^\s*|[A-Z]\w* \{ (.*, )?)$", code[: m.start()]):
                        continue
                    found += [Change(kind, of, inside, at + m.start(), m.group(0), new) for new in news if new != m.group(0)]
        at += len(line)
    return found


def called(function, functions, all=False):
    """The private functions of its own crate that a function calls, and what those call; or public ones too."""
    table = {}
    for f in functions:
        if f.crate == function.crate and (all or not f.public):
            table.setdefault(f.name, []).append(f)
    seen, todo = [], [function]
    while todo:
        f = todo.pop()
        for name in re.findall(r"(\w+)\(", open(f.file).read()[f.start : f.end]):
            for g in table.get(name, []):
                if g not in seen:
                    seen.append(g)
                    todo.append(g)
    return seen


def between(change, functions):
    """The functions that are copied for a change: its own, the one that has it, and those by which the first calls the second."""
    if change.of is change.inside:
        return [change.of]
    return [change.of] + [f for f in called(change.of, functions) if f is change.inside or change.inside in called(f, functions)]


def copies(change, suffix, functions):
    """Changed copies, whose names have the suffix: each with the function that it is a copy of."""
    chain = between(change, functions)
    for f in chain:
        text = open(f.file).read()
        body = text[f.start : f.end]
        if f is change.inside:
            body = change.applied(text)[f.start : f.end + len(change.new) - len(change.old)]
        for g in chain[1:]:
            body = re.sub(rf"\b{g.name}(?=(::<[^>]*>)?\()", g.name + suffix, body)
        if f.trait:
            body = re.sub(r"\bSelf\b", f.owner, body)
        yield f, f"{'pub ' if f is change.of else ''}fn {f.name}{suffix}{f.head} {{\n{body}}}\n"


def risk(change):
    """How often a change of this kind leaves what is defined: the run stops there, so it is tried late."""
    body = open(change.file).read()[change.inside.start : change.inside.end]
    if "f64" in change.inside.head + body and " as " not in body:
        return 0
    if change.new in (" - ", " * ") or "q.counters" in change.line(open(change.file).read()) and change.kind in ("check dropped", "assignment dropped"):
        return 2
    if change.kind in ("check dropped", "assignment dropped"):
        return int(bool(re.search(r" \+ |\+= |sent|record|report|frame|counter", body)))
    return int(change.kind in ("comparison", "condition turned round", "operand", "method") and bool(re.search(r" [-+] | as |\w\[|\* ", body)))


def type_of(word, inside, sources):
    """The type of a parameter, or of a field that is always of one type; else nothing."""
    if not re.fullmatch(r"[a-z_][\w.]*", word):
        return None
    name = word.split(".")[-1]
    if "." not in word:
        return next((kind.removeprefix("&").removeprefix("mut ") for n, kind in inside.params if n == name), None)
    kinds = {kind for types in sources.types.values() for t in types for n, kind in t.fields or [] if n == name}
    return kinds.pop() if len(kinds) == 1 else None


def fits(change, sources):
    """Whether a change may compile, as far as the types of what it changes are known."""
    old, new = change.old.strip(", "), change.new.split(": ")[-1].strip(", ")
    if change.kind == "field":
        structs = [dict(t.fields) for types in sources.types.values() for t in types if t.fields]
        a, b = old.split(".")[-1], new.split(".")[-1]
        return any(a in s and s[a] == s.get(b) for s in structs)
    if change.kind == "arguments" and change.old.startswith("("):
        kinds = {type_of(word, change.inside, sources) for word in change.old[1:].split(", ")}
        return len(kinds) == 1 or None in kinds
    kind = type_of(old, change.inside, sources)
    if kind and new in ("0", "1"):
        return kind in ("u8", "u16", "u32", "u64", "usize", "i32", "i64")
    if kind and new in ("true", "false"):
        return kind == "bool"
    return True


def drawn(function, sources, rng):
    """Changes in the function's own body first, then in what it calls; of each, one of every kind first."""
    order = []
    for bodies in ([function], called(function, sources.functions)):
        pool = [change for body in bodies for change in within(body, function)]
        rng.shuffle(pool)
        seen = set()
        first = [c for c in pool if c.kind not in seen and not seen.add(c.kind)]
        both = first + [c for c in pool if c not in first]
        order += sorted(both, key=risk)
    return [change for change in order if fits(change, sources)]


def written(path, sources):
    """The changes of a file, a line each: the function, what stands in its body once, and what takes its place, between ` | `."""
    found = []
    for line in open(path):
        if line.strip() and not line.startswith("#"):
            of, old, new = (word.strip("\n") for word in line.split(" | "))
            function = next((f for f in sources.functions if f.path == of), None)
            if function is None:
                raise SystemExit(f"{path}: there is no {of}")
            body = open(function.file).read()[function.start : function.end]
            if body.count(old) != 1:
                raise SystemExit(f"{path}: {of} has {old} {body.count(old)} times")
            found.append(Change("written", function, function, function.start + body.index(old), old, new))
    return found
