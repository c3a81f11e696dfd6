"""The types and functions of the libraries, read off their text in the formatter's layout.

A type is written below as a word with the whole paths of what is declared: `Option<u64>`, `&mut codec::Place`, `refusals::refusal::Refused<sender::SenderState>`, `(a::B, [u8; 4])`, without lifetimes.
"""
import glob, os, re

NUMBERS = ("u8", "u16", "u32", "u64", "usize", "i32", "i64", "f64", "bool")

# the impls of a trait whose function has a contract of its own, and is called by name
TRAITS = ("Default", "From", "TryFrom")

# the library's own types that hold other types
BUILT = {
    "Option": (["T"], None, [("None", [], False), ("Some", [("0", "T")], False)]),
    "Result": (["T", "E"], None, [("Ok", [("0", "T")], False), ("Err", [("0", "E")], False)]),
    "Range": (["T"], [("start", "T"), ("end", "T")], None),
}


class Type:
    """A struct (fields: name, type) or an enum (variants: name, fields, whether they are named); `holds` are its parameters, and fields by number are a tuple's."""

    def __init__(self, name, path, file, holds, fields, variants):
        self.name, self.path, self.file, self.holds, self.fields, self.variants = name, path, file, holds, fields, variants


class Function:
    """`start` to `end` is the body in its file's text; `path` calls it from another crate; `owner` is the type of an `impl`, or nothing; `told` is its name in the prover's lines. `holds` are the
    parameters that a call gives it, `N` a number and `S` a type; `head` is what stands from its name's end to its clauses, and `trait` whether it is an impl's of a trait."""

    def __init__(self, crate, file, module, owner, name, public, holds, params, result, start, end, told, head, trait):
        self.head, self.trait = head, trait
        self.crate, self.file, self.owner, self.name, self.public, self.holds = crate, file, owner, name, public, holds
        self.params, self.result, self.start, self.end, self.told = params, result, start, end, told
        self.path = f"{module}::{owner}::{name}" if owner else f"{module}::{name}"

    @property
    def module(self):
        return self.path.removesuffix(f"::{self.title}")

    @property
    def title(self):
        return f"{self.owner}::{self.name}" if self.owner else self.name

    def calls(self):
        """What its parameters stand for in each call tried: nothing, a few lengths, or one type."""
        given = [{}]
        for name in self.holds:
            given = [{**one, name.removeprefix("const "): to} for one in given for to in (("2", "4", "8") if name.startswith("const ") else ("u64",))]
        return given


def libraries(root):
    """Every library of crates.txt, lowest layer first."""
    names = [line.split(":")[0] for line in open(f"{root}/crates.txt") if ":" in line and not line.startswith("#")]
    return [name for name in names if os.path.exists(f"{root}/crates/{name}/src/lib.rt")]


def below(root, crate):
    """A crate and all that it depends on, of crates.txt."""
    lines = [line.split("#")[0] for line in open(f"{root}/crates.txt")]
    uses = {line.split(":")[0].split()[0]: line.split(":")[1].split() for line in lines if ":" in line}
    found, todo = [], [crate]
    while todo:
        name = todo.pop()
        if name in uses and name not in found:
            found.append(name)
            todo += uses[name]
    return found


def split(text):
    """At commas that stand in no bracket."""
    parts, depth, start = [], 0, 0
    for i, c in enumerate(text):
        depth += (c in "([{<") - (c in ")]}" or c == ">" and text[i - 1 : i] != "-")
        if c == "," and depth == 0:
            parts.append(text[start:i].strip())
            start = i + 1
    return [part for part in parts + [text[start:].strip()] if part]


def module_of(root, crate, file):
    """The path of a file's module, as another crate writes it."""
    inner = os.path.relpath(file, f"{root}/crates/{crate}/src")[:-3]
    return crate if inner == "lib" else crate + "::" + inner.replace("/", "::")


def without_comments(text):
    return re.sub(r"//[^\n]*", lambda m: " " * len(m.group(0)), text)


def held(text):
    """The parameters between `<` and `>`, without lifetimes and bounds."""
    return [part.split(":")[0].strip() for part in split(text or "") if not part.startswith("'")]


def types_in(text, module, file):
    found = []
    for m in re.finditer(r"^pub(?:\(crate\))? struct (\w+)(?:<([^>]*)>)? \{(.*?)^\}", text, re.M | re.S):
        fields = [part.split(": ", 1) for part in split(m.group(3))]
        fields = [(re.sub(r"^pub(\(crate\))? ", "", name).strip(), kind.strip()) for name, kind in fields]
        found.append(Type(m.group(1), f"{module}::{m.group(1)}", file, held(m.group(2)), fields, None))
    for m in re.finditer(r"^pub struct (\w+)(?:<([^>]*)>)?\((.*?)\);", text, re.M | re.S):
        fields = [(str(i), re.sub(r"^pub ", "", kind)) for i, kind in enumerate(split(m.group(3)))]
        found.append(Type(m.group(1), f"{module}::{m.group(1)}", file, held(m.group(2)), fields, None))
    for m in re.finditer(r"^pub enum (\w+)(?:<([^>]*)>)? \{(.*?)^\}", text, re.M | re.S):
        variants = []
        for part in split(m.group(3)):
            v = re.fullmatch(r"(\w+)(?:\((.*)\)| \{(.*)\}| = \w+)?", part, re.S)
            named = v.group(3) is not None
            inside = split(v.group(3) if named else v.group(2) or "")
            fields = [tuple(w.strip() for w in f.split(":", 1)) for f in inside] if named else [(str(i), f) for i, f in enumerate(inside)]
            variants.append((v.group(1), fields, named))
        found.append(Type(m.group(1), f"{module}::{m.group(1)}", file, held(m.group(2)), None, variants))
    return found


HEAD = re.compile(r'^([ \t]*)(pub |pub\(crate\) )?(?:extern "C" )?fn (\w+)(?:<([^>]*)>)?\(', re.M)
IMPL = re.compile(r"^(?:impl(?:<[^>]*>)? (?:([\w:]+)(?:<([^>]*)>)? for )?(\w+)|(\}))", re.M)


def closing(text, at):
    """The place of the bracket that closes the one before `at`."""
    depth = 1
    while depth:
        depth += (text[at] in "([{") - (text[at] in ")]}")
        at += 1
    return at - 1


def functions_in(text, crate, file, module):
    found = []
    for m in HEAD.finditer(text):
        indent, name = m.group(1), m.group(3)
        inside = IMPL.findall(text[: m.start()])
        trait, argument, owner = inside[-1][:3] if inside and indent else ("", "", "")
        end = closing(text, m.end())
        params = []
        for p in split(text[m.end() : end]):
            if re.match(r"(mut )?\w+:", p):
                word, kind = p.split(":", 1)
                params.append((word.removeprefix("mut ").strip(), kind.strip()))
            else:
                params.append(("self", p.replace("mut self", "&mut self" if "&" in p else "self").replace("&&", "&").replace("self", owner)))
        rest = text[end + 1 :]
        stop = re.search(r"\{$", rest, re.M) if re.match(r" (?:-> [^\n]*)?\{$", rest.split("\n")[0]) else re.search(r"^" + indent + r"\{$", rest, re.M)
        head = rest[: stop.start()]
        result = re.match(r"\s*->\s*(.*?)(?=\s*(?:\n[ \t]*(?:ensures|requires)|$))", head.strip(), re.S)
        start = end + 1 + stop.end() + 1
        finish = re.search(r"^" + indent + r"\}", text[start:], re.M).start() + start
        kind = " ".join(result.group(1).split()) if result else ""
        own = lambda word: re.sub(r"\bSelf\b", owner, word)
        # the prover names an impl of a trait by its type, its trait and the trait's argument, in one word
        among = owner[:1].upper() + owner[1:] + trait + argument[:1].upper() + argument[1:] if trait else ""
        found.append(
            Function(
                crate,
                file,
                module,
                owner,
                name,
                m.group(2) == "pub " or trait in TRAITS,
                held(m.group(4)),
                [(word, own(k)) for word, k in params],
                own(kind),
                start,
                finish,
                f"{module}::{among}::{name}" if among else "" if owner else f"{module}::{name}",
                (f"<{m.group(4)}>" if m.group(4) else "") + "(" + own(text[m.end() : end]) + ")" + (f" -> {own(kind)}" if kind else ""),
                trait,
            )
        )
    return found


class Sources:
    def __init__(self, root):
        self.root, self.types, self.functions, self.uses, self.by_path = root, {}, [], {}, {}
        for name, (holds, fields, variants) in BUILT.items():
            self.by_path[name] = Type(name, name, None, holds, fields, variants)
        for crate in libraries(root):
            for file in sorted(glob.glob(f"{root}/crates/{crate}/src/**/*.rt", recursive=True)):
                text = without_comments(open(file).read())
                module = module_of(root, crate, file)
                for t in types_in(text, module, file):
                    self.types.setdefault(t.name, []).append(t)
                    self.by_path[t.path] = t
                self.functions += functions_in(text, crate, file, module)
                self.uses[file] = used(text, crate)
        for f in self.functions:
            f.told = f.told or f"{self.whole(f.owner, f.file)}::{f.name}"

    def resolve(self, name, file):
        """The type that a name means in a file: declared there, brought in, or the only one so named."""
        last = name.split("::")[-1]
        known = self.types.get(last, [])
        module = module_of(self.root, file.split("/crates/")[1].split("/")[0], file)
        for t in known:
            if "::" in name and t.path.endswith("::" + name) or t.path == f"{module}::{name}" or t.path in self.uses[file]:
                return t
        if len(known) == 1:
            return known[0]
        raise KeyError(f"{name} in {file}")

    def whole(self, kind, file, bound={}):
        """A type as a file writes it, with whole paths; `bound` are the parameters that stand for something else."""
        kind = re.sub(r"'\w+,? ?", "", kind).replace("<>", "").strip()
        if kind in bound:
            return bound[kind]
        if kind in NUMBERS or kind == "()":
            return kind
        for lent in ("&mut ", "&"):
            if kind.startswith(lent):
                return lent + self.whole(kind[len(lent) :], file, bound)
        if kind.startswith("["):
            inner, *length = kind[1:-1].split("; ")
            return "[" + "; ".join([self.whole(inner, file, bound)] + [bound.get(n, n) for n in length]) + "]"
        if kind.startswith("("):
            return "(" + ", ".join(self.whole(k, file, bound) for k in split(kind[1:-1])) + ")"
        name, inside = re.fullmatch(r"([\w:]+)(?:<(.*)>)?", kind, re.S).groups()
        path = name if name in BUILT else self.resolve(name, file).path
        return path + (f"<{', '.join(self.whole(k, file, bound) for k in split(inside))}>" if inside else "")

    def declared(self, kind):
        """Of a whole type, what it is declared as: a path, its fields or its variants, all with whole types."""
        name, inside = re.fullmatch(r"([\w:]+)(?:<(.*)>)?", kind, re.S).groups()
        t = self.by_path[name]
        bound = dict(zip(t.holds, split(inside or "")))
        whole = lambda fields: [(n, self.whole(k, t.file, bound)) for n, k in fields]
        return t, t.fields is not None and whole(t.fields), t.variants and [(n, whole(fields), named) for n, fields, named in t.variants]

    def params(self, function, bound={}):
        return [(name, self.whole(kind, function.file, bound)) for name, kind in function.params]

    def result(self, function, bound={}):
        return self.whole(function.result, function.file, bound) if function.result else ""


def used(text, crate):
    """The paths that a file brings in, one of each name in braces."""
    found = []
    for word in re.findall(r"^(?:pub )?use ([^;]+);", text, re.M):
        base, _, inside = word.partition("::{")
        for name in split(inside.rstrip("}")) if inside else [""]:
            found.append((f"{base}::{name}" if name else base).replace("crate::", f"{crate}::"))
    return found
