"""A program that calls functions on the inputs that it reads, each beside changed copies of it, and writes where a copy answers otherwise. An answer is the result, and what was lent as the call left it."""
import re, struct

from .inputs import KINDS, SIGNED, bare, pattern, slice_in
from .sources import split

# a lent buffer is shorter than its room, so that the pad comes after it
BYTES, SLOTS = 88, 9

# a reader has a lent buffer in it
READER, PLACE = "reader::Reader", "codec::Place"

PRELUDE = """
use std::io::{self, Read, Write};

const ROOM: usize = 16384;

// An answer's text.
#[derive(Drop)]
struct Said {
    bytes: [u8; 16384],
    len: usize,
}

fn put(said: &mut Said, b: u8) {
    if said.len < ROOM {
        said.bytes[said.len] = b;
        said.len += 1;
    }
}

fn word(given: &[u8], at: usize) -> u64 {
    let mut n = 0u64;
    let mut i = 8usize;
    while i > 0 {
        i -= 1;
        n = n * 256 + given[8 * at + i] as u64;
    }
    n
}

fn float(w: u64) -> f64 {
    if w % 9223372036854775808 > 9218868437227405312 {
        return 0.0 / 0.0;
    }
    f64::from_bits(w)
}

fn signed(w: u64) -> i64 {
    if w < 9223372036854775808 {
        return w as i64;
    }
    -((18446744073709551615 - w) as i64) - 1
}

fn show(said: &mut Said, n: u64) {
    let mut unit = 1u64;
    while n / unit >= 10 {
        unit *= 10;
    }
    while unit > 0 {
        put(said, 48 + (n / unit % 10) as u8);
        unit /= 10;
    }
    put(said, 32);
}

fn show_signed(said: &mut Said, z: i64) {
    if 0 <= z {
        show(said, z as u64);
    } else {
        show(said, 18446744073709551615 - (-(z + 1)) as u64);
    }
}

fn show_float(said: &mut Said, x: f64) {
    if x != x {
        show(said, 9221120237041090560);
    } else {
        show(said, x.to_bits());
    }
}

fn show_flag(said: &mut Said, b: bool) {
    if b {
        show(said, 1);
    } else {
        show(said, 0);
    }
}
"""


MAIN = """
fn same(a: &Said, b: &Said) -> bool {{
    if a.len != b.len {{
        return false;
    }}
    let mut i = 0usize;
    while i < a.len {{
        if a.bytes[i] != b.bytes[i] {{
            return false;
        }}
        i += 1;
    }}
    true
}}

fn sum(a: &Said) -> u64 {{
    let mut n = 7u64;
    let mut i = 0usize;
    while i < a.len {{
        n = (n * 31 + a.bytes[i] as u64) % 1000000000039;
        i += 1;
    }}
    n
}}

fn main(rt: HostRuntime) -> io::Result<()> {{
    let mut given = [0u8; {size}];
    let mut stdin = rt.stdin();
    let mut stderr = rt.stderr();
    let mut right = Said {{ bytes: [0u8; 16384], len: 0 }};
    let mut wrong = Said {{ bytes: [0u8; 16384], len: 0 }};
    let mut again = Said {{ bytes: [0u8; 16384], len: 0 }};
    let mut line = Said {{ bytes: [0u8; 16384], len: 0 }};
{calls}
    Ok(())
}}
"""

# the copies of one function: the place of a copy, each case on which it answers otherwise, whatever stands past a buffer's end, with the sum of its answer, and at the first of these both answers
CALLS = """
    let mut got = 0usize;
    while got < {bytes} {{
        let n = stdin.read(&mut given[got..{bytes}])?;
        if n == 0 {{
            return Ok(());
        }}
        got += n;
    }}
    let mut found = 0u64;
    let mut k = {first}u64;
    while (k < {stop}) & (found < {enough}) {{
        line.len = 0;
        put(&mut line, 109);
        put(&mut line, 32);
        show(&mut line, k);
        put(&mut line, 59);
        put(&mut line, 10);
        stderr.write_all(&line.bytes[..line.len])?;
        let mut differ = 0u64;
        let mut i = 0usize;
        while (i < {cases}) & (differ < 2) {{
            right.len = 0;
            once{j}(&given[i * {size}..(i + 1) * {size}], 0, 0, &mut right);
            wrong.len = 0;
            once{j}(&given[i * {size}..(i + 1) * {size}], k, 0, &mut wrong);
            if !same(&right, &wrong) {{
                again.len = 0;
                once{j}(&given[i * {size}..(i + 1) * {size}], k, 77, &mut again);
                if same(&wrong, &again) {{
                    line.len = 0;
                    put(&mut line, 100);
                    put(&mut line, 32);
                    show(&mut line, k);
                    show(&mut line, i as u64);
                    show(&mut line, sum(&wrong));
                    put(&mut line, 58);
                    stderr.write_all(&line.bytes[..line.len])?;
                    if differ == 0 {{
                        stderr.write_all(&right.bytes[..right.len])?;
                        stderr.write_all(&[58u8])?;
                        stderr.write_all(&wrong.bytes[..wrong.len])?;
                    }}
                    stderr.write_all(&[59u8, 10u8])?;
                    differ += 1;
                }}
            }}
            i += 1;
        }}
        if differ > 0 {{
            found += 1;
        }}
        k += 1;
    }}
"""


def most(inner):
    """Elements of a lent buffer at most."""
    return BYTES if inner == "u8" else SLOTS


def taken(inner):
    """Words of an input that a buffer takes."""
    return BYTES // 8 if inner == "u8" else SLOTS


def word_of(kind):
    """A type as a word of a function's name."""
    return re.sub(r"\W+", "_", kind).strip("_").lower()


class Program:
    """Of many calls, each of which has `copies` and `cases`."""

    def __init__(self, calls, enough):
        made, bodies, mains, first = {}, [], [], 1
        for j, call in enumerate(calls):
            stop = first + len(call.copies)
            bodies.append(call.once(j, first))
            made.update(call.made)
            size = max(8 * call.words, 8)
            mains.append(CALLS.format(j=j, size=size, cases=len(call.cases), bytes=size * len(call.cases), first=first, stop=stop, enough=enough))
            first = stop
        most = max(max(8 * call.words, 8) * len(call.cases) for call in calls)
        self.text = PRELUDE + "\n".join(made.values()) + "\n".join(bodies) + MAIN.format(size=most, calls="".join(mains))
        self.input = b"".join(case for call in calls for case in call.cases)


class Call:
    """One function; `bound` is what its parameters between `<` and `>` stand for. `copies` are the paths of its changed copies."""

    def __init__(self, sources, function, bound={}):
        self.sources, self.function, self.made, self.bound = sources, function, {}, bound
        self.params, self.result = sources.params(function, bound), sources.result(function, bound)
        self.cases, self.copies = [], []
        self.words = sum(self.taken_by(kind) for _, kind in self.params)

    def taken_by(self, kind):
        if inner := slice_in(kind):
            return 1 + taken(inner)
        return 1 + taken("u8") + self.width(PLACE) if bare(kind) == READER else self.width(bare(kind))

    def once(self, j, first):
        """A function that makes the call on one case: of the function where `which` is 0, else of the copy that has this place."""
        lines, call, after = [], [], []
        words = 0
        for i, (name, kind) in enumerate(self.params):
            of = bare(kind)
            if inner := slice_in(kind):
                mutable = kind.startswith("&mut")
                lines += self.room(i, inner, words)
                call.append(f"&{'mut ' if mutable else ''}room{i}[..length{i}]")
                if mutable:
                    # what was changed, with its place
                    lines.append(f"let was{i} = room{i};")
                    after.append(f"j{i} = 0; while j{i} < {most(inner)} {{ if room{i}[j{i}] != was{i}[j{i}] {{ show(said, j{i} as u64); {self.show(inner, f'room{i}[j{i}]')} }} j{i} += 1; }}")
            elif of == READER:
                lines += self.room(i, "u8", words)
                lines.append(f"let mut a{i} = {READER} {{ buf: &room{i}[..length{i}], at: {self.read(PLACE, str(words + 1 + taken('u8')))} }};")
                call.append(f"a{i}")
                if kind.startswith("&mut"):
                    after.append(self.show(PLACE, f"a{i}.at"))
            else:
                lines.append(f"let mut a{i} = {self.read(of, str(words))};")
                lent = kind.startswith("&")
                call.append((("&mut " if kind.startswith("&mut") else "&") if lent and name != "self" else "") + f"a{i}")
                if kind.startswith("&mut"):
                    after.append(self.show(of, f"a{i}"))
            words += self.taken_by(kind)
        called = [self.called(call, None)] + [self.called(call, copy) for copy in self.copies]
        chosen = "".join(f"if which == {k and k + first - 1} {{ {c} }} else " for k, c in enumerate(called[:-1])) + f"{{ {called[-1]} }}"
        if self.result:
            lines.append(f"let r = {chosen};")
            lines.append(self.show_result(self.result))
        else:
            lines.append(chosen.replace(" }", "; }"))
        lines += ["put(said, 124); put(said, 32); " + line for line in after]
        body = "\n".join("    " + line for line in lines)
        return f"\nfn once{j}(given: &[u8], which: u64, pad: u64, said: &mut Said) {{\n{body}\n}}\n"

    def called(self, arguments, suffix):
        """The call, or one of a copy, whose name has a suffix. A copy of a trait's function stands by itself in the module."""
        function = self.function
        name = function.name + (suffix or "") + (f"::<{', '.join(self.bound.values())}>" if self.bound else "")
        if function.params and function.params[0][0] == "self":
            return f"{arguments[0]}.{name}({', '.join(arguments[1:])})"
        if function.owner and not (function.trait and suffix):
            return f"{self.sources.whole(function.owner, function.file)}::{name}({', '.join(arguments)})"
        return f"{function.module}::{name}({', '.join(arguments)})"

    def room(self, i, inner, at):
        """A buffer and its length, from the words at `at`."""
        value = f"given[{8 * (at + 1)} + j{i}]" if inner == "u8" else self.read(inner, f"{at + 1} + j{i}")
        return [
            f"let mut room{i} = [pad as {inner}; {most(inner)}];",
            f"let length{i} = word(given, {at}) as usize;",
            f"let mut j{i} = 0usize;",
            f"while j{i} < length{i} {{ room{i}[j{i}] = {value}; j{i} += 1; }}",
        ]

    # ---- types, written whole
    def fields(self, kind):
        """The fields of a struct or a tuple, by name; nothing where it is an enum."""
        if kind.startswith("("):
            return [(str(i), k) for i, k in enumerate(split(kind[1:-1]))]
        return self.sources.declared(kind)[1] or None

    def variants(self, kind):
        return self.sources.declared(kind)[2]

    def width(self, kind):
        if kind in KINDS or kind in SIGNED or kind in ("f64", "bool"):
            return 1
        if kind.startswith("["):
            inner, length = kind[1:-1].split("; ")
            return self.width(inner) * int(length)
        if (fields := self.fields(kind)) is not None:
            return sum(self.width(k) for _, k in fields)
        return 1 + sum(self.width(k) for _, fields, _ in self.variants(kind) for _, k in fields)

    def read(self, kind, at):
        """An expression for the value that stands in the words from `at` on."""
        if kind == "bool":
            return f"word(given, {at}) == 1"
        if kind == "f64":
            return f"float(word(given, {at}))"
        if kind == "i64":
            return f"signed(word(given, {at}))"
        if kind == "i32":
            return f"signed(word(given, {at})) as i32"
        if kind in KINDS:
            return f"word(given, {at})" + ("" if kind == "u64" else f" as {kind}")
        if kind.startswith("["):
            inner, length = kind[1:-1].split("; ")
            return "[" + ", ".join(self.read(inner, f"{at} + {i * self.width(inner)}") for i in range(int(length))) + "]"
        name = "read_" + word_of(kind)
        if name not in self.made:
            self.made[name] = ""
            place, lines = 0, []
            if (fields := self.fields(kind)) is not None:
                parts = []
                for n, k in fields:
                    lines.append(f"    let v_{n} = {self.read(k, f'at + {place}')};")
                    parts.append(f"v_{n}" if n.isdigit() else f"{n}: v_{n}")
                    place += self.width(k)
                lines.append("    " + self.built(kind, fields, parts))
            else:
                place = 1
                variants = self.variants(kind)
                for tag, (variant, fields, named) in enumerate(variants):
                    parts = []
                    for n, k in fields:
                        parts.append((f"{n}: " if named else "") + self.read(k, f"at + {place}"))
                        place += self.width(k)
                    made = self.variant(kind, variant) + (f" {{ {', '.join(parts)} }}" if named else f"({', '.join(parts)})" if parts else "")
                    lines.append(f"    if word(given, at) == {tag} {{ return {made}; }}" if tag + 1 < len(variants) else f"    {made}")
            self.made[name] = f"fn {name}(given: &[u8], at: usize) -> {self.spelled(kind)} {{\n" + "\n".join(lines) + "\n}\n"
        return f"{name}(given, {at})"

    def built(self, kind, fields, parts):
        path = kind.split("<")[0]
        if kind.startswith("("):
            return f"({', '.join(parts)})"
        return f"{path}({', '.join(parts)})" if fields and fields[0][0].isdigit() else f"{path} {{ {', '.join(parts)} }}"

    def variant(self, kind, name):
        return name if kind.split("<")[0] in ("Option", "Result") else f"{kind.split('<')[0]}::{name}"

    def spelled(self, kind):
        return kind.replace("Range<", "std::ops::Range<")

    def show(self, kind, value):
        """A statement that writes the value."""
        if kind == "()":
            return ""
        if kind == "bool":
            return f"show_flag(said, {value});"
        if kind == "f64":
            return f"show_float(said, {value});"
        if kind in SIGNED:
            return f"show_signed(said, {value}{'' if kind == 'i64' else ' as i64'});"
        if kind in KINDS:
            return f"show(said, {value}{'' if kind == 'u64' else ' as u64'});"
        if kind.startswith("["):
            inner, length = kind[1:-1].split("; ")
            return " ".join(self.show(inner, f"{value}[{i}]") for i in range(int(length)))
        name = "show_" + word_of(kind)
        if name not in self.made:
            self.made[name] = ""
            if (fields := self.fields(kind)) is not None:
                body = "\n".join(f"    let v_{n} = x.{n};\n    {self.show(k, f'v_{n}')}" for n, k in fields)
            else:
                arms = []
                for tag, (variant, fields, named) in enumerate(self.variants(kind)):
                    names = [n if named else f"v{n}" for n, _ in fields]
                    holes = [n if k != "()" else "()" for n, (_, k) in zip(names, fields)]
                    bound = (f" {{ {', '.join(holes)} }}" if named else f"({', '.join(holes)})") if names else ""
                    parts = [f"show(said, {tag});"] + [self.show(k, n) for n, (_, k) in zip(names, fields)]
                    arms.append(f"        {self.variant(kind, variant)}{bound} => {{ {' '.join(parts)} }}")
                body = "    match x {\n" + "\n".join(arms) + "\n    }"
            self.made[name] = f"fn {name}(said: &mut Said, x: {self.spelled(kind)}) {{\n{body}\n}}\n"
        return f"{name}(said, {value});"

    def show_result(self, kind):
        if kind.startswith("&"):
            return "show(said, r.len() as u64); let mut j = 0usize; while j < r.len() { show(said, r[j] as u64); j += 1; }"
        if kind == READER:
            return self.show(PLACE, "r.at") + " let mut j = 0usize; while j < r.buf.len() { show(said, r.buf[j] as u64); j += 1; }"
        return self.show(kind, "r")

    # ---- an answer read back
    def answer(self, line):
        """The result, and for each thing lent what it holds, or in a buffer what was changed; each by its name."""
        parts = [iter(int(word) for word in part.split()) for part in line.split("|")]
        said = {}
        if self.result:
            said["answer"] = self.value_of(self.result, parts[0])
        lent = [(name, kind) for name, kind in self.params if kind.startswith("&mut")]
        for (name, kind), part in zip(lent, parts[1:]):
            if bare(kind) == READER:
                said[name] = {"at": self.value_of(PLACE, part)}
            elif inner := slice_in(kind):
                said[name] = {f"[{at}]": self.value_of(inner, part) for at in part}
            else:
                said[name] = self.value_of(bare(kind), part)
        return said

    def past_end(self, values, line):
        """Whether a lent buffer was written past its end."""
        said = self.answer(line)
        lent = {name: value for (name, kind), value in zip(self.params, values) if kind.startswith("&mut [")}
        return any(int(at[1:-1]) >= len(lent[name]) for name in lent for at in said[name])

    def value_of(self, kind, words):
        """A struct or a tuple is a dict of its fields, and a variant stands with a list of its own."""
        if kind.startswith("&"):
            return [next(words) for _ in range(next(words))]
        if kind == READER:
            return {"at": self.value_of(PLACE, words), "buf": list(words)}
        if kind == "()":
            return {}
        if kind == "bool":
            return next(words) == 1
        if kind == "f64":
            return struct.unpack("<d", struct.pack("<Q", next(words)))[0]
        if kind in SIGNED:
            n = next(words)
            return n - 2**64 if n >= 2**63 else n
        if kind in KINDS:
            return next(words)
        if kind.startswith("["):
            inner, length = kind[1:-1].split("; ")
            return [self.value_of(inner, words) for _ in range(int(length))]
        if (fields := self.fields(kind)) is not None:
            return {n: self.value_of(k, words) for n, k in fields}
        variant, fields, _ = self.variants(kind)[next(words)]
        return (variant, [self.value_of(k, words) for _, k in fields if k != "()"])

    # ---- a case as bytes
    def bytes_of(self, values):
        words = []
        for (_, kind), value in zip(self.params, values):
            if inner := slice_in(kind):
                words += self.slice_of(inner, value)
            elif bare(kind) == READER:
                words += self.slice_of("u8", value["buf"]) + self.words_of(PLACE, value["at"])
            else:
                words += self.words_of(bare(kind), value)
        assert len(words) == self.words, (self.function.path, len(words), self.words)
        return struct.pack(f"<{max(len(words), 1)}Q", *(words or [0]))

    def slice_of(self, inner, values):
        if inner == "u8":
            return [len(values)] + list(struct.unpack(f"<{BYTES // 8}Q", bytes(values).ljust(BYTES, b"\0")))
        return [len(values)] + [v % 2**64 for v in values] + [0] * (SLOTS - len(values))

    def words_of(self, kind, value):
        if kind == "f64":
            return [pattern(value)]
        if kind in KINDS or kind in SIGNED or kind == "bool":
            return [int(value) % 2**64]
        if kind.startswith("["):
            return [w for v in value for w in self.words_of(kind[1:-1].split("; ")[0], v)]
        if (fields := self.fields(kind)) is not None:
            return [w for n, k in fields for w in self.words_of(k, value[n])]
        words = []
        for tag, (variant, fields, _) in enumerate(self.variants(kind)):
            if variant == value[0]:
                words = [tag] + words
                words += [w for (_, k), v in zip(fields, value[1]) for w in self.words_of(k, v)]
            else:
                words += [0] * sum(self.width(k) for _, k in fields)
        return words
