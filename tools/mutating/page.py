"""docs/WRONG_ANSWERS.md, as the tool makes it: a section for each crate, made anew whole."""
import re, subprocess

from .witness import CASES

HEAD = """# Wrong answers

Made by `tools/mutations`: {count} wrong answers of {functions} functions, {few}, all refused by the prover.

A wrong answer is a change that keeps the code's shape, in a public function of a library or in what it calls of its own crate, with an input on which the changed function answers otherwise. Both functions were run on that input, on the toolchain's
interpreter; then the change was put to the prover of the kit that the section names, which refused it. Not counted are changes that show no difference on any of the {cases} inputs tried, changes whose run is undefined on an input before they differ on two, and changes that answer like another on the first two
inputs on which they differ.

Public functions are those written `pub fn`, and those of impls of `Default`, `From` and `TryFrom`, by the type that the impl is for. Impls of other traits, written or derived (`Display`, `Error`, `Debug`, `Clone`, `PartialEq`, `Hash`), are not counted. A function
with a length `N` between its angle brackets was tried with 2, 4 and 8, and one with a type `S` with `u64`.

A change marked *written* was written by hand (tools/mutating/written), where drawing found too few; the others were drawn by the seed that the section names. Fields of an input that are not named are 0, no or none. Of an answer only the part that
differs is shown, by its path, and `..` stands for a part that is long.
"""


def code(text):
    return "`" + text.replace("|", "\\|") + "`"


def cell(text):
    return text.replace("|", "\\|")


def changed(answer):
    change = answer.change
    line = change.line(open(change.file).read())
    return f"{code(change.old.strip())} → {code(change.new.strip()) if change.new.strip() else 'nothing'}" + (f" in {code(line)}" if line != change.old.strip() else "")


def row(answer):
    return f"| {code(name(answer.change.of))} | {changed(answer)}{' *written*' if answer.written else ''} | {cell(answer.found.given)} | {cell(answer.found.right)} | {cell(answer.found.wrong)} |"


def name(function):
    """A function's path below its crate's name, but for the module of a type."""
    return function.title if function.owner else function.path.split("::", 1)[1]


def sections(path):
    try:
        page = open(path).read()
    except FileNotFoundError:
        return {}
    return {part.split("\n", 1)[0]: part.split("\n", 1)[1].strip() for part in re.split(r"^## ", page, flags=re.M)[1:]}


def rows_of(function, found, tried, each):
    lines = [row(answer) for answer in found]
    if len(found) < each:
        why = f"{tried.get('no input found', 0)} changes drawn that showed no difference, {tried.get('no program', 0)} that do not compile, {tried.get('undefined', 0)} undefined"
        lines.append(f"| {code(name(function))} | {'no' if not found else 'no other'} change found: {why} | | | |")
    return lines


def head_of(seed):
    kit = subprocess.run(["rt", "version"], capture_output=True, text=True).stdout.strip()
    return f"Seed {seed}, kit `{kit}`."


def section(rows, seed, each):
    lines = [head_of(seed), "", "| function | change | input | right | wrong |", "|---|---|---|---|---|"]
    return "\n".join(lines + [line for one in rows for line in rows_of(*one, each)])


def with_rows(part, rows, seed, each):
    """A section as it stands, with the rows of some functions anew."""
    lines = part.split("\n")
    if lines[0] != head_of(seed):
        raise SystemExit("the section was made by another seed or kit: make it anew whole")
    for one in rows:
        mine = [i for i, line in enumerate(lines) if line.startswith(f"| {code(name(one[0]))} | ")]
        at = mine[0] if mine else len(lines)
        lines = [line for i, line in enumerate(lines) if i not in mine]
        lines[at:at] = rows_of(*one, each)
    return "\n".join(lines)


def text(path, made, crates):
    """The whole page: what comes before the sections, the sections made, and the others as they stand, in the order of the crates."""
    parts = {**sections(path), **made}
    parts = {crate: parts[crate] for crate in crates if crate in parts}
    rows = [line for part in parts.values() for line in part.split("\n") if line.startswith("| `")]
    wrong = [line for line in rows if "change found:" not in line]
    functions = sum(len({line.split(" | ")[0] for line in part.split("\n") if line.startswith("| `")}) for part in parts.values())
    few = len(rows) - len(wrong)
    said = "two of each" if not few else f"fewer than two of {few} of them, as their rows say"
    head = HEAD.format(cases=CASES, count=len(wrong), functions=functions, few=said)
    return head + "".join(f"\n## {crate}\n\n{part}\n" for crate, part in parts.items())


def write(path, made, crates):
    whole = text(path, made, crates)
    open(path, "w").write(whole)


def missing(path, sources):
    """The public functions that the page does not have, and those that it has and the code has not."""
    parts = sections(path)
    there = {f"{crate}::{name}" for crate, part in parts.items() for name in re.findall(r"^\| `([^`]*)` \|", part, re.M)}
    due = {f"{f.crate}::{name(f)}" for f in sources.functions if f.public}
    return sorted(due - there), sorted(there - due)
