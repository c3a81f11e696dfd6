"""The input on which a changed function answers otherwise, found by running it beside the function as it stands."""
import re, shutil, sys

from . import changes, runs
from .inputs import Inputs, plain, shown
from .program import Call, Program

CASES = 500


class Witness:
    """`lines` tells two changed functions apart."""

    def __init__(self, given, right, wrong, lines):
        self.given, self.right, self.wrong, self.lines = given, right, wrong, lines


def parted(value):
    """Whether a value has parts with names of their own."""
    return isinstance(value, dict) or isinstance(value, tuple) and any(parted(v) for v in value[1])


def differing(right, wrong, path=""):
    """Where two answers differ: the path, and what either has there, or nothing."""
    if repr(right) == repr(wrong):
        return []
    if isinstance(right, dict) and isinstance(wrong, dict):
        # a tuple's parts by their numbers, and a buffer's by their places
        names = list(right) + [n for n in wrong if n not in right]
        return [d for n in names for d in differing(right.get(n), wrong.get(n), path + n if n.startswith("[") else f"{path}.{n}" if path else n)]
    if isinstance(right, tuple) and isinstance(wrong, tuple) and right[0] == wrong[0] and parted(right):
        return [d for a, b in zip(right[1], wrong[1]) for d in differing(a, b, f"{path}.{right[0]}")]
    return [(path, right, wrong)]


def brief(value):
    """A value, with `..` for a part of it that is long."""
    whole = shown(value)
    if len(whole) <= 60:
        return whole
    if isinstance(value, tuple):
        return f"{value[0]}({', '.join(brief(v) for v in value[1])})"
    if isinstance(value, dict):
        words = [(n, shown(v)) for n, v in value.items() if "0" in value or not plain(v)]
        short = [word if n.isdigit() else f"{n} {word}" for n, word in words if len(word) <= 24][:2]
        return ("(%s)" if "0" in value else "{%s}") % ", ".join(short + [".."])
    return whole


def apart(right, wrong):
    """Two answers, as far as they differ."""
    found = differing(right, wrong)

    def said(which):
        parts = [(d[0], d[which]) for d in found if d[which] is not None]
        return ", ".join(f"{n.removeprefix('answer.')} {brief(v)}" if n != "answer" else brief(v) for n, v in parts) or "as it was"

    return said(1), said(2)


class Tried:
    """A change in one call; `suffix` names its copies. `became`: "differs", "no input found", "no program", "undefined", "not run" where enough others were found, or nothing yet."""

    def __init__(self, change, call, given, suffix):
        self.change, self.call, self.given, self.suffix, self.became, self.witness = change, call, given, suffix, None, None


class Bench:
    """A tree of crates to run functions in, each beside changed copies of it."""

    def __init__(self, tree, sources, seed):
        self.tree, self.sources, self.seed, self.known, self.count = tree, sources, seed, {}, 0

    def file(self, file):
        """The file of the tree that stands for a file of the sources."""
        return file.replace(self.sources.root, self.tree)

    def calls(self, function):
        """Each way to call a function, with its inputs, the ones that are shortest to name first."""
        if function.path not in self.known:
            known = self.known[function.path] = []
            for bound in function.calls():
                call = Call(self.sources, function, bound)
                inputs = Inputs(self.sources, f"{self.seed} {function.path}")
                given = [inputs.case(call.params) for _ in range(CASES if function.params else 1)]
                given = sorted(given, key=lambda values: len(self.named(call, values)))
                call.cases = [call.bytes_of(values) for values in given]
                known.append((call, given))
        return self.known[function.path]

    def named(self, call, values):
        return ", ".join([f"{name} {to}" for name, to in call.bound.items()] + [f"{name} {shown(value)}" for (name, _), value in zip(call.params, values)]) or "none"

    def look(self, crate, wanted, enough):
        """Tries changes of functions of one crate: all of them at once, and what a stop or an error left, again. Gives what became of each."""
        runs.prepare(self.tree, crate)
        tried = []
        for change in wanted:
            self.count += 1
            tried += [Tried(change, call, given, f"_w{self.count}") for call, given in self.calls(change.of)]
        while todo := [one for one in tried if one.became is None]:
            self.round(todo, enough)
        return tried

    def round(self, todo, enough):
        """One run. It takes at least one change off those that are to do."""
        texts, spans = {}, []
        for one in {one.suffix: one for one in todo}.values():
            for function, copy in changes.copies(one.change, one.suffix, self.sources.functions):
                texts.setdefault(function.file, []).append((function, one.suffix, copy))
        for file, added in texts.items():
            spans += self.put(file, added)
        calls = []
        for call in {id(one.call): one.call for one in todo}.values():
            call.copies = [one.suffix for one in todo if one.call is call]
            calls.append(call)
        order = [one for call in calls for one in todo if one.call is call]
        program = Program(calls, enough)
        became, said = runs.once(self.tree, program.text, program.input)
        for file in texts:
            open(self.file(file), "w").write(open(file).read())
        print(f"{len(calls)} calls, {len(order)} changes: {became}", file=sys.stderr, flush=True)
        if became == "no program":
            bad = {suffix for file, line in re.findall(r"([\w./]+\.rt):(\d+):\d+: error", said) for path, start, stop, suffix in spans if path.endswith(file.split("crates/")[-1]) and start <= int(line) < stop}
            bad |= set(re.findall(r"_w\d+(?=\W)", said)) & {one.suffix for one in todo} if not bad else set()
            if not bad:
                raise SystemExit(f"no program, and no change is at fault:\n{said[-3000:]}")
            for one in todo:
                if one.suffix in bad:
                    one.became = "no program"
            return
        self.read(order, became, said)

    def put(self, file, added):
        """Copies into the tree's file, after the functions that they are copies of; the lines that each has."""
        text = open(file).read()
        places = []
        for function, suffix, copy in added:
            at = len(text) if function.trait else text.index("\n", function.end) + 1
            places.append((at, suffix, copy))
        spans, done, whole = [], 0, ""
        for at, suffix, copy in sorted(places, key=lambda place: place[0]):
            whole += text[done:at]
            done = at
            line = whole.count("\n") + 1
            whole += copy
            spans.append((self.file(file), line, line + copy.count("\n"), suffix))
        open(self.file(file), "w").write(whole + text[done:])
        return spans

    def read(self, order, became, said):
        """What a run said of each change that it came to."""
        started, told = [], {}
        for line in re.findall(r"^(?:\| )?([md] [^;\n]*);$", said, re.M):
            if line[0] == "m":
                started.append(int(line.split()[1]))
            else:
                head, *answers = line[2:].split(":")
                k, i, total = (int(word) for word in head.split())
                told.setdefault(k, []).append((i, total, answers))
        if became != "ended":
            # rt shows only the end of what was written: the change that the run stopped at is put aside, and all others are run again
            stopped = order[started[-1] - 1]
            stopped.became = "undefined"
            print(f"undefined: {stopped.change.of.path}, {stopped.change.old!r} to {stopped.change.new!r}", file=sys.stderr, flush=True)
            return
        for k, one in enumerate(order, 1):
            if k in told:
                i, _, answers = told[k][0]
                right, wrong = (one.call.answer(answer) for answer in answers)
                if one.call.past_end(one.given[i], answers[1]):
                    one.became = "no input found"
                    continue
                one.became = "differs"
                lines = (tuple(one.call.bound.values()), tuple((i, total) for i, total, _ in told[k]))
                one.witness = Witness(self.named(one.call, one.given[i]), *apart(right, wrong), lines)
            else:
                one.became = "no input found" if k in started else "not run"


def tree_for_runs(sources, tree):
    """A copy of the crates, in which nothing is proved."""
    shutil.copytree(f"{sources.root}/crates", f"{tree}/crates", ignore=shutil.ignore_patterns("out", "must-fail", "proofs"))
    shutil.copy(f"{sources.root}/crates.txt", tree)
