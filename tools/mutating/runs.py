"""A program run by `rt try`, over a tree of crates that need not be proved: on the toolchain's interpreter and compiled with checks, and either stops at anything undefined."""
import os, re, subprocess

NAME = "wrong_answers_probe"


def prepare(tree, crate):
    """Lists the probe, a program over one library, in the tree's crates.txt."""
    listed = [line for line in open(f"{tree}/crates.txt") if not line.startswith(NAME)]
    open(f"{tree}/crates.txt", "w").write("".join(listed) + f"{NAME}: {crate}\n")
    os.makedirs(f"{tree}/crates/{NAME}/src", exist_ok=True)


def once(tree, text, given):
    """What became of the run ("ended", "undefined", "more" or "no program"), and all that was said. Where a run stops, rt prints only the end of what it wrote."""
    open(f"{tree}/crates/{NAME}/src/main.rt", "w").write(text)
    try:
        run = subprocess.run(["rt", "try", "--steps", str(2_000_000_000), "--seconds", "300"], cwd=f"{tree}/crates/{NAME}", input=given, capture_output=True, timeout=900)
    except subprocess.TimeoutExpired:
        return "more", ""
    said = run.stderr.decode(errors="replace") + "\n" + run.stdout.decode(errors="replace")
    verdict = re.search(r"^run=(\S+)", said, re.M)
    if not verdict or verdict.group(1) == "none":
        return "no program", said
    return {"ended": "ended", "fault": "undefined"}.get(verdict.group(1), "more"), said
