#!/usr/bin/env python3
"""What changed since a commit, old and new side by side: public signatures, clauses and types; definitions; public laws in proofs/.
What is gone or new stands with one side alone. Layout does not count, and what differs only in that a refusal has a reason in place of its number,
or that an answer is a Result, is told by its name alone.

    tools/side_by_side.py COMMIT
"""
import re
import subprocess
import sys
from collections import defaultdict
from pathlib import Path

BASE = sys.argv[1]
ROOT = Path(__file__).resolve().parent.parent


def git(*args):
    done = subprocess.run(["git", *args], cwd=ROOT, capture_output=True, text=True)
    return done.stdout if done.returncode == 0 else ""


def was(path):
    return git("show", f"{BASE}:{path}")


def now(path):
    file = ROOT / path
    return file.read_text() if file.exists() else ""


def paths(kind):
    names = git("diff", "--name-only", BASE, "--", "crates").split() + git("ls-files", "-o", "--exclude-standard", "crates").split()
    return sorted({name for name in names if f"/{kind}/" in name})


def bare(text):
    return re.sub(r"\s+", "", text)


def signatures(text):
    """Public functions up to their body, and public types and constants."""
    found = {}
    for m in re.finditer(r"^(    )?pub (?:extern \"C\" )?(?:const )?fn (\w+).*?^(?:\1)?\{", text, re.S | re.M):
        head = m.group(0).rsplit("{", 1)[0].rstrip()
        head = re.sub(r",\n\s+\)", ")", re.sub(r"\(\n\s+", "(", head))
        head = re.sub(r",\n\s+(?=\w+:)", ", ", head)
        found[m.group(2)] = re.sub(r"\n    (?=    )", "\n", head) if m.group(1) else head
    for m in re.finditer(r"^(?:#\[derive[^\n]*\n)?pub (enum|struct) (\w+).*?^\}", text, re.S | re.M):
        line = re.sub(r"\n\s+", " ", m.group(0))
        found[f"{m.group(1)} {m.group(2)}"] = line.replace(",\n}", " }").replace("\n}", " }")
    for m in re.finditer(r"^pub const (\w+).*?;", text, re.S | re.M):
        found["const " + m.group(1)] = re.sub(r"\s+", " ", m.group(0))
    return found


def definitions(text):
    """Public definitions of a room of specs/, each up to an empty line or a comment."""
    found = {}
    lines = text.split("\n")
    at = 0
    while at < len(lines):
        m = re.match(r"^(?:  )?(?:(?:unfoldable |abbrev )?pub (?:record |data )?([^\s:({]+)).*", lines[at])
        if not m:
            at += 1
            continue
        end = at + 1
        while end < len(lines) and lines[end].strip() and not lines[end].startswith("--"):
            end += 1
        if not m.group(1).startswith("open_"):
            found[m.group(1)] = "\n".join(line for line in lines[at:end] if not line.startswith("unfolding"))
        at = end
    return found


def laws(text, found):
    """Statements of a room of proofs/, each up to its first equation; of a law in a module with the parameters of the modules around it."""
    lines = text.split("\n")
    modules = []
    at = 0
    while at < len(lines):
        line = lines[at]
        depth = len(line) - len(line.lstrip(" "))
        if line.strip():
            modules = [m for m in modules if m[0] < depth]
        end = at + 1
        if re.match(r"^ *module _ ", line):
            while not lines[end - 1].rstrip().endswith("where"):
                end += 1
            modules.append((depth, "\n".join(text[depth:] for text in lines[at:end])))
            at = end
            continue
        m = re.match(r"^ *(?:unfoldable |abbrev )?(?:pub )?(?:record |data )?([^\s:({]+)(?: .*)? : .*", line)
        inside = not modules or " pub " in f" {line.strip()} "
        if m and depth == 2 * len(modules) and inside and not line.strip().startswith(("use", "open", "--")):
            while end < len(lines) and lines[end].startswith(" " * (depth + 4)) and not re.match(r"^\s+(where|rewrite)\b", lines[end]):
                end += 1
            statement = "\n".join(text[depth:] for text in lines[at:end])
            found[m.group(1)].append("\n".join([head for _, head in modules] + [statement]))
        at = end


def public(statement):
    """Whether a law is one that other files may cite."""
    return any(re.match(r"(?:unfoldable |abbrev )?pub ", line) for line in statement.split("\n"))


REASONS = dict(re.findall(r"^    (\w+) = (\d+),$", now("crates/checks/src/lib.rt"), re.M))
ANSWERS = {
    "Result<Largest, Refusal>": "MatrixAnswer", "Result<usize, Refusal>": "JoinAnswer", "Result<Shape, Refusal>": "ShapeAnswer",
    "Result<TaylorReport, Refusal>": "TaylorAnswer", "Result<KrylovPhiReport, Refusal>": "KrylovAnswer", "Result<PhiReport, Refusal>": "PhiAnswer",
    "Result<PausedRun, Refusal>": "StartAnswer",
}
RESPELT = []


def respelt(text):
    """The text in the old words: a reason as its number, a Result as the answer that it took the place of."""
    text = re.sub(r"\bReason::(\w+)", lambda m: REASONS.get(m.group(1), m.group(0)), text)
    text = re.sub(r"\b[A-Z]\w+\b", lambda m: REASONS.get(m.group(0), "ℕ" if m.group(0) == "Reason" else m.group(0)), text)
    for new, old in ANSWERS.items():
        text = text.replace(new, old)
    return text


def pair(crate, name, old, new):
    if old and new and bare(respelt(new)) == bare(old):
        RESPELT.append((crate, name))
        return
    print(f"\n`{crate}`, {name}:\n\n```diff")
    for mark, text in (("-", old), ("+", new)):
        for line in text.split("\n") if text else []:
            print(f"{mark} {line}")
    print("```")


def compare(kind, reader):
    for path in paths(kind):
        old, new = reader(was(path)), reader(now(path))
        for name in sorted(set(old) | set(new)):
            if bare(old.get(name, "")) != bare(new.get(name, "")):
                pair(path.split("/")[1], name, old.get(name, ""), new.get(name, ""))


def compare_laws():
    for crate in sorted({path.split("/")[1] for path in paths("proofs")}):
        old, new = defaultdict(list), defaultdict(list)
        room = f"crates/{crate}/proofs"
        before = git("ls-tree", "-r", "--name-only", BASE, room).split()
        after = [str(file.relative_to(ROOT)) for file in sorted((ROOT / room).rglob("*.antt"))]
        for files, read, found in ((before, was, old), (after, now, new)):
            for path in files:
                if Path(path).name not in ("Answers.antt", "Invariants.antt"):
                    laws(read(path), found)
        for name in sorted(set(old) | set(new)):
            stood, stand = {bare(s) for s in old[name]}, {bare(s) for s in new[name]}
            gone = [s for s in old[name] if public(s) and bare(s) not in stand]
            fresh = [s for s in new[name] if bare(s) not in stood and (gone or public(s))]
            for statement in gone:
                pair(crate, name, statement, fresh.pop(0) if fresh else "")
            for statement in fresh:
                if public(statement):
                    pair(crate, name, "", statement)


def tell_respelt():
    by = defaultdict(list)
    for crate, name in RESPELT:
        by[crate].append(name)
    RESPELT.clear()
    if by:
        print("\nBy these respellings alone: " + "; ".join(f"`{crate}`: {', '.join(names)}" for crate, names in by.items()) + ".")


for title, run in (
    ("Public signatures, clauses and types", lambda: compare("src", signatures)),
    ("Definitions", lambda: compare("specs", definitions)),
    ("Laws in proofs/", compare_laws),
):
    print(f"\n### {title}")
    run()
    tell_respelt()
