#!/usr/bin/env python3
"""Brings the names of this repository's own definitions and lemmas to snake case, in one go.

usage: python3 tools/respell.py [TOP]

It runs once, right after the toolchain's port.py, and has nothing to do a second time. A word that specs/*.antt or
proofs/*.antt declares is renamed where it is declared and wherever it is imported, projected or cited: `bookOf` is `book_of`,
`falls-game` is `falls_game`. Types, modules, functions of src/, names of the library and names that the check makes keep their
spelling. It stops where two names would fall together.
"""

import os
import re
import subprocess
import sys
from concurrent.futures import ThreadPoolExecutor

TOP = os.path.abspath(sys.argv[1] if len(sys.argv) > 1 else ".")
CRATES = os.path.join(TOP, "crates")
PART = r"[^\s(){}\[\];.,@\"«»|:`]+"
WORD = re.compile(PART)
DECLARES = re.compile(r"^(\s*)((?:unfoldable|abbrev|pub|private|opaque|ruleset)\s+)*((?:%s)(?:\s+%s)*)\s*(?:\([^)]*\)\s*|\{[^}]*\}\s*)*:(?=\s)" % (PART, PART))
RULESET = re.compile(r"^\s*(?:pub\s+)?ruleset\s+(%s)" % PART)
GOALS = ("Proof.antt", "Invariants.antt", "Answers.antt")
PAPERS = ("README.md", "CONTRIBUTING.md", "docs", "tests", "include", "bench", "fuzz", "examples", "command", "crates.txt", "CHANGELOG.md")


TAKEN = set()
FIELDS = set()


def spelled(name):
    """The new name. A lemma that would have the name of something else here gets `_lem`, as the toolchain's guide has it."""
    new = snake(name)
    return new + "_lem" if "-" in name and new in TAKEN else new


def snake(name):
    """The name in snake case, or the name itself where it is a type's or has no letter to start with."""
    if not re.match(r"[a-z]", name) or name.startswith("the-"):
        return name
    name = name.replace("getD-", "get_or-")
    words = re.sub(r"(?<=[a-z0-9])([A-Z])", lambda m: "_" + m.group(1).lower(), name)
    return re.sub(r"(?<=[\w'?])-(?=\w)", "_", words)


def antt_files():
    for folder, dirs, files in os.walk(CRATES):
        dirs[:] = sorted(d for d in dirs if d not in ("out", "target"))
        for f in sorted(files):
            if f.endswith((".antt", ".rt")):
                yield os.path.join(folder, f)


def read(path):
    with open(path, encoding="utf-8") as f:
        return f.read()


def crate_of(path):
    return os.path.relpath(path, CRATES).split(os.sep)[0]


def module_of(path):
    """Rattle.CRATE.specs.A.B for crates/CRATE/specs/A/B.antt"""
    return "Rattle." + os.path.relpath(path, CRATES)[: -len(".antt")].replace(os.sep, ".")


def declared(text):
    found = set()
    for line in text.splitlines():
        if line.lstrip().startswith("--") or line.startswith("use "):
            continue
        m = DECLARES.match(line)
        if m:
            found |= set(m.group(3).split())
        m = RULESET.match(line)
        if m:
            found.add(m.group(1))
    return found - {"=", "→"}


def fields(text):
    """The fields of the records that a file declares: the lines below `record .. where` that are set in further."""
    deep = None
    for line in text.splitlines():
        m = re.match(r"^(\s*)(?:\w+ )*record .*where$", line)
        if m:
            deep = len(m.group(1))
            continue
        if deep is not None and line.strip():
            if len(line) - len(line.lstrip()) <= deep:
                deep = None
            elif DECLARES.match(line):
                yield from DECLARES.match(line).group(3).split()


def imports(text):
    """(module, names, alias) of each use line."""
    for m in re.finditer(r"(?m)^(?:pub )?(?:ghost )?use ((?:[\w+·'-]+\.)*[\w+'-]+)(?:\.\{([^}]*)\}| as ([\w'-]+))?;?$", text):
        yield m.group(1), [n.strip() for n in (m.group(2) or "").split(",") if n.strip()], m.group(3)


def lay_out(crate):
    subprocess.run(["rt", "fmt"], cwd=os.path.join(CRATES, crate), stdout=subprocess.DEVNULL, stderr=subprocess.DEVNULL)


def apart():
    """The lemma on `hasTick` would fall together with it: it gets the ending of a lemma that has its function's name."""
    for f in ("ReadyReason", "ReasonRows"):
        p = os.path.join(CRATES, "call_reason", "proofs", f + ".antt")
        t = read(p)
        with open(p, "w", encoding="utf-8") as out:
            out.write(re.sub(r"\bhas_tick\b", "has_tick_lem", t))


def main():
    apart()
    texts = {p: read(p) for p in antt_files()}
    own = {}
    for p, t in texts.items():
        if p.endswith(".antt") and os.path.basename(p) not in GOALS:
            own[module_of(p)] = {n for n in declared(t) if snake(n) != n}
            FIELDS.update(n for n in fields(t) if snake(n) != n)
            TAKEN.update(snake(n) for n in declared(t) if "-" not in n)
    every = set().union(*own.values())
    clashes = []
    for p, t in sorted(texts.items()):
        here = set(own.get(module_of(p), ())) if p.endswith(".antt") else set()
        foreign = set()
        for module, names, _ in imports(t):
            mine = module in own
            for n in names:
                first = n.split(" as ")[0]
                if mine and snake(first) != first:
                    here.add(first)
                elif not mine and not module.startswith("Rattle.") or module.startswith("Rattle.std"):
                    foreign.add(first)
        keep = foreign - here
        lines = []
        for line in t.split("\n"):
            lines.append(respell(line, here, every - keep, p))
        new = "\n".join(lines)
        before = {w for w in WORD.findall(strip(t))}
        seen = {}
        for n in sorted(here):
            if n in before and (spelled(n) in before or spelled(n) in seen):
                clashes.append(f"{os.path.relpath(p, TOP)}: {n} and {seen.get(spelled(n), spelled(n))}")
            if n in before:
                seen[spelled(n)] = n
        if new != t:
            with open(p, "w", encoding="utf-8") as f:
                f.write(new)
    for paper in papers():
        t = read(paper)
        new = re.sub(r"`([^`\n]+)`", lambda m: "`" + cited(m.group(1), every) + "`", t)
        if new != t:
            with open(paper, "w", encoding="utf-8") as f:
                f.write(new)
    with ThreadPoolExecutor() as pool:
        list(pool.map(lay_out, sorted(os.listdir(CRATES))))
    print(f"respell: {len(every)} names")
    for c in clashes:
        print("falls together: " + c)
    return 1 if clashes else 0


def strip(t):
    return re.sub(r"(?m)--.*$|^\s*//.*$", "", t)


def respell(line, here, projected, path):
    if path.endswith(".rt"):
        code, mark, note = (line, "", "") if not line.lstrip().startswith("//") else ("", line, "")
        code = words(code, here, projected)
        return code + cites(mark, here | projected) + note
    at = comment(line)
    return words(line[:at], here, projected) + cites(line[at:], here | projected)


def comment(line):
    m = re.search(r"(?:^|\s)--(?=\s|$)", line)
    return m.start() if m else len(line)


def words(code, here, projected):
    def one(m):
        w = m.group(0)
        named = w in FIELDS and re.match(r" =\s", code[m.end() :] + " ") and not code[: m.start()].endswith("let ")
        if w in here or named or (m.start() > 0 and code[m.start() - 1] == "." and w in projected and not w.startswith("in-")):
            return spelled(w)
        return w

    return WORD.sub(one, code)


def cites(note, names):
    note = re.sub(r"`([^`]+)`", lambda m: "`" + cited(m.group(1), names) + "`", note)
    return re.sub(r"\b[a-z]+[A-Z]\w*", lambda m: spelled(m.group(0)) if m.group(0) in names else m.group(0), note)


def cited(text, names):
    return WORD.sub(lambda m: spelled(m.group(0)) if m.group(0) in names else m.group(0), text)


def papers():
    for name in PAPERS:
        p = os.path.join(TOP, name)
        if os.path.isfile(p):
            yield p
        for folder, dirs, files in os.walk(p):
            dirs[:] = [d for d in dirs if d not in ("landings", "target", "corpus")]
            for f in files:
                if f.endswith((".md", ".txt")):
                    yield os.path.join(folder, f)


if __name__ == "__main__":
    raise SystemExit(main())
