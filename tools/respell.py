#!/usr/bin/env python3
"""Brings the repository's own definitions and lemmas to the spelling of the toolchain: words in snake case, types in camel case.

usage: python3 tools/respell.py        at the top of the repository, once, after the toolchain's own script for older repositories

Reads which names specs/ and proofs/ declare, and respells those wherever they stand: in .antt files, in clauses and `ghost use` lines of .rt files,
and between backticks in README.md and docs/. Functions of src/, strings, comments, inputs and outputs stay. Two names that would fall together stop it.
"""

import os
import re
import sys

WORD = r"A-Za-z0-9_'\u2115\u2080-\u2089"
TOKEN = re.compile(rf"(?<![{WORD}-])[A-Za-z][{WORD}]*(?:-[{WORD}]+)*(?![{WORD}-])")
DECLARED = re.compile(rf"^\s*(?:abbrev |unfoldable )?(?:pub )?(?:data |record )?(?:abbrev )?([A-Za-z][{WORD}-]*)\s*(?:[({{].*[)}}]\s*)*:\s")
BOUND = re.compile(rf"(?:\b\u03bb |\blet |[({{])([a-z][{WORD}]*(?:-[{WORD}]+)+(?: [a-z][{WORD}-]*)*)(?= [:=]|\.)")
CHOSEN = {
    # These would fall together with another name of theirs, or of a function.
    "Names-cross": "NamesCrossStands",
    "of-tree": "is_of_tree",
    "No-digit": "NoDigitAt",
    "with-back-link": "having_back_link",
    "with-child": "having_child",
    "with-end": "having_end",
    "Same-brackets": "SameBracketsAt",
    # The library's word for this is get_or.
    "getD-pairs": "get_or_pairs",
    "getD-swapped": "get_or_swapped",
}
# Fields of two records, of which the one is made of the other.
FIELDS = {"is_row", "ends_below", "few_links", "few_steps", "last_below", "some_links", "some_steps"}
# Names of the library, of goals, or of the text of a kind.
KEPT = {"sub-zero"}
# Variables that no pattern above finds.
LOCAL = {"at-kind", "below-head", "below-tail", "is-row", "in-js", "no-n", "no-t", "of-tree", "one-leads", "over-c", "same-sub", "share-crossed", "cS", "cT"}


def files(root, *ends):
    for folder, dirs, names in os.walk(os.path.join(root, "crates")):
        dirs[:] = sorted(d for d in dirs if d != "out")
        for name in sorted(names):
            if name.endswith(ends):
                yield os.path.join(folder, name)


def of_a_function(path):
    """A file of answers or invariants, which cites names that the check makes."""
    return os.path.basename(path) in ("Answers.antt", "Invariants.antt", "Proof.antt") and "/proofs/" in path and os.path.dirname(path).split("/proofs/")[-1] != os.path.dirname(path)


def read(path):
    with open(path, encoding="utf-8") as f:
        return f.read()


def code(line):
    """The code of a line of antt, and its comment."""
    inside = False
    for i, c in enumerate(line):
        if c == '"':
            inside = not inside
        if not inside and line.startswith("--", i) and (i == 0 or line[i - 1] == " "):
            return line[:i], line[i:]
    return line, ""


def wanted(name):
    return "-" in name or (name[0].islower() and re.search("[a-z][A-Z]", name))


def respelled(name):
    if name in CHOSEN:
        return CHOSEN[name]
    if re.match("[A-Z]{1}-", name):
        return name.replace("-", "_")
    if name[0].isupper():
        return "".join(p[:1].upper() + p[1:] for p in name.split("-"))
    return re.sub("(?<=[a-z])([A-Z])", lambda m: "_" + m.group(1).lower(), name).replace("-", "_")


def names(root):
    own, foreign, seen = set(LOCAL), set(), {}
    for path in files(root, ".antt"):
        text = read(path)
        for m in re.finditer(r"use (?:Rattle\.(?:std|core)|Prim|mathlib|native|lib|denote|base)\b[\w.]*\.\{([^}]*)\}", text):
            foreign |= {n.strip().split(" as ")[0] for n in m.group(1).split(",")}
        for m in re.finditer(rf" as ([A-Z][{WORD}-]*)", text):
            own.add(m.group(1))
        for line in text.split("\n"):
            line = code(line)[0]
            seen.setdefault(path, set()).update(TOKEN.findall(re.sub(r"^use [\w.+]*(?= as |$)|^use [\w.+]*\.(?=\{)|^(?:pub )?mod .*", "", line)))
            m = DECLARED.match(line)
            if m and not re.search(r":\s*goal\.", line):
                own.add(m.group(1))
            if not of_a_function(path):
                for m in BOUND.finditer(line):
                    own |= set(m.group(1).split(" "))
    for path in files(root, ".rt"):
        for line in read(path).split("\n"):
            if not re.match(r"\s*//", line):
                seen.setdefault(path, set()).update(TOKEN.findall(re.sub(r"^ghost use [\w.]*\.(?=\{)", "", line)))
    own = {n for n in own if wanted(n)} - foreign - KEPT
    return own, seen


def table(own, seen):
    to = {n: respelled(n) for n in own}
    back = {}
    for n in sorted(own):
        back.setdefault(to[n], []).append(n)
    bad = [f"{' and '.join(ns)} both become {t}" for t, ns in back.items() if len(ns) > 1]
    bad += [f"{n} becomes {to[n]}, which {path} has too" for path, there in sorted(seen.items()) for n in sorted(there & own) if to[n] in there and to[n] not in FIELDS]
    return to, bad


def turn_antt(path, text, to):
    by_check = of_a_function(path)

    def turn(m):
        before = m.string[: m.start()]
        if by_check and re.search(r"(?<![\w'-])(?:[clw]|goal|Goals)\.\{?$", before):
            return m.group(0)
        return to.get(m.group(0), m.group(0))

    out = []
    for line in text.split("\n"):
        this, rest = code(line)
        if by_check and re.match(r"use Rattle\.[\w.+]*\.(Goals|Given)\b", this):
            out.append(line)
            continue
        parts = this.split('"')
        parts[::2] = [TOKEN.sub(turn, p) for p in parts[::2]]
        out.append('"'.join(parts) + rest)
    return "\n".join(out)


def turn_rt(text, to):
    """Clauses and ghost lines: no token of Rust has a dash, and none of Rust's camel case is a word of specs/."""
    out = []
    for line in text.split("\n"):
        if not re.match(r"\s*//", line):
            parts = line.split('"')
            parts[::2] = [TOKEN.sub(lambda m: to.get(m.group(0), m.group(0)), p) for p in parts[::2]]
            line = '"'.join(parts)
        out.append(line)
    return "\n".join(out)


def turn_page(text, to):
    return re.sub(r"`[^`\n]+`", lambda m: TOKEN.sub(lambda n: to.get(n.group(0), n.group(0)), m.group(0)), text)


def main():
    root = os.getcwd()
    own, seen = names(root)
    to, bad = table(own, seen)
    if "--table" in sys.argv:
        print("\n".join(f"{n} {to[n]}" for n in sorted(own)))
    if bad:
        print("\n".join(bad), file=sys.stderr)
        return 1
    pages = [os.path.join(root, "README.md")] + [os.path.join(root, "docs", p) for p in sorted(os.listdir(os.path.join(root, "docs"))) if p.endswith(".md") and not p.startswith("PORT")]
    n = 0
    for path in [*files(root, ".antt", ".rt"), *pages]:
        text = read(path)
        new = turn_antt(path, text, to) if path.endswith(".antt") else turn_rt(text, to) if path.endswith(".rt") else turn_page(text, to)
        if new != text:
            n += 1
            with open(path, "w", encoding="utf-8") as f:
                f.write(new)
    print(f"respell: {len(own)} names, {n} files")
    return 0


if __name__ == "__main__":
    sys.exit(main())
