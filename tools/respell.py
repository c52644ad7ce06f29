#!/usr/bin/env python3
"""Brings this repository's own names of definitions and lemmas to snake case: a dash between words becomes an underscore.

usage: python3 tools/respell.py [--dry]     at the top of the repository, once, after the kit's own porting script

Renamed is what a .antt file of the repository declares: definitions, lemmas, fields, local names. Kept are the names of the kit's library, the names
that the check makes in a function's proof (its goals and steps, in which a dash joins parts), strings, and prose. In comments and in documents a
name is renamed where it stands in back quotes. Names that would fall together in one file are listed, and then nothing is written.
"""

import os
import re
import sys

# Spelled otherwise than by the rule: an operator at the end, a type, and proper names inside.
SPECIAL = {
    "*ℤ--ℤ": "*ℤ_-ℤ",
    "-ℤ-*ℤ": "-ℤ_*ℤ",
    "sum-over-++": "sum_over_append",
    "Both-within": "BothWithin",
    "≤ℤ-of-≡": "≤ℤ_of_≡",
    "shares-are-Shapley-values": "shares_are_shapley_values",
}
# Spelled alike afterwards without harm: a definition beside a module, or beside the function of src/ that it is the meaning of.
ALIKE = {"half_hour", "lcm_to"}
TOKEN = re.compile(r"[^\s(){}\[\],.;:=\"`]+")
HEAD = re.compile(r"^\s*(?:(?:pub|abbrev|unfoldable|ruleset|data|record|field|where)\s+)*([^\s(){}\[\],.;:=\"]+)\s*(?=:(?:\s|$)|=)")
LOCAL = re.compile(r"(?:\blet\s+|λ\s*\(?|^\s*\|\s*)([^\s(){}\[\],.;:=\"]+)")
BINDER = re.compile(r"[({]((?:[^\s(){}\[\],.;:=\"]+\s+)*[^\s(){}\[\],.;:=\"]+)\s*:\s")


def dashed(name):
    return name in SPECIAL or re.search(r"[^-]-[^->]", name) is not None


def new_name(name):
    return SPECIAL.get(name, name.replace("-", "_"))


def code_of(line, antt):
    """The line cut into (code, rest): the rest is a comment."""
    i, quoted = 0, False
    while i < len(line):
        if line[i] == '"' and (i == 0 or line[i - 1] != "\\"):
            quoted = not quoted
        elif not quoted and line.startswith("--" if antt else "//", i) and (i == 0 or line[i - 1].isspace()):
            return line[:i], line[i:]
        i += 1
    return line, ""


def files():
    for folder, dirs, names in os.walk("crates"):
        dirs[:] = sorted(d for d in dirs if d not in ("out", "must-fail"))
        for f in sorted(names):
            if f.endswith((".antt", ".rt")):
                yield os.path.join(folder, f)


def read(path):
    with open(path, encoding="utf-8") as f:
        return f.read()


def made(path):
    """Whether the file is part of one function's proof, where the check makes names."""
    return os.path.basename(path) in ("Answers.antt", "Invariants.antt", "Proof.antt")


def imported(text):
    """Dashed names that the file takes from elsewhere than this repository, or from what the check makes."""
    own = "|".join(sorted(os.listdir("crates")))
    found = set()
    for m in re.finditer(r"^use ([^\s{]+)\{([^}]*)\}", text, re.M):
        if not re.match(rf"Rattle\.({own})\.", m.group(1)) or m.group(1).rstrip(".").endswith((".Goals", ".Given")):
            found |= {t for t in TOKEN.findall(m.group(2)) if dashed(t)}
    return found


def declared(text, path):
    found = set()
    for line in text.split("\n"):
        code, _ = code_of(line, True)
        if code.startswith("use "):
            continue
        m = HEAD.match(code)
        names = [m.group(1)] if m else []
        if m and made(path) and re.search(r":\s*goal\." + re.escape(m.group(1)) + r"(?![\w'-])", code):
            names = []
        names += LOCAL.findall(code)
        for group in BINDER.findall(code):
            names += group.split()
        m = re.match(r"^[^\s(){}\[\],.;:=\"]+\s+([^=:]*)=", code)
        if m:
            names += re.findall(r"[^\s(){}\[\],.;\"]+", m.group(1))
        found |= {n for n in names if dashed(n)}
    return found


def answers_of(text):
    """Names that a proof file answers: goals, which the check names."""
    return set(re.findall(r"^(?:pub |abbrev )*([^\s(){}\[\],.;:=\"]+)\s*:.*\bgoal\.\1(?![\w'-])", text, re.M))


def turn(text, path, names):
    antt = path.endswith(".antt")
    kept = imported(text) if antt else set()
    goals = answers_of(text) if made(path) else set()
    out = []
    for line in text.split("\n"):
        code, rest = code_of(line, antt)

        def one(m):
            t, at = m.group(0), m.start()
            if t not in names or t in kept or t in goals:
                return t
            before = code[:at]
            if made(path) and re.search(r"(?:^|[\s(,])(?:c|w|l|goal|given)\.$", before):
                return t
            if code.count('"', 0, at) % 2:
                return t
            return new_name(t)

        code2 = TOKEN.sub(one, code) if not re.match(r"use [^{]*\.(Goals|Given)\.\{", code) else code
        rest = re.sub(r"`([^`]+)`", lambda m: "`" + TOKEN.sub(lambda k: new_name(k.group(0)) if k.group(0) in names else k.group(0), m.group(1)) + "`", rest)
        out.append(code2 + rest)
    return "\n".join(out)


def fallen(before, after, path):
    """Pairs of tokens of one file that differed and are now the same."""
    a, b = TOKEN.findall(before), TOKEN.findall(after)
    seen, bad = {}, set()
    for x, y in zip(a, b):
        if seen.setdefault(y, x) != x and y not in ALIKE:
            bad.add((seen[y], x, y))
    return bad


def main():
    texts = {p: read(p) for p in files()}
    shared = set()
    for p, t in texts.items():
        if p.endswith(".antt") and not made(p):
            shared |= declared(t, p)
    changed, clashes = {}, []
    for p, t in texts.items():
        names = shared | (declared(t, p) if made(p) else set())
        new = turn(t, p, names)
        if new != t:
            changed[p] = new
            clashes += [(p, *c) for c in sorted(fallen(t, new, p))]
    for p in ["README.md", *(os.path.join("docs", f) for f in sorted(os.listdir("docs")) if f.endswith(".md"))]:
        t = read(p)
        new = re.sub(r"`([^`\n]+)`", lambda m: "`" + (new_name(m.group(1)) if m.group(1) in shared else m.group(1)) + "`", t)
        if new != t:
            changed[p] = new
    for c in clashes:
        print("falls together:", *c)
    if clashes:
        return 1
    if "--dry" in sys.argv:
        print(len(shared), "names,", len(changed), "files")
        return 0
    for p, t in changed.items():
        with open(p, "w", encoding="utf-8") as f:
            f.write(t)
    print(f"{len(shared)} names in {len(changed)} files")
    return 0


if __name__ == "__main__":
    raise SystemExit(main())
