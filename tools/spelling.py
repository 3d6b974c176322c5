#!/usr/bin/env python3
"""Brings the definitions and lemmas of specs/ and proofs/ to snake case: netCount and net-count become net_count.

usage: python3 tools/spelling.py [--list]      at the top of the repository, once, right after the kit's port.py

Types, modules and facts keep their upper camel case, and so do names that Rattle makes (goals, steps). A name is turned as
a whole word in every .antt and .rt file. Where a definition and a lemma would fall together, the lemma gets `_lem`.
"""
import glob
import re
import sys

END = r"\s(){}\[\].;,@\""
WORD = f"[^{END}]+"
DECLARED = re.compile(r"^[ \t]*(?:abbrev |unfoldable )*(?:pub )?(" + WORD + r") :(?=\s)(.*)$", re.M)
NOT_NAMES = {"use", "pub", "let", "in", "where", "record", "data", "module"}


def snake(name):
    name = re.sub(r"(?<=[a-z0-9])([A-Z])", lambda m: "_" + m.group(1).lower(), name)
    return re.sub(r"(?<=[A-Za-z0-9])-(?=[A-Za-z0-9])", "_", name)


def proofs():
    return sorted(glob.glob("crates/*/specs/**/*.antt", recursive=True) + glob.glob("crates/*/proofs/**/*.antt", recursive=True))


def sources():
    return sorted(glob.glob("crates/*/src/**/*.rt", recursive=True))


def read(path):
    with open(path, encoding="utf-8") as f:
        return f.read()


def declared():
    names = set()
    for path in proofs():
        for m in DECLARED.finditer(read(path)):
            if m.group(1) not in NOT_NAMES and not m.group(2).strip().startswith("goal."):
                names.add(m.group(1))
    return names


def turned(names):
    new = {n: snake(n) for n in names if re.match(r"[a-z]", n) and snake(n) != n}
    camel = {n: s for n, s in new.items() if "-" not in n}
    for n, s in list(new.items()):
        if "-" in n and (s in camel.values() or s in names):
            new[n] = s + "_lem"
    for s in camel.values():
        if s in names:
            new[s] = s + "_lem"
    return new


def main():
    names = declared()
    new = turned(names)
    back = {}
    for old, to in new.items():
        back.setdefault(to, []).append(old)
    clash = [f"{olds} -> {to}" for to, olds in back.items() if len(olds) > 1 or (to in names and to not in new)]
    if clash:
        sys.exit("names that fall together: " + ", ".join(clash))
    if "--list" in sys.argv:
        print("\n".join(f"{old} {to}" for old, to in sorted(new.items())))
        return
    found = re.compile(f"(?<![^{END}])(" + "|".join(sorted(map(re.escape, new), key=len, reverse=True)) + f")(?![^{END}])")

    def turn(m):
        # c.NAME is a step of a proof, which Rattle names after the function that is called
        step = m.string[: m.start()].endswith("c.") and not re.search(r"[\w']c\.$", m.string[: m.start()])
        return snake(m.group(1)) if step else new[m.group(1)]

    for path in proofs() + sources():
        text = read(path)
        text_now = found.sub(turn, text)
        if text_now != text:
            with open(path, "w", encoding="utf-8") as f:
                f.write(text_now)


main()
