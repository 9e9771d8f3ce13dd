#!/usr/bin/env python3
"""Brings the names of this repository's own definitions and lemmas to snake case, as the toolchain spells its own.

usage: python3 tools/respell.py [--dry]      at the top of the repository, once, after the toolchain's own port script

A name that a file of crates/*/specs or crates/*/proofs defines (no file below proofs/F/, which names the checker's goals)
becomes words in lower case joined by '_'; types and facts keep their capitals. Only antt is touched: the files of specs/ and proofs/, and in .rt files the
lines of `ghost use` and the clauses. A field's name changes behind a dot too, any other name only where no dot stands
before it. Nothing is written if two names would fall together, or a new name is already somebody else's.
"""

import collections
import os
import re
import sys

ROOT = os.path.join(os.path.dirname(os.path.abspath(__file__)), "..", "crates")
NAME = r"[^\s(){}\[\];:.,λ→≡×«»|⌜⌝\"]+"
DEFINED = re.compile(r"(\s*)(?:(?:unfoldable|abbrev|pub)\s+)*(?:record\s+|data\s+)?(" + NAME + r")(?:\s+\([^:]*:.*?\)|\s+\{[^:]*:.*?\})*\s*:(?:\s|$)")
TOKEN = re.compile(r"(?<![^\s(){}\[\];:.,λ→≡×«»|⌜⌝\"])" + NAME)
# where plain snake case would fall together with another name: the name that is taken in its place
BY_HAND = {
    "line-shown": "line_shown_lem",
    "asked-text": "asked_text_lem",
    "round-of": "round_of_lem",
    "at_rest": "at_rest_lem",
    "three-pushes": "three_pushes_wait",
    "two-pops": "two_pops_wait",
}
# parameters of a module's lemmas
PARAMETERS = {"line-is", "used-is", "pops-are", "waiting-are"}
# one name for two definitions of crates that never meet in a file
SHARED = {"refusal_line"}
# definitions that say what the function of that name answers; elsewhere the name stands only in paths of its goals
OF_FUNCTIONS = {"first_push", "bound_is_exact", "begin_push", "begin_pop", "next_operation", "still_to_run", "lead_in", "count_waiting", "lowest_waiting"}
# a fact that was not spelled as one, in the one file that has it
FACTS = {("play/proofs/Openings.antt", "fresh"): "Fresh"}


def snake(name):
    if name in BY_HAND:
        return BY_HAND[name]
    if not re.match(r"[a-z]", name):
        return name
    name = re.sub(r"([a-z0-9])([A-Z])", lambda m: m[1] + "_" + m[2].lower(), name)
    return name.replace("-", "_")


def files(end):
    for folder, inside, names in os.walk(ROOT):
        inside[:] = sorted(d for d in inside if d != "out")
        for name in sorted(names):
            if name.endswith(end):
                yield os.path.join(folder, name)


def read(path):
    with open(path, encoding="utf-8") as file:
        return file.read()


def defined():
    """The names that specs/ and proofs/ define, and which of them are fields of records."""
    names, fields = collections.defaultdict(set), set()
    for path in files(".antt"):
        parts = os.path.relpath(path, ROOT).split(os.sep)
        if len(parts) != 3:
            continue
        inside = None
        for line in read(path).split("\n"):
            if line.strip().startswith("--"):
                continue
            if line and not line[0].isspace():
                inside = "record" if re.match(r"(?:pub\s+)?record\s", line) else "data" if re.match(r"(?:pub\s+)?data\s", line) else None
            found = DEFINED.match(line)
            if found:
                names[found[2]].add("/".join(parts))
                if inside == "record" and found[1]:
                    fields.add(found[2])
    return names, fields


def ghost(text):
    """The spans of an .rt file that are antt: ghost use lines, clauses, ghost fields and members."""
    for m in re.finditer(r"ghost use [^;]*;|ghost invariant[^\n]*", text):
        yield m.span()
    for m in re.finditer(r"\b(?:requires|ensures)\*?(?: \w+)? \{|\bghost \w+(?:<[^>]*>)?(?::| =) \{", text):
        deep, at = 0, m.end() - 1
        while True:
            deep += (text[at] == "{") - (text[at] == "}")
            at += 1
            if not deep:
                break
        yield (m.end() - 1, at)


def turned(text, new, fields, seen):
    out, at = [], 0
    for m in TOKEN.finditer(text):
        name, before = m[0], text[max(0, m.start() - 1) : m.start()]
        line = text[text.rfind("\n", 0, m.start()) + 1 : m.start()]
        # neither in a comment nor in a string
        if name in new and (before != "." or name in fields) and not line.lstrip().startswith(("--", "//")) and line.count('"') % 2 == 0:
            out += [text[at : m.start()], new[name]]
            at = m.end()
            seen[name] += 1
    return "".join(out) + text[at:]


def main(dry):
    names, fields = defined()
    new = {n: snake(n) for n in [*names, *PARAMETERS] if snake(n) != n}
    texts = {p: read(p) for p in files(".antt")}
    taken = collections.defaultdict(set)
    for path, text in texts.items():
        for m in TOKEN.finditer(re.sub(r"(?m)^\s*--.*$", "", text)):
            taken[m[0]].add(os.path.relpath(path, ROOT))
    bad = collections.defaultdict(list)
    for old, to in new.items():
        bad[to].append(old)
    stop = [f"{olds} all become {to}" for to, olds in bad.items() if len(olds) > 1 and to not in SHARED]
    stop += [f"{old} would be {to}, which stands in {sorted(taken[to])[:6]}" for old, to in new.items() if to in taken and to not in new and to not in OF_FUNCTIONS]
    print("\n".join(stop))
    if dry or stop:
        print(f"{len(new)} names would change, {len(stop)} fall together")
        return 1 if stop else 0
    seen = collections.Counter()
    for path, text in texts.items():
        here = {old: to for (file, old), to in FACTS.items() if path.endswith(file)}
        after = turned(text, new | here, fields, seen)
        if after != text:
            with open(path, "w", encoding="utf-8") as file:
                file.write(after)
    for path in files(".rt"):
        text = read(path)
        out, at = [], 0
        for a, b in sorted(ghost(text)):
            if a < at:
                continue
            out += [text[at:a], turned(text[a:b], new, fields, seen)]
            at = b
        after = "".join(out) + text[at:]
        if after != text:
            with open(path, "w", encoding="utf-8") as file:
                file.write(after)
    print(f"{len(new)} names, {sum(seen.values())} places")
    return 0


if __name__ == "__main__":
    raise SystemExit(main("--dry" in sys.argv[1:]))
