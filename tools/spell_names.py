#!/usr/bin/env python3
"""Respells the repository's own definitions, lemmas and record fields: words in snake case, types in camel case.

usage: python3 tools/spell_names.py        once, at the top of the repository, right after the library's own names were turned

It takes each name that specs/ and proofs/ of a crate define, and writes its words apart by '_' wherever the name is cited:
in proofs, in clauses and ghost items of the sources, in must-fail edits, and between backticks in the documents.
Names of functions in src/, names that the check makes, inputs and outputs stay. It prints names that fall together.
Where it has run already it does nothing: a second run would take names of the library, and new ones, for old spellings.
"""

import collections
import os
import re
import sys

IDENT = r"[^\s(){}\[\]:;,.λ⟦⟧`|]+"
TOKEN = re.compile(IDENT)
DEFINED = re.compile(r"^(\s*)(?:(?:abbrev|unfoldable|pub) )*(" + IDENT + r")(?: [({].*)? :(?: |$)")
TYPED = re.compile(r"^(\s*)(?:(?:abbrev|unfoldable|pub) )*(?:record|data) (?:pub )?(" + IDENT + ")")
STD_USE = re.compile(r"^(?:ghost )?use Rattle\.std\.[^{]*\{([^}]*)\}")
# names that an earlier respelling took for names of the library
GARBLED = {"Decides-like": "decides_like", "IfOk-at_ok": "made_at_ok", "So-far": "IsSofar"}
# lemmas that would have the name of the definition that they speak of
LEMMAS = """assumed-state at-end datagram-at digit-front digit-of held-as instruction-in is_digit new-state past_one past_two pending-from
piece-read put-answer run-bytes same-direction same-mark sending-in sent-state""".split()


def files(*endings):
    for folder, dirs, names in os.walk("crates"):
        dirs[:] = sorted(d for d in dirs if d != "out")
        for name in sorted(names):
            if name.endswith(endings):
                yield os.path.join(folder, name)


def read(path):
    with open(path, encoding="utf-8") as f:
        return f.read()


def spelled(name):
    if name in GARBLED:
        return GARBLED[name]
    if name in LEMMAS:
        return name.replace("-", "_") + "_lem"
    if name[0].isupper() and "-" not in name:
        return name
    apart = re.sub(r"(?<=[a-z0-9])(?=[A-Z])", "_", name)
    parts = [p if p in ("Ok", "Err", "Some", "None") else p[:1].lower() + p[1:] for p in apart.replace("-", "_").split("_")]
    return "_".join(p.lower() for p in parts)


def definitions(text):
    """The names that a file defines: (name, whether it is a field or a constructor)."""
    block = None
    for line in text.split("\n"):
        if line.startswith(("--", "use ")):
            continue
        indent = len(line) - len(line.lstrip())
        if block is not None and line.strip() and indent <= block:
            block = None
        m = TYPED.match(line)
        if m:
            block = len(m.group(1))
            yield m.group(2), False
            continue
        m = DEFINED.match(line)
        if m and "goal." not in line:
            yield m.group(2), block is not None and len(m.group(1)) > block


def from_std(text):
    return {n.strip() for line in text.split("\n") for m in [STD_USE.match(line)] if m for n in m.group(1).split(",")}


def main():
    if os.path.exists(os.path.join("docs", "PORT.md")):
        return "the names are respelled already: see docs/PORT.md"
    own, fields, home = {}, set(), collections.defaultdict(set)
    for path in files(".antt"):
        for name, field in definitions(read(path)):
            home[name].add(path.split(os.sep)[1])
            if spelled(name) != name:
                own[name] = spelled(name)
                if field:
                    fields.add(name)
    together = collections.defaultdict(set)
    for name in home:
        together[own.get(name, name)].add(name)
    for new, olds in sorted(together.items()):
        if len(olds) > 1:
            print("fall together:", new, "from", ", ".join(f"{o} ({' '.join(sorted(home[o]))})" for o in sorted(olds)))

    changed = 0
    for path in files(".antt", ".rt", ".edit"):
        text = read(path)
        here = {n for n, _ in definitions(text)} if path.endswith(".antt") else set()
        std = from_std(text) - here
        for n in sorted(std & {own[k] for k in own if k in text}):
            print("look:", path, n, "is the library's, and an own name is spelled so")
        lines = []
        for line in text.split("\n"):
            if line.lstrip().startswith(("//", "--")):
                lines.append(line)
                continue

            def turn(m, line=line):
                word = m.group(0)
                before = line[m.start() - 1] if m.start() else " "
                if word in std or word not in own:
                    return word
                if before == "." and word not in fields:
                    return word
                return own[word]

            lines.append(TOKEN.sub(turn, line))
        new = "\n".join(lines)
        if new != text:
            changed += 1
            with open(path, "w", encoding="utf-8") as f:
                f.write(new)
    for path in ["README.md"] + [os.path.join("docs", n) for n in sorted(os.listdir("docs")) if n.endswith(".md") and not n.startswith("PORT")]:
        text = read(path)
        new = re.sub(r"`[^`\n]*`", lambda m: TOKEN.sub(lambda t: own.get(t.group(0), t.group(0)), m.group(0)), text)
        if new != text:
            changed += 1
            with open(path, "w", encoding="utf-8") as f:
                f.write(new)
    print(f"{len(own)} names respelled in {changed} files")


if __name__ == "__main__":
    sys.exit(main())
