#!/usr/bin/env python3
"""Lists the places in crates/*/src that read like an older language, by the points of docs/DESIGN-PASS.md.

    python3 tools/design_places.py            every point, with a count for each
    python3 tools/design_places.py 3          one point
    python3 tools/design_places.py --at REV   as they stood at a commit

A place is a line of the source (or a group of functions) that one of the patterns below finds;
a comment `// Stays: REASON` above a place marks it as kept, and it is counted apart.
"""
import difflib
import re
import subprocess
import sys
from collections import defaultdict


def sources(rev):
    if rev:
        names = subprocess.run(["git", "ls-tree", "-r", "--name-only", rev, "crates"], capture_output=True, text=True, check=True).stdout.split()
    else:
        names = subprocess.run(["git", "ls-files", "crates"], capture_output=True, text=True, check=True).stdout.split()
    for name in names:
        if re.fullmatch(r"crates/[a-z_]+/src/.*\.rt", name):
            if rev:
                yield name, subprocess.run(["git", "show", f"{rev}:{name}"], capture_output=True, text=True, check=True).stdout
            else:
                yield name, open(name).read()


def line_of(text, at):
    return text.count("\n", 0, at) + 1


def block(text, start):
    """The text of the braces that open at or after `start`."""
    i = text.index("{", start)
    depth = 0
    for j in range(i, len(text)):
        depth += {"{": 1, "}": -1}.get(text[j], 0)
        if depth == 0:
            return i, j + 1
    return i, len(text)


def functions(text):
    """(name, place, header, clauses, body) of each function with a body."""
    for m in re.finditer(r"\bfn (\w+)", text):
        i = m.end()
        depth = 0
        clauses = []
        header_end = None
        while i < len(text):
            c = text[i]
            if c in "(<[":
                depth += 1
            elif c in ")]" or (c == ">" and text[i - 1] != "-" and text[i - 1] != "="):
                depth -= 1
            elif c == ";" and depth == 0:
                break
            elif c == "{":
                word = re.search(r"\b(requires|ensures)(?: \w+)? $", text[:i])
                a, b = block(text, i)
                if header_end is None:
                    header_end = word.start() if word else a
                if word:
                    clauses.append((word.group(1), text[a + 1:b - 1].strip()))
                    i = b
                    depth = 0
                    continue
                yield m.group(1), m.start(), text[m.start():header_end], clauses, text[a:b]
                break
            i += 1


def stays(text, at):
    """Whether a `Stays` line stands just above the place, or above the function that it is in."""
    around = list(re.finditer(r"^\s*(?:pub(?:\(crate\))? )?fn \w+", text[:at], re.M))
    return reasoned(text, at) or bool(around) and "\n}" not in text[around[-1].start():at] and reasoned(text, around[-1].end())


def reasoned(text, at):
    """Whether a `Stays` line stands just above the place."""
    lines = text[:at].split("\n")[:-1]
    k = len(lines) - 1
    while k >= 0 and re.match(r"\s*(//|#\[|pub |ghost |fn |requires|ensures|$)", lines[k]) or (k >= 0 and k > len(lines) - 4):
        if "// Stays:" in lines[k]:
            return True
        k -= 1
        if k >= 0 and lines[k].strip() == "}":
            break
    return False


PLACES = defaultdict(list)


def place(point, kind, name, text, at, shown=None):
    shown = shown or text[at:].split("\n", 1)[0].strip()
    PLACES[point].append((kind, f"{name}:{line_of(text, at)}", shown[:110], stays(text, at)))


def split_params(header):
    i = header.index("(")
    j = header.rindex(")") if "->" not in header else header[:header.index("->")].rindex(")")
    found = re.findall(r"(\w+)\s*:\s*([^,()]+(?:\([^)]*\))?)", header[i + 1:j])
    return [n for n, _ in found if n not in ("f",)]


def conjuncts(clause):
    parts = re.split(r"\s×\s", clause)
    return [p.strip().strip("()").strip() for p in parts]


# The methods of the trait of states, which each kind has under one name.
ONE_TRAIT = re.compile("start|same|follows|size|diff|apply|inner|over|read|write")

KEYWORDS = {"fn", "let", "mut", "if", "else", "match", "return", "for", "in", "while", "Some", "None", "Ok", "Err", "self", "true", "false", "Self", "pub"}


def shape(body):
    body = re.sub(r"//[^\n]*", "", body)
    body = re.sub(r'b?"[^"]*"', "S", body)
    tokens = re.findall(r"[A-Za-z_]\w*|\d[\w]*|[^\s\w]", body)
    out = []
    for k, t in enumerate(tokens):
        if t in KEYWORDS:
            out.append(t)
        elif re.match(r"\d", t):
            out.append("N")
        elif re.match(r"[A-Za-z_]", t):
            out.append("I")
        elif t != ",":
            out.append(t)
    return tuple(out)


def scan(rev):
    shapes = defaultdict(list)
    types = defaultdict(list)
    facts = defaultdict(set)
    together = defaultdict(set)
    named = defaultdict(list)
    where = {}
    for name, text in sources(rev):
        crate = name.split("/")[1]
        # 1: own enums of the shape of Option, a flag with a value, numbers for kinds or refusals
        for m in re.finditer(r"\benum (\w+)[^{]*\{", text):
            a, b = block(text, m.start())
            inner = re.sub(r"//[^\n]*", "", text[a + 1:b - 1])
            flat, depth = "", 0
            for c in inner:
                if c in "({":
                    depth += 1
                    flat += "@" if depth == 1 else ""
                elif c in ")}":
                    depth -= 1
                elif depth == 0:
                    flat += c
            variants = [v.strip() for v in flat.split(",") if v.strip()]
            if len(variants) == 2 and sum("@" in v for v in variants) == 1:
                place(1, "shape of Option", name, text, m.start())
            types[(re.sub(r"\s+", " ", inner), m.group(1))].append((name, text, m.start()))
            for v in re.finditer(r"\w+\((?:u8|u16|u32|u64|usize)\)", text[a:b]):
                place(1, "a number for a kind", name, text, a + v.start())
        for m in re.finditer(r"Result<[^;{]*, u\d+>|\b(?:kind|cause|status): u\d+", text):
            place(1, "a number for a kind", name, text, m.start())
        for m in re.finditer(r"-> \(bool, |, bool\)", text):
            place(1, "a flag beside a value", name, text, m.start())
        for m in re.finditer(r"\bstruct (\w+)[^{;]*\{", text):
            a, b = block(text, m.start())
            inner = re.sub(r"//[^\n]*", "", text[a + 1:b - 1])
            types[(re.sub(r"\s+", " ", inner), m.group(1))].append((name, text, m.start()))
            # 6: an array with its count beside it
            if re.search(r": \[[^\]]+; [^\]]+\]", inner) and re.search(r"\b(count|len|length|used|n): (usize|u\d+)", inner):
                place(6, "an array with a count beside it", name, text, m.start())
        for m in re.finditer(r"\b\w+ \{ length \}|Whole \{ length: usize \}|pub(?:\(crate\))? length: usize", text):
            if "enum" in text[max(0, m.start() - 200):m.start()] or m.group().startswith("pub"):
                place(6, "a length told beside a buffer", name, text, m.start())
        for m in re.finditer(r"\[0?\.\.\w+(?:\.\w+)*(?:\([^)]*\))?(?: - \d)?\]|\[0?\.\.\w+\.min", text):
            place(6, "a buffer cut by a length", name, text, m.start())
        # 3: loops that count by hand
        for m in re.finditer(r"\b(while|loop)\b[^\n]*\{", text):
            place(3, "while", name, text, m.start())
        for m in re.finditer(r"\bfor [^\n]* in [^\n]*(\.\.|enumerate\(\))[^\n]*\{", text):
            if "chunks(" not in m.group():
                place(3, "for over an index", name, text, m.start())
        for m in re.finditer(r"\bfor [^\n]* in [^\n]*\{", text):
            a, b = block(text, m.start())
            if "enumerate()" in m.group() or ".." in m.group():
                continue
            if re.search(r"\b\w+ \+= |\bat = ", text[a:b]) or re.search(r"return (true|false|\w+);", text[a:b]):
                place(3, "for that sums, counts or searches", name, text, m.start())
            elif re.search(r"\.push\(", text[a:b]):
                place(3, "for that collects", name, text, m.start())
        # 4: equality, conversion and printing by hand
        for m in re.finditer(r"^impl (?:PartialEq|Eq|PartialOrd|Ord|Clone|Copy)\b", text, re.M):
            place(4, "a comparison or copy", name, text, m.start())
        for m in re.finditer(r"Err\((\w+)\) => (?:return )?Err\((\w+::)*\w+\(\1\)\)|Err\(\w+::\w+\(\w+::\w+\)\)", text):
            place(4, "a fault rewrapped", name, text, m.start())
        for m in re.finditer(r"let \w+ = \w+\.(?:number|cause|place)\(\);", text):
            place(4, "a refusal printed by its number", name, text, m.start())
        for m in re.finditer(r"(?:&& \w+\.\w+ == \w+\.\w+\s*){2,}", text):
            place(4, "fields compared one by one", name, text, m.start())
        for fname, at, header, clauses, body in functions(text):
            words = re.sub(r"\s+", " ", body.strip("{}")).strip()
            if re.fullmatch(r"\*?\w+ == \*?\w+", words):
                place(4, "== under another name", name, text, at)
            if re.search(r"-> &'static str", header) and "match" in body:
                place(4, "words of an enum", name, text, at)
            if re.search(r"\bfn (of|from_\w+)\(", header) or re.search(r"\((?:letter|word): [^)]*\) -> Option<", header) and "match" in body:
                place(4, "a conversion", name, text, at)
            if re.search(r"-> u8\b", header) and re.search(r"match self \{", body) and not re.search(r"\{ \.\. \}|\(\w+\) =>|\(_\)", body):
                place(4, "an enum's numbers by a match", name, text, at)
            # 2: functions of one shape
            key = shape(body)
            if len(key) >= 16 and "tests" not in name:
                shapes[key].append((name, text, at, fname))
            # 2: functions that share a name, or a name but for a size or a kind
            family = re.sub(r"(^|_)(two|four|eight|journal|screen)(?=_|$)", r"\1*", fname)
            if fname not in ("main", "new", "number", "fmt", "from", "next"):
                flat = re.sub(r"\s+", " ", header)
                parameters = len(split_params(header))
                named[(family, "self" in flat, parameters, "->" in flat)].append((name, text, at, fname, key))
            # 5: facts and parameters
            key = (crate, fname, at)
            where[key] = (name, text, at)
            for kind, clause in clauses:
                if kind == "requires":
                    for c in conjuncts(clause):
                        c = re.sub(r"\.(old|now|entry|new)\b", "", c)
                        facts[(crate, c)].add(key)
            params = sorted(set(split_params(header)) - {"rt", "heap", "alloc"})
            for i, a in enumerate(params):
                for b in params[i + 1:]:
                    together[(crate, a, b)].add(key)
            # 7: a step chosen by a word, and not only a value
            for m in [] if "-> Option<" in header else re.finditer(r"match (kind|word|name|mode|op|step) \{", body):
                place(7, "a step chosen by a word", name, text, at, header.split("\n")[0])
        for m in re.finditer(r"\[\s*fn\(|: fn\(|\bdyn\b", text):
            place(7, "a table of functions", name, text, m.start())
    for group in shapes.values():
        if len(group) > 1:
            names = [f"{n}:{line_of(t, a)} {f}" for n, t, a, f in group]
            PLACES[2].append(("functions of one shape", f"{len(group)}", "; ".join(names), any(stays(t, a) for n, t, a, f in group)))
    for (family, _, _, _), group in named.items():
        first = group[0][4]
        group = [g[:4] for g in group if difflib.SequenceMatcher(None, first, g[4]).ratio() >= 0.7]
        files = {n for n, t, a, f in group}
        if len(group) > 1 and ("*" in family or len(files) > 1) and not ONE_TRAIT.fullmatch(family):
            names = [f"{n}:{line_of(t, a)} {f}" for n, t, a, f in group]
            PLACES[2].append(("functions of one name", f"{len(group)}", "; ".join(names), any(stays(t, a) for n, t, a, f in group)))
    for (inner, tname), group in types.items():
        if len(group) > 1 and inner.strip():
            PLACES[2].append(("a type written twice", tname, "; ".join(f"{n}:{line_of(t, a)}" for n, t, a in group), any(stays(t, a) for n, t, a in group)))
    for (crate, fact), keys in sorted(facts.items()):
        if len(keys) >= 3:
            PLACES[5].append(("a fact in three contracts or more", crate, f"{fact}  ({', '.join(sorted(k[1] for k in keys))})", any(stays(*where[k][1:]) for k in keys)))
    for (crate, a, b), keys in sorted(together.items()):
        if len(keys) >= 3:
            PLACES[5].append(("parameters that travel together", crate, f"{a}, {b}  ({', '.join(sorted(k[1] for k in keys))})", any(stays(*where[k][1:]) for k in keys)))


def main():
    args = sys.argv[1:]
    rev = None
    if "--at" in args:
        k = args.index("--at")
        rev = args[k + 1]
        del args[k:k + 2]
    scan(rev)
    for point in range(1, 8):
        if args and str(point) not in args:
            continue
        rows = PLACES[point]
        kept = sum(1 for r in rows if r[3])
        print(f"point {point}: {len(rows)} places, {kept} with a reason beside them")
        for kind, at, shown, k in rows:
            print(f"  {kind}: {at}: {shown}{'  [stays]' if k else ''}")


main()
