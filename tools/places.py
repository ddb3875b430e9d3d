#!/usr/bin/env python3
"""Lists the places in crates/*/src that an older form of the language may have left.

    python3 tools/places.py [POINT ..]     in the top folder; without a point all are listed

Each line is a place that the pattern finds; whether it can be written otherwise is for a reader to say.

    1  errors handed on by `match` or `else`, an `else` that cannot be reached, own enums of the shape of Option or Result,
       numbers for kinds
    2  functions whose bodies are the same but for a few names or numbers, functions of one name in two crates, types of
       the same fields
    3  loops that count an index by hand: the counter stands in an index of the body, or moves by `+=`, or the one that
       `enumerate` gives is the place written to
    4  comparison and conversion by hand
    5  facts that stand in three or more contracts, and three or more parameters that stand together in three functions
    6  types of an array and a length, functions that take a slice and a length
    7  a `match` that says which step to run
    8  answers in proofs/, counted for each crate
"""
import collections
import glob
import itertools
import re
import sys


def sources():
    """Path and text of each source but those of tests."""
    for path in sorted(glob.glob("crates/*/src/**/*.rt", recursive=True)):
        if "_tests/" not in path and not path.endswith("/tests.rt"):
            yield path, open(path, encoding="utf-8").read()


def line_of(text, at):
    return text.count("\n", 0, at) + 1


def block(text, at):
    """What stands between the first brace from `at` on and its partner."""
    start = text.index("{", at)
    depth = 0
    for i in range(start, len(text)):
        depth += {"{": 1, "}": -1}.get(text[i], 0)
        if depth == 0:
            return text[start + 1 : i]
    return text[start + 1 :]


def functions(text):
    """Name, parameters, clauses and body of each function."""
    for m in re.finditer(r"^( *)(?:pub(?:\(crate\))? )?(?:extern \"C\" )?fn (\w+)", text, re.M):
        if re.search(r"\)[^{};]*;", text[m.end() : m.end() + 1]):
            continue
        open_at = text.index("(", m.end())
        depth, i = 0, open_at
        while True:
            depth += {"(": 1, ")": -1}.get(text[i], 0)
            if depth == 0:
                break
            i += 1
        parameters = [" ".join(p.split()) for p in re.split(r",(?![^<\[(]*[>\])])", text[open_at + 1 : i])]
        parameters = [p for p in parameters if ":" in p]
        end = re.compile(r"(?m)(?:\{$|\{\}$)").search(text, i)
        clauses = text[i : end.start()]
        yield m.group(2), m.start(), parameters, clauses, block(text, end.start())


def structs(text):
    """Name, place and fields of each struct."""
    for m in re.finditer(r"^(?:pub(?:\(\w+\))? )?struct (\w+)[^{;]*\{(.*?)\n\}", text, re.M | re.S):
        yield m.group(1), m.start(), m.group(2)


def say(path, text, at, what):
    print(f"    {path}:{line_of(text, at)}: {what}")


def point_1():
    for path, text in sources():
        for m in re.finditer(r"Err\((\w+)\) => (?:return )?(\w+(?:::\w+)*\(\1\)|\w+\(\w+::\w+\(\1\)\)|Err\(.*\)),", text):
            say(path, text, m.start(), m.group(0))
        for m in re.finditer(r"Err\((\w+)\) => return .*,", text):
            if not re.match(r"Err\((\w+)\) => return (\w+(?:::\w+)*\(\1\)),", m.group(0)):
                say(path, text, m.start(), m.group(0))
        for m in re.finditer(r"let Ok\([^)]*\)+ = [^;]*? else \{\s*return Err\([^;]*\);", text):
            say(path, text, m.start(), " ".join(m.group(0).split()))
        for m in re.finditer(r"let [^;]*? else \{\s*unreachable\(\)\s*\}", text):
            say(path, text, m.start(), " ".join(m.group(0).split()))
        for m in re.finditer(r"enum (\w+) \{(.*?)\n\}", text, re.S):
            kinds = re.findall(r"^    (\w+)", m.group(2), re.M)
            if len(kinds) <= 3 and {"More", "Refused", "None", "Nothing"} & set(kinds):
                say(path, text, m.start(), f"enum {m.group(1)}: {', '.join(kinds)}")
        for m in re.finditer(r"\b(number|kind|code) == \d+", text):
            say(path, text, m.start(), m.group(0))


def point_2():
    words = re.compile(r"\w+|[^\s\w]")
    found = []
    for path, text in sources():
        for name, at, parameters, clauses, body in functions(text):
            body = re.sub(r"//.*", "", body)
            found.append((path, line_of(text, at), name, parameters, words.findall(body)))
    for a, b in itertools.combinations(found, 2):
        if len(a[4]) == len(b[4]) and (len(a[4]) >= 12 or (a[0] == b[0] and a[4] == b[4] and len(a[4]) > 2)):
            apart = {(x, y) for x, y in zip(a[4], b[4]) if x != y}
            if len(apart) <= 3:
                print(f"    {a[0]}:{a[1]}: {a[2]} / {b[0]}:{b[1]}: {b[2]}: {sorted(apart)}")
        elif a[2] == b[2] and a[3] == b[3] and a[3]:
            print(f"    {a[0]}:{a[1]} / {b[0]}:{b[1]}: two functions {a[2]}({', '.join(a[3])})")
    types = collections.defaultdict(list)
    for path, text in sources():
        for name, at, inside in structs(text):
            fields = re.findall(r"^    (?:pub(?:\(crate\))? )?\w+: (.*),$", inside, re.M)
            shape = tuple(sorted(re.sub(r"\[.*; (\w+)\]", "array", f) for f in fields))
            if len(shape) > 1:
                types[shape].append(f"{path}:{line_of(text, at)} {name}")
    for shape, where in types.items():
        if len(where) > 1:
            print(f"    types of ({', '.join(shape)}): {', '.join(where)}")


def point_3():
    for path, text in sources():
        for m in re.finditer(r"for (\w+) in ([^{\n]*\.\.[^{\n]*) \{", text):
            body = block(text, m.end() - 1)
            if re.search(r"\[[^\]\n]*\b%s\b[^\]\n]*\]" % m.group(1), body) or re.search(
                r"\(([^()\n]*, )?%s\)" % m.group(1), body
            ) and "0.." in m.group(2):
                say(path, text, m.start(), m.group(0)[:-2])
        for m in re.finditer(r"for \((\w+), &?\w+\) in [^{\n]*\.enumerate\(\) \{", text):
            if re.search(r"\w\[%s\] = " % m.group(1), block(text, m.end() - 1)):
                say(path, text, m.start(), m.group(0)[:-2])
        for m in re.finditer(r"while ([^{\n]*) \{", text):
            body = block(text, m.end() - 1)
            if any(re.search(r"\b%s (?:\+|-)= " % w, body) for w in re.findall(r"[a-z_]\w*", m.group(1))):
                say(path, text, m.start(), m.group(0)[:-2])


def point_4():
    for path, text in sources():
        for m in re.finditer(r"\.number\(\) == \S+|impl(?:<[^>]*>)? (?:PartialEq|Eq|PartialOrd|Ord|Clone|Copy)\b.*", text):
            say(path, text, m.start(), m.group(0))
        for name, at, parameters, clauses, body in functions(text):
            arms = re.findall(r"(\w+)::(\w+)(?:\(\w+\))? => (\w+)::(\w+)", body)
            if len(arms) >= 2 and all(a[1] == a[3] for a in arms):
                say(path, text, at, f"{name}: one enum to another")
            if re.search(r"256 \* u64::from|65536 \* u64::from", body):
                say(path, text, at, f"{name}: a number from its bytes")
            if ".number()" in body and ".place()" in body and "format!" in body:
                say(path, text, at, f"{name}: a refusal's text")


def point_5():
    facts = collections.defaultdict(list)
    together = collections.defaultdict(list)
    for path, text in sources():
        for name, at, parameters, clauses, body in functions(text):
            for kind, fact in re.findall(r"(requires|ensures)\s*\w*\s*\{(.*)\}\s*$", clauses, re.M):
                for part in fact.split(" × "):
                    facts[kind, part.strip().strip("()").strip()].append(f"{path}: {name}")
            for three in itertools.combinations(sorted(parameters), 3):
                together[three].append(f"{path}: {name}")
    for (kind, fact), where in sorted(facts.items(), key=lambda f: -len(f[1])):
        if len(where) >= 3:
            print(f"    {kind} {fact}: {', '.join(where)}")
    for three, where in sorted(together.items(), key=lambda t: -len(t[1])):
        if len(where) >= 3:
            print(f"    ({', '.join(three)}): {', '.join(where)}")


def point_6():
    for path, text in sources():
        for name, at, inside in structs(text):
            if re.search(r": \[[^\]]*; \w+\],", inside) and re.search(r": usize,", inside):
                say(path, text, at, f"struct {name}: an array and a length")
        for name, at, parameters, clauses, body in functions(text):
            slices = [p for p in parameters if re.search(r": &(mut )?\[", p)]
            lengths = [p for p in parameters if re.match(r"(len|count|width|unknowns|m|degree|at|from|to): usize", p)]
            if slices and lengths:
                say(path, text, at, f"{name}({', '.join(slices + lengths)})")


def point_7():
    for path, text in sources():
        for m in re.finditer(r"match (direction|way|deed|step|kind|verb)\b[^{\n]*\{", text):
            body = block(text, m.end() - 1)
            if len(re.findall(r"=> \{?\s*\S*\w+\(", body)) >= 2:
                say(path, text, m.start(), m.group(0)[:-2])


def point_8():
    for crate in sorted(glob.glob("crates/*/proofs")):
        answers = lines = 0
        for path in glob.glob(crate + "/**/*.antt", recursive=True):
            text = open(path, encoding="utf-8").read()
            lines += len([l for l in text.split("\n") if l.strip() and not l.startswith("--")])
            if path.count("/") > 3:
                answers += len(re.findall(r"^(?:abbrev |unfoldable )?(?:pub )?[\w-]+ : ", text, re.M))
        print(f"    {crate.split('/')[1]}: {answers} answers, {lines} lines")


def main():
    points = sys.argv[1:] or "12345678"
    for point in points:
        print(f"point {point}")
        globals()[f"point_{point}"]()


main()
