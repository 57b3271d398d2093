#!/usr/bin/env python3
"""Lists places in crates/*/src that an older form may have left, by kind: `tools/places.py [KIND..]` from the top.

    enums     enums with the shape of Option, Result or bool
    numbers   functions and fields that give numbers for kinds or refusals, or a number for "none"
    refusing  functions that change something and answer a bool
    twins     functions with one body but for names and constants, and types with the fields of another
    loops     loops over a range of numbers, and `while` loops that compare
    by_hand   equality, copying, conversion and printing written as functions or impls
    clauses   clauses (after their names) that stand in three or more functions
    together  pairs of parameters (name and type) that three or more functions take
    buffers   arrays in fields, and fields `len`/`count` beside them
    switches  parameters that are a flag, and structs that are one test with what it captures
"""
import collections, glob, re, sys

FILES = {p: open(p).read() for p in sorted(glob.glob("crates/*/src/**/*.rt", recursive=True))}


def at(path, offset):
    return f"{path}:{FILES[path].count(chr(10), 0, offset) + 1}"


def finds(pattern, flags=re.M):
    for path, text in FILES.items():
        for m in re.finditer(pattern, text, flags):
            yield path, m


def body(text, start):
    """From the first `{` after start to its `}`."""
    i = text.index("{", start)
    depth = 0
    for j in range(i, len(text)):
        depth += {"{": 1, "}": -1}.get(text[j], 0)
        if depth == 0:
            return text[i + 1 : j]


def functions():
    for path, m in finds(r"^[ ]*(?:pub(?:\([a-z]+\))? )?(?:const )?fn (\w+)(?:<.*?>)?\(", re.M):
        text = FILES[path]
        depth, j = 1, m.end()
        while depth:
            depth += {"(": 1, ")": -1}.get(text[j], 0)
            j += 1
        parameters = re.sub(r"\s+", " ", text[m.end() : j - 1]).strip(" ,")
        rest = text[j:]
        end = re.search(r"^[ ]*\{\}?$|;$|\{$", rest, re.M)
        yield path, m, m.group(1), parameters, rest[: end.start()], rest


def enums():
    for path, m in finds(r"^(?:pub(?:\(crate\))? )?enum (\w+)(<.*?>)? \{"):
        variants = re.findall(r"^    (\w+)(\(.*?\)|\s*\{.*?\})?,$", body(FILES[path], m.start()), re.M)
        if len(variants) == 2:
            loaded = [v for v in variants if v[1]]
            shape = ["bool", "Option", "Result"][len(loaded)]
            yield f"{at(path, m.start())}: {m.group(1)} has the shape of {shape}"


def numbers():
    for path, m, name, parameters, clauses, _ in functions():
        if re.match(r"\s*->\s*u8\b", clauses):
            yield f"{at(path, m.start())}: fn {name} answers a u8"
    for path, m in finds(r"^\s*(?:pub )?number: u8"):
        yield f"{at(path, m.start(0) + 1)}: field number"
    for path, m in finds(r"^\s*//.*(?:\b0 where|; 32 where|\(0: it|ticket 0 the).*$"):
        yield f"{at(path, m.start())}: {m.group(0).strip()}"


def refusing():
    for path, m, name, parameters, clauses, _ in functions():
        if "&mut" in parameters and re.match(r"\s*->\s*bool\b", clauses):
            yield f"{at(path, m.start())}: fn {name}"


def twins():
    seen = collections.defaultdict(list)
    for path, m, name, parameters, clauses, rest in functions():
        if "/src/" in path and "trials" not in path and "{" in rest[len(clauses) : len(clauses) + 8]:
            text = body(rest, len(clauses))
            text = re.sub(r"self\.(row|held|rows|names)\b", "self.X", text)
            text = re.sub(r"self\.(len|count)\b", "self.N", text)
            text = re.sub(r"\b\d[\d_]*\b", "0", text)
            text = re.sub(r"\b(Tickets|Labels|Line|Path|Bounded)\b", "T", text)
            text = re.sub(r"\b(step|ticket|name|byte|item)\b", "x", text)
            text = re.sub(r"\s+", " ", text).strip(" ,")
            if len(text) > 12:
                seen[text].append(f"{at(path, m.start())} {name}")
    for text, places in seen.items():
        if len(places) > 1:
            for place in places:
                yield f"{place}: {text[:60]}"
    shapes = collections.defaultdict(list)
    for path, m in finds(r"^(?:pub(?:\(crate\))? )?struct (\w+)(<.*?>)? \{"):
        fields = re.findall(r"^    (?:pub )?(\w+): (.*),$", body(FILES[path], m.start()), re.M)
        kind = tuple(sorted("array" if t.startswith("[") else t for _, t in fields if not t.startswith("{")))
        if "array" in kind and "usize" in kind:
            shapes["array and length"].append(f"{at(path, m.start())} struct {m.group(1)}")
    for kind, places in shapes.items():
        if len(places) > 1:
            for place in places:
                yield f"{place}: {kind}"


def loops():
    for path, m in finds(r"^\s*for \w+ in .*\.\..*\{$|^\s*while (?!let).*[<>].*\{$"):
        yield f"{at(path, m.start() + len(m.group(0)) - len(m.group(0).lstrip()))}: {m.group(0).strip()}"


def by_hand():
    for path, m in finds(r"^impl.* (?:Clone|Copy|PartialEq|Eq|PartialOrd|Ord|Debug|Default|Hash) for .*$"):
        yield f"{at(path, m.start())}: {m.group(0)}"
    for path, m in finds(r"^\s*(?:pub )?fn (?:is|same|equals|cmp|compare|number|refusal|done|yes|is_label|name_of|to_\w+|into_\w+|from_\w+)\b.*$"):
        if "fn from(" not in m.group(0):
            yield f"{at(path, m.start() + 1)}: {m.group(0).strip()}"
    for path, m in finds(r"if (.*) \{ (\w+::\w+) \} else \{ (\w+::\w+) \}"):
        yield f"{at(path, m.start())}: {m.group(0)}"


def clauses():
    seen = collections.defaultdict(list)
    for path, m, name, parameters, text, _ in functions():
        for clause in re.findall(r"(?:requires|ensures)(?: \w+)? \{ (.*) \}$", text, re.M):
            seen[clause].append(f"{at(path, m.start())} {name}")
    for clause, places in sorted(seen.items(), key=lambda kv: -len(kv[1])):
        if len(places) > 2:
            for place in places:
                yield f"{place}: {clause}"


def together():
    seen = collections.defaultdict(list)
    for path, m, name, parameters, text, _ in functions():
        if "trials" in path:
            continue
        named = [re.sub(r"^mut ", "", p.strip()) for p in re.split(r", (?![^<(\[]*[>)\]])", parameters) if ":" in p]
        for i, a in enumerate(named):
            for b in named[i + 1 :]:
                seen[(a, b)].append(f"{at(path, m.start())} {name}")
    for (a, b), places in sorted(seen.items(), key=lambda kv: -len(kv[1])):
        if len(places) > 2:
            yield f"{a}, {b}: {len(places)} functions: {'; '.join(places)}"


def buffers():
    for path, m in finds(r"^    (?:pub )?\w+: \[.*; .*\],$|^    (?:pub )?(?:len|count): usize,$"):
        yield f"{at(path, m.start())}: {m.group(0).strip()}"


def switches():
    for path, m, name, parameters, clauses, _ in functions():
        for flag in re.findall(r"(\w+): bool", parameters):
            yield f"{at(path, m.start())}: fn {name} takes the flag {flag}"
    for path, m in finds(r"^impl.* Choice for (\w+).*$"):
        yield f"{at(path, m.start())}: {m.group(0)}"


KINDS = [enums, numbers, refusing, twins, loops, by_hand, clauses, together, buffers, switches]

for kind in KINDS:
    if len(sys.argv) == 1 or kind.__name__ in sys.argv[1:]:
        lines = list(kind())
        print(f"== {kind.__name__}: {len(lines)}")
        for line in lines:
            print("  " + line)
