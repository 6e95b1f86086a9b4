#!/usr/bin/env python3
"""places.py [-v]: counts, in crates/*/src, the places of each point of docs/DESIGN-PASS.md; with -v it names them. Run it at
the top of the repository. It counts what can be told from the text; what only a reader can tell, the page says."""
import collections
import glob
import os
import re
import sys

VERBOSE = "-v" in sys.argv[1:]
FILES = sorted(glob.glob("crates/*/src/*.rt"))
ITEM = re.compile(r"^( *)(?:pub )?(?:extern \"C\" )?(fn|struct|enum) (\w+)")


def items(path):
    """The functions, structs and enums of a file: (line, kind, name, head, body), comments left out."""
    lines = [re.sub(r"//.*$", "", line.rstrip()) for line in open(path, encoding="utf-8")]
    for number, line in enumerate(lines):
        found = ITEM.match(line)
        if not found:
            continue
        indent, kind, name = found.groups()
        if kind == "struct" and line.endswith(";"):
            yield number + 1, kind, name, line, ""
            continue
        end = next((k for k in range(number, len(lines)) if lines[k] == indent + "}"), number)
        opening = next((k for k in range(number, end) if lines[k] == indent + "{"), number)
        yield number + 1, kind, name, "\n".join(lines[number:opening]), "\n".join(lines[opening + 1:end])


ALL = [(path, *item) for path in FILES for item in items(path)]
FUNCTIONS = [item for item in ALL if item[2] == "fn"]


def crate(path):
    return path.split("/")[1]


def report(name, places):
    places = list(places)
    print(f"{name}: {len(places)}")
    if VERBOSE:
        for place in places:
            print("    ", place)


def grep(pattern, files=FILES):
    for path in files:
        for number, line in enumerate(open(path, encoding="utf-8"), 1):
            code = re.sub(r"//.*$", "", line)
            if re.search(pattern, code):
                yield f"{path}:{number}: {code.strip()}"


def option_shaped():
    for path, line, kind, name, _, body in ALL:
        if kind == "enum":
            variants = [v for v in re.sub(r"\{[^}]*\}", "(x)", body).split("\n") if v.strip()]
            data = ["(" in v for v in variants]
            if len(variants) == 2 and any(data):
                yield f"{path}:{line}: {name}"


def fields(pattern):
    for path, line, kind, name, _, body in ALL:
        if kind == "struct":
            for field in re.findall(pattern, body):
                yield f"{path}:{line}: {name}.{field}"


def normal(text, name):
    text = re.sub(r"\b" + name + r"\b", "F", text)
    text = re.sub(r"\b(requires|ensures)\b.*", "", text)
    text = re.sub(r"\b[A-Z]\w*::\w+|\b[A-Z][A-Z0-9_]+\b", "K", text)
    text = re.sub(r"\b0x[0-9a-f_]+|\b\d[\d_]*(?:u8|u16|u32|u64|usize)?\b", "N", text)
    text = re.sub(r"\b(u8|u16|u32|u64|i32|usize)\b", "T", text)
    text = re.sub(r"[<>]=?|[!=]=|\bb\"[^\"]*\"", "R", text)
    return re.sub(r"\s+", " ", text).strip()


def twins():
    groups = collections.defaultdict(list)
    for path, line, _, name, head, body in FUNCTIONS:
        if len([x for x in body.split("\n") if x.strip()]) >= 3:
            groups[normal(body, name)].append(f"{path}:{line} {name}")
    return [" ~ ".join(group) for group in groups.values() if len(group) > 1]


def equal_arms():
    arm = re.compile(r"^ *\w+::\w+(?:\(\w+\))? => (.*),$")
    for path in FILES:
        last = None
        for number, line in enumerate(open(path, encoding="utf-8"), 1):
            found = arm.match(line)
            right = found.group(1) if found else None
            if right is not None and right == last:
                yield f"{path}:{number}: {line.strip()}"
            last = right


def by_hand():
    names = r"^(smaller|larger|distance|is_zero|cause_number|number|of|anew|hex_digit|digit|low_digit|high_digit|print_\w+)$"
    for path, line, _, name, _, _ in FUNCTIONS:
        if re.match(names, name):
            yield f"{path}:{line}: {name}"
    yield from grep(r"\.0 [=!]= ")


def facts():
    groups = collections.defaultdict(list)
    for path, line, _, name, head, _ in FUNCTIONS:
        for fact in set(re.findall(r"requires(?: \w+)? \{ (.*?) \}\n", head + "\n")):
            words = sorted(set(re.findall(r"\b[a-z_]\w*\b(?!\.)", fact)))
            groups[(crate(path), fact)].append(name)
    return [f"{key[0]}: {key[1]}: {', '.join(names)}" for key, names in groups.items() if len(names) >= 3]


def travelling():
    """Runs of three or more parameters, name and type, that three or more functions share."""
    groups = collections.defaultdict(set)
    for path, line, _, name, head, _ in FUNCTIONS:
        inside = re.search(r"\((.*?)\)\s*(?:->|$|\n)", head, re.S)
        parts = re.findall(r"(\w+): ([^,()]+(?:\[[^]]*\])?)", inside.group(1)) if inside else []
        for start in range(len(parts) - 2):
            run = tuple(f"{a}: {b.strip()}" for a, b in parts[start:start + 3])
            groups[run].add(f"{crate(path)}::{name}")
    return [f"({', '.join(run)}): {', '.join(sorted(names))}" for run, names in groups.items() if len(names) >= 3]


def buffers():
    yield from grep(r"let mut \w+ = \[[^;\]]+; ?\d+\];")
    for path, line, _, name, head, _ in FUNCTIONS:
        if re.search(r"(\w+): &(?:mut )?\[\w+\],\s*(?:\w+: \w+,\s*)?(n|len|ms|room|k|at): usize", head):
            yield f"{path}:{line}: {name}"


def steps():
    """Functions with a flag, a bool, among their parameters, and matches that choose between calls alone."""
    for path, line, _, name, head, body in FUNCTIONS:
        if re.search(r"\w+: bool", head.split("->")[0]):
            yield f"{path}:{line}: {name}, a flag"
        arms = re.findall(r"=> (?:[\w:]+)\(.*\),$", body, re.M)
        if len(arms) >= 3 and "match" in body:
            yield f"{path}:{line}: {name}, {len(arms)} calls"


def proofs():
    answers = lines = lets = 0
    for path in glob.glob("crates/*/proofs/**/*.antt", recursive=True):
        text = open(path, encoding="utf-8").read()
        if os.path.basename(path) == "Answers.antt":
            answers += len(re.findall(r"^pub [\w-]+ : goal", text, re.M))
            lines += text.count("\n")
            seen = collections.Counter(re.sub(r"\s+", " ", x.strip()) for x in text.split("\n") if x.strip().startswith("let "))
            lets += sum(count for count in seen.values() if count >= 3)
    print(f"8 answers: {answers}, in {lines} lines; lines with a let that stand three times or more in one file: {lets}")


report("1 enums of the shape of Option or Result", option_shaped())
report("1 flags in structs", fields(r"(\w+): bool"))
report("1 numbers for refusals, in structs", fields(r"(answer): u8"))
report("1 numbers for kinds, in structs and parameters",
       list(fields(r"(shift|part|mode|tone|choice|key|cause|kind): u8"))
       + list(grep(r"fn .*\b(shift|own|part|mode|tone|key|mark|w): u8")))
report("2 functions that differ in names, numbers, types or an order", twins())
report("2 arms of a match that are alike", equal_arms())
report("3 loops that are no for", grep(r"^ *(while .*\{|loop \{)"))
report("4 comparisons, conversions and printing by hand", by_hand())
report("5 facts in three contracts or more of a crate", facts())
report("5 three parameters that three functions or more share", travelling())
report("6 buffers, and slices with a length beside them", buffers())
report("7 flags and matches that choose a step", steps())
proofs()
