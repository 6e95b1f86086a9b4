#!/usr/bin/env python3
"""Brings the names of the repository's own definitions and lemmas to the spelling of the Rattle kit.

usage: tools/port_names.py [FOLDER]

FOLDER (the top of a repository, else this one) has gone through the kit's port.py. Words are then in snake case (codesOf -> codes_of,
allAtMost-tail -> all_at_most-tail), and a field has no dash (shift-low -> shift_low); the dashes of a lemma's name stay. Types, facts, modules, functions of src/, exported names and strings keep theirs. It rewrites the .antt and .rt
files in place, prints what falls together in one file, and with --map the names that changed, old and new.
"""

import collections
import os
import re
import sys

WORD = re.compile(r'--[^\n]*|//[^\n]*|b?"(?:[^"\\]|\\.)*"|«[^»]*»|[^\s(){}.;,@"«»\[\]\\:]+')
CAMEL = re.compile(r"[a-z][a-z0-9]*(?:[A-Z]+[a-z0-9₀-₉]*)+'*")
DECLARED = re.compile(r"^(\s*)(?:abbrev |unfoldable |private )*(?:pub )?([^\s(){}:;,]+) :(?= )", re.M)
USE = re.compile(r"^\s*(?:ghost )?(?:pub )?use ([^\s{;]+?)(?:\.\{([^}]*)\})?(?: as [^\s;]+)?;?\s*$", re.M)
# Names that would fall together with another of their file.
GIVEN = {
    "countOf": "samples_count", "count-of": "length-samples_of", "in-range": "ranged", "queue-in": "queue_ranged", "mode-in": "mode_ranged",
    "reader-after": "reader_then", "ends-idle": "idle_at_end", "offers-none": "no_offers", "past-ms": "ms_past", "since-ms": "ms_since",
}
# The same, in these files alone: lemmas and fields beside a definition whose word becomes theirs.
IN_FILES = {
    "calling_theorems/proofs/Pauses.antt": {"none_after": "none_after-short"},
    "frames/proofs/Range.antt": {"in_frame": "in_frame-step"},
    "line_theorems/proofs/FrameRules.antt": {"in_frame": "in_frame-step"},
    "line_theorems/proofs/AnyElement.antt": {"in_frame": "in_frame-step"},
    "line_theorems/proofs/DtmfChain.antt": {"key_counts": "key_counts-on"},
    "line_theorems/proofs/KeyRules.antt": {"key_counts": "key_counts-on"},
    "line_theorems/proofs/WholeChain.antt": {"own_code": "own_code-is", "read_back": "read_back-is"},
    "preview/proofs/Lowers.antt": {"part_left": "part_left-some"},
    "station_entry/proofs/Answers.antt": {"all_in": "all_in-both"},
    "demand3/proofs/": {"at_once": "at_once-law"},
    "": {"keys_in": "keys_ranged"},
}


def files(root, folder, ends):
    for at, dirs, names in os.walk(os.path.join(root, folder)):
        dirs[:] = sorted(d for d in dirs if d not in ("out", "target", ".git"))
        for name in sorted(names):
            if name.endswith(ends):
                yield os.path.join(at, name)


def read(path):
    with open(path, encoding="utf-8") as f:
        return f.read()


def snake(word):
    """The word with each of its parts in snake case; a part that begins with a capital stays."""
    if not CAMEL.fullmatch(word):
        return word
    return re.sub(r"(?<=[a-z0-9₀-₉])([A-Z]+)", lambda m: "_" + m[1].lower(), word)


def lemma_file(path):
    return path.endswith(".antt") and os.path.basename(path) not in ("Proof.antt", "Lib.antt")


def declared(root):
    """The names that the files of lemmas and definitions declare, with and without indentation."""
    top, fields = set(), set()
    for path in files(root, "crates", ".antt"):
        if not lemma_file(path):
            continue
        text = read(path)
        record = -1
        for line in text.split("\n"):
            indent = len(line) - len(line.lstrip())
            if line.strip() and indent <= record:
                record = -1
            m = DECLARED.match(line)
            if m:
                (fields if 0 <= record == indent - 2 else top).add(m[2])
            if re.match(r"\s*(?:pub )?record ", line):
                record = indent
    return top, fields


def foreign(text):
    """The names that a file takes from a library."""
    found = set()
    for m in USE.finditer(text):
        if not re.match(r"Rattle\.(?!std\.|core\.|io\b|libc\b)", m[1]) and m[2]:
            found |= {n.strip().split(" as ")[0] for n in m[2].split(",")}
    return found


def table(root):
    top, fields = declared(root)

    def turned(word):
        if word in GIVEN:
            return GIVEN[word]
        word = "-".join(snake(part) for part in word.split("-"))
        return word.replace("-", "_") if word[0].islower() and word in fields - top else word

    return {w: turned(w) for w in top | fields if turned(w) != w}


def turn(text, names, skip, code):
    def one(m):
        w = m[0]
        if w.startswith(("--", "//")):
            return re.sub(r"[A-Za-z0-9_'-]+", lambda n: names.get(n[0], n[0]) if CAMEL.fullmatch(n[0]) or n[0] in GIVEN else n[0], w)
        if w.startswith(('"', 'b"', "«")) or w in skip:
            return w
        if w in names:
            return names[w]
        if not code and CAMEL.search(w):
            return "-".join(snake(p) for p in w.split("-"))
        return snake(w)

    return WORD.sub(one, text)


def main(argv):
    show = "--map" in argv
    argv = [a for a in argv if a != "--map"]
    root = argv[0] if argv else os.path.join(os.path.dirname(os.path.abspath(__file__)), "..")
    names = table(root)
    if show:
        for old, new in sorted(names.items()):
            print(f"{old}\t{new}")
        return 0
    for path in files(root, "crates", (".antt", ".rt")):
        was = text = read(path)
        for end, words in IN_FILES.items():
            if end in path and path.endswith(".antt"):
                for old, new in words.items():
                    text = re.sub(rf"(?<![\w'.-]){old}(?![\w'-]|\.\w)|(?<=\w\.){old}(?= |;|\))", new, text)
        skip = foreign(text)
        new = turn(text, names, skip, path.endswith(".rt"))
        before = set(WORD.findall(text))
        to = collections.defaultdict(set)
        for w in before:
            if not w.startswith(("--", "//", '"', 'b"', "«")):
                to[turn(w, names, skip, path.endswith(".rt"))].add(w)
        for w, of in sorted(to.items()):
            if len(of) > 1:
                print(f"{os.path.relpath(path, root)}: {', '.join(sorted(of))} are all {w}")
        if new != was:
            with open(path, "w", encoding="utf-8") as f:
                f.write(new)
    return 0


if __name__ == "__main__":
    raise SystemExit(main(sys.argv[1:]))
