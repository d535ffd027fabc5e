#!/usr/bin/env python3
"""Brings the names of this repository's own definitions and lemmas to snake case.

usage: respell_names.py [--check]        at the top of the repository, once, after Rattle's port.py

A definition `likeThis`, a lemma or a field `like-this` become `like_this`; types, modules and what Rattle makes stay.
It turns whole words in specs/, proofs/, clauses, ghost items and must-fail edits, and in code spans of README.md and docs/.
A name that a file takes from a library stays in that file. Names that would fall together are told, and KEEP or OTHER below decides them.
It goes by spelling and proves nothing.
"""

import collections
import os
import re
import sys

NAME = r"""[^\s(){}.;,@"«»`]+"""
WORD = re.compile(NAME)
DECLARED = re.compile(r"(?m)^ *(?:(?:pattern|unfoldable|abbrev|pub) )*(%s)((?: \{[^{}\n]*\}| \([^()\n]*\))*) :(?= |$)" % NAME)
USE = re.compile(r"(?m)^ *(?:pub |ghost )*use ([^\s;{]+?)\.?(?:\{([^}]*)\})?(?: as \S+)?;?[ \t]*$")
CLAUSE = re.compile(r"(?:requires|ensures)\*?\s*(?:\w+\s*)?\{|ghost\s+(?:\w+\s*:\s*)?\{")
SPAN = re.compile(r"`[^`\n]+`")
LIBRARIES = ("std", "core", "std_alloc", "std_collections", "std_heap", "std_io", "io", "libc", "os")

# Definitions that would be spelled as a field of Rust's. As fields of records these names are turned like the others.
OF = {name: re.sub("([A-Z])", lambda m: "_" + m[1].lower(), name) + "_of" for name in ("currentTerm", "lastAcceptedTerm", "nackTerm", "proposalData", "roundSlots", "tookPart")}

# Lemmas that are spelled already as what a definition becomes, or would be spelled as a word of the library.
SPELLED = {**{name: name + "_lem" for name in ("after_last", "all_slots", "bytes_left", "in_order", "written_from")}, "is-nan": "is_nan_lem"}


def files(*endings):
    for folder, dirs, names in os.walk("crates"):
        dirs[:] = sorted(d for d in dirs if d != "out")
        for name in sorted(names):
            if name.endswith(endings):
                yield os.path.join(folder, name)


def read(path):
    with open(path, encoding="utf-8") as f:
        return f.read()


def snake(name):
    name = re.sub(r"(?<=[a-z0-9])([A-Z])", lambda m: "_" + m[1].lower(), name)
    return name.replace("-", "_")


def is_own(module):
    steps = module.split(".")
    return steps[0] == "package" or steps[0] == "Rattle" and len(steps) > 1 and steps[1] not in LIBRARIES


def foreign(text):
    """The names that a file takes from a library."""
    found = set()
    for module, items in USE.findall(text):
        if not is_own(module):
            found.update(WORD.findall(items or ""))
    return found


def declared():
    names = collections.defaultdict(set)
    for path in files(".antt"):
        for m in DECLARED.finditer(read(path)):
            if not m[1][0].isupper() and "◌" not in m[1]:
                names[m[1]].add(path)
    return names


def ghost_parts(text):
    """The spans of a .rt file in which names of specs/ can stand."""
    spans = [m.span() for m in re.finditer(r"ghost\s+use\b[^;]*;", text)]
    for m in CLAUSE.finditer(text):
        depth, at = 1, m.end()
        while depth and at < len(text):
            depth += {"{": 1, "}": -1}.get(text[at], 0)
            at += 1
        spans.append((m.end(), at - 1))
    return spans


def turned(text, table):
    def one(m):
        behind, ahead = text[m.start() - 1 : m.start()], text[m.end() : m.end() + 3]
        if m[0] in OF and m[0] in table and behind != "." and ahead != " = " and not re.match(r" : (RoundSlots|ℕ)$", text[m.end() :].split("\n")[0]):
            return OF[m[0]]
        new = table.get(m[0], m[0])
        # behind a dot it is a module or a step of the code
        return new[: -len("_lem")] if behind == "." and new.endswith("_lem") else new

    return WORD.sub(one, text)


def within(text, spans, table):
    out, at = [], 0
    for start, end in sorted(spans):
        if start < at:
            continue
        out += [text[at:start], turned(text[start:end], table)]
        at = end
    return "".join(out) + text[at:]


def main(argv):
    names = declared()
    table = {n: snake(n) for n in names if snake(n) != n}
    camel = {s for n, s in table.items() if "-" not in n and n not in OF}
    # a lemma that would have its definition's name
    table.update({n: s + "_lem" for n, s in table.items() if "-" in n and s in camel})
    table.update(SPELLED)
    said = []
    meet = collections.defaultdict(set)
    for path in files(".antt"):
        text = read(path)
        own = {n: s for n, s in table.items() if n not in foreign(text)}
        words = set(WORD.findall(text))
        new = collections.defaultdict(set)
        for w in words:
            new[own.get(w, w)].add(w)
        for s, olds in new.items():
            if len(olds) > 1:
                meet[(s, tuple(sorted(olds)))].add(path)
    for (s, olds), paths in sorted(meet.items()):
        said.append(f"look: {', '.join(olds)} would all be {s}: {' '.join(sorted(paths)[:3])}")
    for path in files(".rt"):
        text = read(path)
        spans = ghost_parts(text)
        used = {s for a, b in spans for s in (table.get(w) for w in WORD.findall(text[a:b])) if s}
        for m in re.finditer(r"\bfn (\w+)[^{;]*?\(([^)]*)\)", text):
            for p in re.findall(r"(\w+)\s*:", m[2]):
                if p in used:
                    said.append(f"look: a parameter {p} of {m[1]} in {path} is spelled as a definition")
        for p in re.findall(r"(?m)^ +(?:pub )?(\w+): ", text):
            if p in table.values():
                said.append(f"look: a field or binding {p} in {path} is spelled as a definition")
    print("\n".join(sorted(set(said))))
    if "--check" in argv:
        return 0
    for path in files(".antt", ".rt", ".edit"):
        text = read(path)
        own = {n: s for n, s in table.items() if n not in foreign(text)}
        if path.endswith(".rt"):
            out = within(text, ghost_parts(text), own)
        else:
            out = turned(text, own)
        if out != text:
            with open(path, "w", encoding="utf-8") as f:
                f.write(out)
    pages = ["README.md"] + [os.path.join(d, f) for d, _, fs in os.walk("docs") for f in sorted(fs) if f.endswith(".md")]
    spelled = set(table.values()) | set(names)
    for path in pages:
        text = read(path)
        spans = [m.span() for m in SPAN.finditer(text) if " " not in m[0] or not re.search(r"[\w]-[\w]", m[0])]
        words = {w for a, b in spans for w in WORD.findall(text[a:b])}
        # port.py has respelled some that the page still has
        out = within(text, spans, {**{w: snake(w) for w in words if snake(w) in spelled}, **table})
        if out != text:
            with open(path, "w", encoding="utf-8") as f:
                f.write(out)
    return 0


if __name__ == "__main__":
    raise SystemExit(main(sys.argv[1:]))
