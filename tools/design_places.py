#!/usr/bin/env python3
"""Counts the places of docs/DESIGN-PASS.md in crates/*/src, by point.

usage: design_places.py [COMMIT] [-v]

Without COMMIT it reads the work tree; -v prints each place.
"""
import glob
import re
import subprocess
import sys

# A line is a place of a point if one of the point's patterns is found in it. Enums and signatures are read whole.
LINES = {
    "1 refusals and kinds by number": [
        r"\b(Refused|Number)\(\d+\)",
        r"\brefused\(\d+\)",
        r"write_refusal\(\d+",
        r"\bconst \w+: u64 = 1\d;",
        r"\bended: (u64|\d),?$",
    ],
    "2 one helper written again": [
        r"\bfn (smaller|larger|at_most|one_if|wide|size|latency|kept\w*|number_at|byte_at)\b",
        r"\bfn (put|put_number|print|print_number|put_spaced|put_refused|put_end|answer_lines|replay)\(rt",
    ],
    "2 rows and topology apart": [r"\bfn (?!ctsim_)\w+_(rows|topology)\("],
    "2 a choice of three tables": [r"if plan\.nodes <= FEW_NODES"],
    "3 loops by while or loop": [r"^\s*(while|loop)\b"],
    "3 loops over a range of indices": [r"^\s*for \w+ in [^&\[]*\.\."],
    "4 conversions and comparisons by hand": [
        r"\bfn (code_of|data_of|slots_number|slots_from|config_of|config_from|is_dash|has_newline)\b",
        r"\bfn (are_\w+|equal_\w+|of_\w+|\w+_from|nack_of|layout_of)\(",
        r"std::num::wrapping_\w+\(",
        r"\bfn (wrapping_mul_u64|rotate_left|rotate_right)\b",
    ],
    "4 printing piece by piece": [r"\b(put|print)\((&?rt|to), b\""],
    "7 a switch on which list, word or table": [r"match (lines|how|shown|wanted) \{"],
}

# Parameters that travel together: a signature that has them all is a place.
TOGETHER = {
    "5 a buffer and a place in it": [r"\bout: &mut \[u8\]", r"\bat: usize\b"],
    "5 a node's numbers and their place": [r"\bstates: &(mut )?\[u64\]", r"\bat: usize\b"],
    "5 rows and how many": [r"\brows: &\[u(32|64)", r"\bn: (usize|u64)\b"],
    "5 a graph and its plan": [r"\bgraph: &\[u64; MAX_NODES\]", r"\bplan: Plan\b"],
    "5 topology, first and second": [r"\btopology: u64\b", r"\bfirst: u64\b", r"\bsecond: u64\b"],
    "5 a stream and its next draw": [r"\bstream: &mut \[u32", r""],
    "5 logs, records and snapshots": [r"\blogs: &(mut )?\[u8\]", r"\brecords: &(mut )?\[u64\]", r"\bsnapshots: &(mut )?\[u64\]"],
    "6 a flat table with places for fields": [r"\b(states|history): &(mut )?\[u64"],
}


def sources(commit):
    """The text of each source file, by its path."""
    if not commit:
        for path in sorted(glob.glob("crates/*/src/*.rt")):
            with open(path, encoding="utf-8") as file:
                yield path, file.read()
        return
    names = subprocess.check_output(["git", "ls-tree", "-r", "--name-only", commit, "crates"], text=True)
    for path in names.split():
        if re.fullmatch(r"crates/\w+/src/\w+\.rt", path):
            yield path, subprocess.check_output(["git", "show", f"{commit}:{path}"], text=True)


def parts(clause):
    """The facts that × joins in a clause."""
    found, depth, start, closed = [], 0, 0, None
    clause = clause.strip()
    for i, c in enumerate(clause):
        depth += (c == "(") - (c == ")")
        if depth == 0 and closed is None:
            closed = i
        if c == "×" and depth == 0:
            found.append(clause[start:i])
            start = i + 1
    if found:
        return [deep for it in [*found, clause[start:]] for deep in parts(it)]
    if clause.startswith("(") and closed == len(clause) - 1:
        return parts(clause[1:-1])
    return [clause]


def repeated_facts(texts):
    """Each fact that three or more functions of a crate ask of their callers, once for each function."""
    asked = {}
    for path, text in texts:
        crate = path.split("/")[1]
        for clause in re.findall(r"^\s*requires \w* ?\{(.*?)\}\s*$", text, re.M | re.S):
            for fact in set(parts(re.sub(r"\.(old|now)\b", "", re.sub(r"\s+", " ", clause)))):
                asked.setdefault((crate, fact), []).append(path)
    for (_, fact), paths in asked.items():
        if len(paths) >= 3:
            for path in paths:
                yield "5 a fact in three or more contracts", f"{path}: {fact}"


def is_option_or_result(body):
    """Whether an enum holds a value in one variant, and in another nothing or a refusal."""
    body = re.sub(r"//[^\n]*", "", body)
    variants = re.findall(r"(\w+)(\([^)]*\))?\s*(?:,|$)", body.strip())
    held = [it for it in variants if it[1]]
    if len(variants) > 3 or not held:
        return False
    return any(not it[1] or it[0] == "Refused" for it in variants)


def places(text):
    for point, patterns in LINES.items():
        for number, line in enumerate(text.split("\n"), 1):
            if not line.lstrip().startswith("//") and any(re.search(it, line) for it in patterns):
                yield point, number, line.strip()
    for found in re.finditer(r"^\s*(?:pub )?enum (\w+)(?:<[^>]*>)? \{(.*?)^\s*\}", text, re.M | re.S):
        if is_option_or_result(found[2]):
            yield "1 enums of the shape of Option or Result", text[: found.start(1)].count("\n") + 1, found[1]
    for found in re.finditer(r"\bfn (\w+)(?:<[^>]*>)?\((.*?)\)\s*(?:->|requires|ensures|\{|$)", text, re.M | re.S):
        for point, patterns in TOGETHER.items():
            if not found[1].startswith("ctsim_") and all(re.search(it, found[2]) for it in patterns):
                yield point, text[: found.start()].count("\n") + 1, found[1]


def main():
    words = [it for it in sys.argv[1:] if it != "-v"]
    found = {}
    texts = list(sources(words[0] if words else None))
    for path, text in texts:
        for point, number, what in places(text):
            found.setdefault(point, []).append(f"{path}:{number}: {what}")
    for point, what in repeated_facts(texts):
        found.setdefault(point, []).append(what)
    for point in sorted({*LINES, *TOGETHER, *found}):
        print(f"{len(found.get(point, [])):4} {point}")
        if "-v" in sys.argv:
            print("\n".join(f"       {it}" for it in found.get(point, [])))


main()
