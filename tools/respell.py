#!/usr/bin/env python3
"""Brings the names of this repository's definitions and lemmas to the spelling of today's Rattle. Run once, after the kit's port.py.

usage: python3 tools/respell.py [--dry]     at the top of the checkout

 - a definition in lower camel case becomes snake case (`emptyEdge`: `empty_edge`), in crates/, the must-fail edits, README and docs/;
 - a dash inside a lemma's or a field's name becomes `_`, but where it joins a definition and a word of std (`pair_texts-length`);
 - names that are words of Rattle's tactics get another: `search` of the theory of striking is `search_result`, `firstOf` is `first_so_far`;
 - in the must-fail edits a prime is an apostrophe and a projection is written tight.

It prints each name that would fall together with one that stands in the same file, and then writes nothing.
"""
import collections
import glob
import re
import sys

TOKEN = re.compile(r"[^\s(){};,.@\"«»\[\]λ:`]+")
DEF = re.compile(r"\s*(?:(?:abbrev|unfoldable|pub|record|data|opaque|ruleset|axiom|mutual)\s+)*([^\s:(){}]+)\s+(?:[({].*)?:(?:\s|$)")
# std's words that are the second part of a joined name
WORDS = {"length", "append", "take", "drop", "sum", "replicate", "set", "get_or"}
# names that would fall together with others, or that Rattle has taken
TAKEN = {
    "firstOf": "first_so_far",
    "first_of": "first_so_far",
    "inner_edges": "inner_are_edges",
    "right_of": "right_of_lem",
    "goes_with": "goes_with_lem",
    "inner_below": "inner_below_lem",
    "all_edges": "all_edges_lem",
    "same_outcome": "same_outcome_lem",
    "is-mark": "is_mark_lem",
    "is-pair": "is_pair_lem",
    "detail-of": "detail_of_lem",
    "number-of": "number_of_lem",
    "in-range": "in_range_lem",
    "first-of": "both_first",
    "second-of": "both_second",
}
# the same for one file
TAKEN_IN = {
    "crates/certificates/proofs/Counting.antt": {"inner_edges": "inner_edges_lem"},
    "crates/driver/proofs/Longest.antt": {"inner_edges": "inner_edges_lem"},
    "crates/sets/proofs/Laws/Numbers.antt": {"first-of": "first_found"},
    "crates/sets/proofs/Laws/Members.antt": {"first-of": "first_found"},
    "crates/sets/proofs/Laws/Sets.antt": {"first-of": "first_found"},
}


def snake(name):
    return re.sub(r"(?<=[a-z0-9])([A-Z])", lambda m: "_" + m.group(1).lower(), name)


def read(path):
    with open(path, encoding="utf-8") as f:
        return f.read()


def antt(pattern):
    return sorted(glob.glob(pattern, recursive=True))


lemma_files = [f for f in antt("crates/*/specs/**/*.antt") + antt("crates/*/proofs/**/*.antt") if not f.endswith("/Proof.antt")]
all_antt = antt("crates/*/specs/**/*.antt") + antt("crates/*/proofs/**/*.antt")
sources = antt("crates/*/src/**/*.rt")
edits = antt("crates/*/must-fail/*.edit")
pages = ["README.md"] + antt("docs/*.md")

defined = set()
spoken = set()  # what specs/ defines
for path in all_antt:
    for line in read(path).splitlines():
        m = DEF.match(line)
        if m and not line.lstrip().startswith("--"):
            name = m.group(1)
            if path.endswith("/Proof.antt") and "-" in name:
                continue
            defined.add(name)
            if "/specs/" in path:
                spoken.add(name)

camel = {n: snake(n) for n in defined if re.match(r"[a-z][A-Za-z0-9]*[A-Z]", n.split("-")[0])}
camel = {n: s for n, s in camel.items() if s != n}
spoken_of = {camel.get(n, n) for n in spoken if "-" not in n}
taken = {camel.get(n, n) for n in defined if "-" not in n}
dashed = {}
for n in defined:
    s = camel.get(n, n)
    if not re.fullmatch(r"[A-Za-z0-9_'²³⁺₀-₉]+(-[A-Za-z0-9_'²³⁺₀-₉]+)+", s):
        continue
    parts = s.split("-")
    out = parts[0]
    for a, b in zip(parts, parts[1:]):
        joins = a in spoken_of and b in WORDS
        out += ("-" if joins else "_") + b
    if out != n and out in taken:
        out += "_lem"
    if out != n:
        dashed[n] = out
names = dict(camel)
names.update(dashed)
names.update(TAKEN)


def turn_tokens(text, table):
    return TOKEN.sub(lambda m: table.get(m.group(0), m.group(0)), text)


def split_comment(line, mark):
    if mark == "--":
        m = re.search(r"(?:^|\s)--(?:\s|$)", line)
        return (line[: m.start()], line[m.start():]) if m else (line, "")
    i = line.find("//")
    return (line[:i], line[i:]) if i >= 0 else (line, "")


def names_in(path):
    if path.endswith(".rt"):
        return {n: s for n, s in names.items() if n not in TAKEN}
    table = names | TAKEN_IN.get(path, {})
    if path.endswith("/Proof.antt"):  # there it is the step of the function `first_of`
        del table["first-of"], table["first_of"]
    return table


def turn_comment(text):
    text = re.sub(r"`([^`]*)`", lambda m: "`" + turn_tokens(m.group(1), names) + "`", text)
    return turn_tokens(text, camel | TAKEN)


def turn_file(path, text):
    mark = "//" if path.endswith(".rt") else "--"
    own_search = "striking.specs.Search.{" in text and re.search(r"striking\.specs\.Search\.\{[^}]*\bsearch\b", text) or path.endswith("striking/specs/Search.antt")
    out = []
    for line in text.split("\n"):
        code, comment = split_comment(line, mark)
        code = turn_tokens(code, names_in(path))
        if own_search:
            if mark == "//":
                if code.lstrip().startswith("ghost use Rattle.striking.specs.Search"):
                    code = re.sub(r"\bsearch\b", "search_result", code)
                code = re.sub(r"\(search \(plate", "(search_result (plate", code)
            else:
                code = re.sub(r"(?<![\w.'-])search(?![\w'-])(?! rules| \(rules)(?!\.)", "search_result", code)
        out.append(code + (turn_comment(comment) if comment else ""))
    return lined_up(text.split("\n"), out) if mark == "--" else "\n".join(out)


ENTRY = re.compile(r"^--   (\S.*?)(\s{2,})(\S.*)$")
MORE = re.compile(r"^--\s{6,}(\S.*)$")


def lined_up(before, after):
    """A file's head lists `name args  meaning`: the meanings stand in one column again."""
    out, i = [], 0
    while i < len(after):
        j = i
        while j < len(after) and after[j].startswith("--   "):
            j += 1
        block = after[i:j]
        if block and block != before[i:j]:
            width = max((len(m.group(1)) for m in map(ENTRY.match, block) if m and len(m.group(1)) <= 34), default=0)
            for line in block:
                m, n = ENTRY.match(line), MORE.match(line)
                if n and not (m and len(line) - len(m.group(3)) < 12 and not line.startswith("--      ")):
                    line = "--   " + " " * width + "  " + n.group(1)
                elif m:
                    line = "--   " + m.group(1).ljust(width) + "  " + m.group(3)
                out.append(line)
            i = j
        else:
            out.append(after[i])
            i += 1
    return "\n".join(out)


def turn_edit(path, text):
    target = re.search(r"^file: (.*)$", text, re.M).group(1)
    table = dict(names)
    out = []
    for line in text.split("\n"):
        if line.startswith(("old: ", "new: ")):
            head, body = line[:5], line[5:]
            body = TOKEN.sub(lambda m: table.get(m.group(0)) or (snake(m.group(0)) if re.match(r"[a-z][a-z0-9]*[A-Z]", m.group(0)) else m.group(0)), body)
            if target.endswith(".antt"):
                body = re.sub(r"(?<=\S) \.(?=[a-z])", ".", body.replace("′", "'"))
                body = re.sub(r"\((\w+\.\w+)\)", r"\1", body)
            line = head + body
        out.append(line)
    return "\n".join(out)


def turn_page(text):
    spoken_names = {n: s for n, s in names.items() if re.search("[A-Z-]", n)}

    def word(m):
        w = m.group(0)
        return spoken_names.get(w) or (snake(w) if re.match(r"[a-z][a-z0-9]*[A-Z]", w) else w)

    return re.sub(r"`([^`\n]*)`", lambda m: "`" + TOKEN.sub(word, m.group(1)) + "`", text)


def main():
    dry = "--dry" in sys.argv
    bad = 0
    by_target = collections.defaultdict(set)
    for n, s in names.items():
        by_target[s].add(n)
    for path in all_antt + sources:
        mark = "//" if path.endswith(".rt") else "--"
        tokens = set()
        for line in read(path).split("\n"):
            code, _ = split_comment(line, mark)
            tokens |= set(TOKEN.findall(code))
        table = names_in(path)
        own = path.endswith((".rt", "/Proof.antt"))  # a function and its definition may share a name
        for t in tokens:
            if t in table and table[t] in tokens and table[t] not in table and not own:
                print(f"{path}: {t} falls together with {table[t]}")
                bad += 1
        seen = collections.defaultdict(set)
        for t in tokens:
            if t in table:
                seen[table[t]].add(t)
        for s, ts in seen.items():
            if len(ts) > 1:
                print(f"{path}: {sorted(ts)} would both be {s}")
                bad += 1
    print(f"{len(names)} names, {bad} collisions")
    if dry or bad and "--force" not in sys.argv:
        return
    for path in all_antt + sources:
        text = read(path)
        new = turn_file(path, text)
        if new != text:
            open(path, "w", encoding="utf-8").write(new)
    for path in edits:
        text = read(path)
        new = turn_edit(path, text)
        if new != text:
            open(path, "w", encoding="utf-8").write(new)
    for path in pages:
        text = read(path)
        new = turn_page(text)
        if new != text:
            open(path, "w", encoding="utf-8").write(new)


main()
