#!/usr/bin/env python3
"""Respells the definitions and lemmas of crates/ as the library spells its own: words in snake case.

usage: python3 tools/respell.py [FOLDER]

FOLDER is the top of a checkout (here, if none is given) that port.py has just turned. In .antt files, and in .rt files outside strings, where only clauses
have such words, and in an edit's lines for a file of specs/:

- `putWords` becomes `put_words`, and each part of a dashed name by itself: `length-putWords` becomes `length-put_words`.
- A dash stays where it joins two words that are defined, as in `length-put_words`; else it is an underscore: `none-next` becomes `none_next`.
  Only names that a file of specs/ or a lemma file of proofs/ declares are so turned, no name that Rattle makes and no answer to a goal.
- A lemma that then has the name of its word ends in `_lem`.

It stops, with nothing written, where two words of one file fall together.
"""
import collections
import glob
import os
import re
import sys

WORD = re.compile(r"[A-Za-z0-9_'δ⊎≤≡→ℕ-]+")
STRING = re.compile(r'b?"(?:\\.|[^"\\])*"|b?\'(?:\\.[^\']*|[^\'\\])\'', re.S)
CAMEL = re.compile(r"(?<=[a-z0-9])[A-Z]")
DECLARED = re.compile(r"\s*(?:abbrev |unfoldable |pub |data |record )*([^\s:(){}=,;.]+)\s+(?::\s|\([^=]*\) : |\{[^=]*\} : )")
DEFINED = re.compile(r"(?:abbrev |unfoldable |pub )+([^\s:(){}=,;.]+)\s+:\s")
TYPE = re.compile(r"(?:abbrev |unfoldable |pub )*(?:data|record) ([^\s:(){}=,;.]+)")
# The library's words that a lemma's name may join.
STD = "length get_or set take drop append map replicate slice_set slice_index nth min max add sub mul div mod pow eqb ltb leb bit_and bit_or sum".split()
# Words that port.py took for the library's own.
BACK = {"field_own": "own_at", "get_d_words": "get_or-words"}
# Lemmas that would have their word's name.
LEMMAS = {"each_below": "eachBelow", "in_source": "inSource", "read_answer": "readAnswer", "scratch_after": "scratchAfter"}


def snake(w):
    if w == "getD":
        return "get_or"
    return CAMEL.sub(lambda m: "_" + m.group().lower(), w) if re.match(r"[a-z]", w) else w


def files(root, *kinds):
    for path in sorted(glob.glob(os.path.join(root, "crates", "**", "*"), recursive=True)):
        if os.path.splitext(path)[1] in kinds and "/out/" not in path:
            with open(path, encoding="utf-8") as f:
                yield path, f.read()


def of_function(path):
    return os.path.basename(path) in ("Proof.antt", "Answers.antt", "Invariants.antt") and "/proofs/" in path


def dashes(root):
    """The dashed names that are declared, each with its new form."""
    declared, defined, answers, plain, near = set(), set(STD), set(), set(), {}
    for path, text in files(root, ".antt"):
        words = {snake(w) for w in WORD.findall(re.sub(r"--.*", "", text)) if "-" not in w}
        for m in re.finditer(r"^(?:pub )?use (?!Rattle\.)[^{]*\{([^}]*)\}", text, re.M):
            plain |= {w.strip() for w in m.group(1).split(",")}
        for line in text.split("\n"):
            d = DECLARED.match(line)
            if d:
                near.setdefault(d.group(1), set()).update(words)
                (answers if of_function(path) else declared).add(d.group(1))
                plain.add(snake(d.group(1)) if "-" not in d.group(1) else "")
            w = DEFINED.match(line) or TYPE.match(line)
            if w and not of_function(path) and line.startswith(("abbrev", "unfoldable", "pub data", "pub record", "data", "record")):
                defined.add(snake(w.group(1)))
    turned = {}
    for w in declared - answers:
        if "-" not in w.strip("-") or not re.match(r"[A-Za-z0-9δ]", w):
            continue
        parts = [snake(p) for p in w.split("-")]
        new = parts[0]
        for left, right in zip(parts, parts[1:]):
            new += ("-" if {left, right} <= defined & near[w] else "_") + right
        turned[w] = new + "_lem" if new in plain else new
    return turned


def turn(text, turned):
    words = set(WORD.findall(text))

    def word(m):
        w = m.group()
        if w in BACK:
            return BACK[w]
        if w in LEMMAS and LEMMAS[w] in words:
            return w + "_lem"
        return turned[w] if w in turned else "-".join(snake(p) for p in w.split("-"))

    return WORD.sub(word, text), word


def outside_strings(text, turned):
    kept = []

    def keep(m):
        kept.append(m.group())
        return "\0%d\0" % (len(kept) - 1)

    new, word = turn(STRING.sub(keep, text), turned)
    return re.sub(r"\0(\d+)\0", lambda m: kept[int(m.group(1))], new), word


def of_edit(text, turned):
    lines, specs = text.split("\n"), False
    for i, line in enumerate(lines):
        if line.startswith("file:"):
            specs = line[5:].strip().startswith("specs/")
        elif specs and line.startswith(("old:", "new:")):
            lines[i] = line[:4] + turn(line[4:], turned)[0]
    return "\n".join(lines), None


def together(text, word):
    """Which words of the file become one, but for a record's field and a word that no file needs to tell apart."""
    seen = collections.defaultdict(set)
    for w in set(WORD.findall(text)):
        seen[word(re.fullmatch(r".*", w, re.S))].add(w)
    return [sorted(ws) for ws in seen.values() if len(ws) > 1 and ws != {"noNul", "no_nul"}]


def main():
    root = sys.argv[1] if len(sys.argv) > 1 else "."
    turned = dashes(root)
    changed, fell = [], []
    for path, old in files(root, ".antt", ".rt", ".edit"):
        how = {".antt": turn, ".rt": outside_strings, ".edit": of_edit}[os.path.splitext(path)[1]]
        new, word = how(old, turned)
        if new == old:
            continue
        changed.append((path, new))
        if path.endswith(".antt") and not of_function(path):
            text = "\n".join(re.sub(r"--.*", "", re.sub(r"(use )[^{]*", r"\1", line)) for line in old.split("\n"))
            fell += ["%s: %s" % (path, " ".join(ws)) for ws in together(text, word)]
    if fell:
        print("\n".join("falls together: " + line for line in fell))
        return 1
    for path, new in changed:
        with open(path, "w", encoding="utf-8") as f:
            f.write(new)
    print("respelled: %d files, %d dashed names" % (len(changed), len(turned)))
    return 0


sys.exit(main())
