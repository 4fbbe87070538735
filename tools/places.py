#!/usr/bin/env python3
"""Places in src/ that could be in an older form, by kind: `tools/places.py [KIND..] [--count]`, at the top.

It goes by text, so a place that it lists is one to look at. docs/DESIGN-PASS.md tells what was done with each.
"""
import re
import subprocess
import sys
from itertools import combinations
from pathlib import Path


def tracked(*patterns):
    return sorted(subprocess.check_output(["git", "ls-files", *patterns], text=True).split())


SOURCES = {f: Path(f).read_text() for f in tracked("crates/*/src/*.rt", "crates/*/src/**/*.rt") if Path(f).exists()}


def lines(pattern, but=None):
    for file, text in SOURCES.items():
        for n, line in enumerate(text.splitlines(), 1):
            if line.lstrip().startswith("//"):
                continue
            if re.search(pattern, line) and not (but and re.search(but, line)):
                yield f"{file}:{n}: {line.strip()}"


def items(word):
    """Each function or struct with its text, from its line to the brace that closes it."""
    for file, text in SOURCES.items():
        rows = text.splitlines()
        for n, row in enumerate(rows):
            found = re.match(r"(\s*)(?:pub(?:\(crate\))? |extern \"C\" )*" + word + r" (\w+)", row)
            if not found:
                continue
            end = n
            while end < len(rows) and rows[end].rstrip() != found[1] + "}":
                if rows[end].rstrip().endswith("};") or rows[end].rstrip().endswith(";") and "{" not in "".join(rows[n:end + 1]):
                    break
                end += 1
            yield f"{file}:{n + 1}", found[2], "\n".join(rows[n:end + 1])


def shape(text):
    text = re.sub(r"(requires|ensures|ghost)\b.*", "", text)
    text = re.sub(r"//.*", "", text)
    text = re.sub(r'"[^"]*"', "S", text)
    text = re.sub(r"\b\d[\d_]*\b", "N", text)
    text = re.sub(r"\b(?!fn|pub|let|mut|if|else|for|in|match|return|self|Self|struct|impl\b)[A-Za-z_]\w*", "I", text)
    return re.sub(r"\s+", "", text)


def twins():
    for word in ("fn", "struct"):
        found = [(place, name, shape(text)) for place, name, text in items(word)
                 if not place.startswith(("crates/checks", "crates/audits")) or "#[test]" not in text]
        for (p, a, s), (q, b, t) in combinations(found, 2):
            if s == t and len(s) > (40 if word == "fn" else 25):
                yield f"{p} ~ {q}: {word} {a} ~ {b}"


def clauses():
    """Facts that stand in the contracts of three functions or more, and parameters that two or more share."""
    said, shared = {}, {}
    for place, name, text in items("fn"):
        for fact in set(re.findall(r"^\s*(?:requires|ensures)\s*\w* \{ (.*) \}$", text, re.M)):
            for part in set(re.split(r" × | → ", fact)):
                part = re.sub(r"\b(self|contract)\.(now|old|new)", r"\1", part).strip("() ")
                part = re.sub(r"\bself\.", "", part)
                said.setdefault(part, []).append(name)
        head = text.split("{")[0]
        params = re.findall(r"(\w+): (&?(?:mut )?[A-Z]\w+|u32|u64|usize)\b", head)
        for a, b in combinations(sorted(set(params)), 2):
            shared.setdefault((a, b), []).append(f"{place} {name}")
    for fact, names in said.items():
        if len(names) >= 3 and len(fact) > 6:
            yield f"fact in {len(names)}: {fact}  ({', '.join(names)})"
    for (a, b), names in shared.items():
        if len(names) >= 3:
            yield f"parameters of {len(names)}: {a[0]}: {a[1]}, {b[0]}: {b[1]}  ({', '.join(n.split()[1] for n in names)})"


def alike():
    """Pairs of files of which six lines on end have one shape, imports and comments left out."""
    seen = {}
    for f in tracked("crates/*.rt", "crates/*.antt"):
        if not Path(f).exists():
            continue
        rows = [re.sub(r"\s+", " ", row.strip()) for row in Path(f).read_text().splitlines()]
        rows = [row for row in rows if len(row) > 2 and not re.match(r"//|--|(ghost )?(pub )?use |(pub )?mod |#", row)]
        rows = [re.sub(r"[A-Za-z_][\w«»'-]*", "I", re.sub(r'"[^"]*"|\b\d[\d_]*\b', "N", row)) for row in rows]
        for i in range(len(rows) - 5):
            seen.setdefault("\n".join(rows[i:i + 6]), set()).add(f)
    yield from sorted({f"{a} ~ {b}" for files in seen.values() if len(files) < 9 for a, b in combinations(sorted(files), 2)})


def proofs():
    answers = lemmas = size = 0
    for f in tracked("crates/*/proofs/*.antt", "crates/*/proofs/**/*.antt", "crates/*/specs/*.antt"):
        if not Path(f).exists():
            continue
        text = Path(f).read_text()
        size += len(text.splitlines())
        if f.endswith("Answers.antt"):
            answers += len(re.findall(r"^pub \S+ :", text, re.M))
        elif "/proofs/" in f and not f.endswith(("Lib.antt", "Invariants.antt")):
            lemmas += len(re.findall(r"^\s*(?:pub )?[\w₂-]+ : ", text, re.M))
    yield f"answers {answers}, lemmas {lemmas}, lines of specs/ and proofs/ {size}"


KINDS = {
    # 1: own enums like Option or Result, a flag with a value, numbers for kinds or refusals, cases handed on by hand
    "enums": lambda: lines(r"^(pub(\(crate\))? )?enum "),
    "codes": lambda: lines(r"number: u32|u32, u64\)|LETTER: |ghost mark|(None|_) => 0,|-> char"),
    "handed": lambda: lines(r"(Ok|Err|Some)\(\w*\) => |None => |return Err\(\w+ \{|return None", r"Reply|Verdict|write!"),
    # 2: functions and structs of one shape
    "twins": twins,
    # 3: loops
    "loops": lambda: lines(r"\bfor .* in .*\{$|\bwhile |\bloop \{", r"^impl"),
    "indices": lambda: lines(r"\w\[[^;\]]*(\b[a-z]\w*\b)[^;\]]*\]", r"^#|&mut \[|: &\[|\.\.\]|\[u|ghost|ensures|requires|!\("),
    "counters": lambda: lines(r"\+= 1;"),
    # 4: equality, order, copying, conversion, printing
    "impls": lambda: lines(r"^impl.* (\w+::)?(PartialEq|Eq|PartialOrd|Ord|Clone|Copy|From|TryFrom|Display|Error)\b.* for "),
    "fields": lambda: lines(r"let \w+ = self\.\w+;"),
    "casts": lambda: lines(r"\bas (u8|u32|u64|usize|i32)\b"),
    # 5: facts in three contracts or more, parameters that travel together, a struct apart from its methods
    "facts": clauses,
    "apart": lambda: (f for f in SOURCES if f.endswith("calls.rt")),
    # 6: arrays with a length beside them, arrays as maps
    "buffers": lambda: (row for row in lines(r"\[\w+; (\d|[A-Z])[\w_]*\]") if not row.startswith(("crates/checks", "crates/audits"))),
    # 7: step switches, tables of functions
    "steps": lambda: lines(r"\bdyn |: fn\(|Box<|\bimpl Fn|match (step|op|kind|mode)\b"),
    # another way: files that are alike in shape
    "alike": alike,
    # 8: proofs
    "proofs": proofs,
}


def main(words):
    count = "--count" in words
    for kind in [w for w in words if w in KINDS] or KINDS:
        found = list(KINDS[kind]())
        print(f"{kind}: {len(found)}")
        if not count:
            print("".join(f"    {row}\n" for row in found), end="")


main(sys.argv[1:])
