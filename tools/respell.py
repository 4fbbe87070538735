#!/usr/bin/env python3
"""respell.py: brings this repository's own definitions, lemmas and fields to today's spelling.

Run once, at the top, after the kit's port.py: types and facts in upper camel case, everything else in snake case.
A dash stays only where it joins the names of two functions, as in `memory-layered`. Functions of src/, strings,
inputs and outputs are left alone, and so are the names that Rattle makes for goals, unless one is spelled as a lemma here (as
`new-ring` in a path: put that right by hand). It stops, and writes nothing,
where two names would fall together in one file."""
import collections
import os
import re
import sys

NAMES = """
admitted-cap admitted-lowest greatest-more newest-more sum-take-more text-fault contract-fault refuse-if unless-refused
grant-refusal cap-least cap-most memory-least memory-most need-most recall-length recall-most first-failing layer-name
code-text list-fault Grant-fault
right-at best-some best-no-more next-some next-no-more none-no-more curve-is refused-not refused-else remembers-granted
same-cap same-needs call-keeps reached-stays remembers-new reached-new first-enough caps-go-on some-need greatest-le
greatest-ge owed-at lowest-le greatest-cap lowest-enough stands-granted take-caps stands-new Holds-curve kept-curve
need-curve curve-kept steps-each steps-windows steps-lawful lawful-steps steps-past curves-same steps-same sum-cons
sum-total energy-split energy-past kept-window kept-drop energy-step cap-enough kept-way needs-most switch-new needs-of
some-way turned-down-if granted-if history-lawful cap-granted Dispatch-promise then-call hand-switch hand-floor
hand-table switch-needs switch-5 switch-6 floor-need-2 floor-need-4 floor-5 table-2 table-3 lowest-new lowest-40
refused-59 granted-60 lowest-60 at-first
ended-length ended-last ended-text asks-some asks-ended asks-text tens-more tens-small Granted-line Refused-line
reply-text Asks-for
fails-here fails-later fails-nowhere each-passes taken-sizes taken-needs turn-far turn-push sizes-kept most-kept
needs-by switch-need new-switch switch-refusal Switch-fault new-table too-great needs-refusal place-zero place-past
place-front place-all length-needs-by need-by need-by-past need-by-most take-under under-push under-full recall-push
by-ring limits-ring granted-ring begun-ring new-ring switch-meaning table-meaning
floor-most extra-most greatest-mono memory-layered need-within need-layered need-past limits-layered new-layered
lowest-layered admitted-below granted-layered grant-layered floor-need extra-need any-under recalled-refusal
floor-refusal Floor-fault extra-refusal under-here under-later under-nowhere all-at-top
plan-refusal audit-refusal margin-or-0 Least-margin ahead-front levels-push levels-count levels-more energy-more
write-more front-is others-are forecast-taken forecast-refused list-is others-kept best-more best-whole curves-written
curve-most curve-limit shorter-at shortest-at shorter-length written-more levels-steps contract-promise stays-behind
delivers-least bound-more attained-more margin-read tightest-more kept-lawful only-too-long owed-signed lt-le
lt-le-trans le-both min-left min-right min-attained place-next need-limit read-limit low-set Holds-needs holds-lawful
lawful-holds newest-set newest-granted recent-slid ending-slid greatest-same lowest-read copies-ahead greatest-next
not-later not-longer one-tightest one-verdict needs-read curve-refusal Curve-list In-range forecast-levels
forecast-energy forecast-refusal list-after Tightest-here energy-is not-refused Contract-promise tightest-text
verdict-text owed-by margin-at end-least end-most length-least Not-negative by-curve verdict-refusal hand-record
none-lower higher-before higher-shorter hand-judged hand-verdict forecast-40 energy-40 record-judged
granted-on same-on levels-lawful Judges-record Judged-reply Kept-reply Kept-by terms-refusal lawful-now level-then history-steps
""".split()

# lemmas named by the left side of their equation, the outer call first
JOINED = {
    "memory-layered": "memory-layered",
    "need-layered": "need-layered",
    "lowest-layered": "lowest-layered",
    "granted-layered": "granted-layered",
    "length-needs-by": "length-needs_by",
    "newest-granted": "newest-granted",
    "newest-set": "newest-set",
    "sum-cons": "sum-cons",
}


def respelled(name):
    if name in JOINED:
        return JOINED[name]
    parts = name.split("-")
    if name[0].isupper():
        return "".join(p[:1].upper() + p[1:] for p in parts)
    return "_".join(parts)


NEW = {n: respelled(n) for n in NAMES}
WORD = r"[^\s(){}\[\];,.«»\"|λ]+"
STRING = re.compile(r'("(?:\\.|[^"\\])*")')
TOKEN = re.compile(WORD)


def turned(text):
    parts = STRING.split(text)
    for i in range(0, len(parts), 2):
        parts[i] = TOKEN.sub(lambda m: NEW.get(m[0], m[0]), parts[i])
    return "".join(parts)


def main():
    todo, bad = [], 0
    for folder, dirs, files in os.walk("crates"):
        dirs[:] = sorted(d for d in dirs if d != "out")
        for name in sorted(files):
            if not name.endswith((".rt", ".antt")):
                continue
            path = os.path.join(folder, name)
            with open(path, encoding="utf-8") as f:
                text = f.read()
            words = set(TOKEN.findall("".join(STRING.split(text)[::2])))
            for old in words & NEW.keys():
                if NEW[old] != old and NEW[old] in words:
                    bad += 1
                    print(f"{path}: {old} and {NEW[old]} would fall together")
            new = turned(text)
            if new != text:
                todo.append((path, new))
    if len(set(NEW.values())) != len(NEW):
        bad += 1
        twice = [n for n, k in collections.Counter(NEW.values()).items() if k > 1]
        print(f"two names become one: {twice}")
    if bad:
        sys.exit(1)
    for path, new in todo:
        with open(path, "w", encoding="utf-8") as f:
            f.write(new)
    print(f"respell: {len(todo)} files")


main()
