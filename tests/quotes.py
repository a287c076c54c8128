"""Holds what comments quote to docs/RULES.md and docs/REQUESTS.md: each quotation of three words or more in a comment under crates/*/{src,specs,proofs}
and in a must-fail edit stands in one of the two, or is one of those below.

    python3 tests/quotes.py        prints those that do not; its last line is `N quotations, 0 lost`
"""

import glob
import os
import re
import sys

TOP = os.path.dirname(os.path.dirname(os.path.abspath(__file__)))

# what the lecture says, and a wording that quotes nobody
OTHERS = [
    "The first and second lines overlap",
    "However, the answer is the same in either case",
    "refines the information in τ by noting that all variables in s can also be assumed ground",
    "σ preserves all g/x in τ",
    "the bindings so far",
]


def plain(text):
    """The words alone: no marks of emphasis or of code, single blanks, small letters."""
    return re.sub(r"\s+", " ", re.sub(r"[`*]", "", text)).strip(" .,;:").lower()


def comments(path):
    """The comments of a file, lines that follow each other joined."""
    block = []
    with open(path, encoding="utf-8") as f:
        for line in f:
            comment = re.match(r"\s*(?:--|//|#(?!\[)) ?(.*)", line)
            if comment:
                block.append(comment[1])
            elif block:
                yield " ".join(block)
                block = []
    if block:
        yield " ".join(block)


def main():
    said = ""
    for name in ("RULES", "REQUESTS"):
        with open(os.path.join(TOP, "docs", name + ".md"), encoding="utf-8") as f:
            said += plain(f.read()) + " "
    known = said + " ".join(plain(other) for other in OTHERS)
    found, lost = 0, 0
    for kind in ("src/**/*.rt", "specs/*.antt", "proofs/**/*.antt", "must-fail/*.edit"):
        for path in sorted(glob.glob(os.path.join(TOP, "crates", "*", kind), recursive=True)):
            for comment in comments(path):
                for quotation in comment.split('"')[1::2]:
                    if len(quotation.split()) < 3:
                        continue
                    found += 1
                    missing = [part for part in quotation.split("…") if plain(part) not in known]
                    if missing:
                        lost += 1
                        print(os.path.relpath(path, TOP), "|", quotation)
    print(f"{found} quotations, {lost} lost")
    return 1 if lost else 0


if __name__ == "__main__":
    sys.exit(main())
