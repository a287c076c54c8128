"""Holds docs/CLAIMS.md to the contracts: each theorem that it names is an `ensures` of crates/claims, and each function of that crate is named there; each
public function of the door is named with two edits at least, each of which stands in its crate and changes code, and each edit named anywhere is there.

    python3 tests/claims.py        prints each theorem with its function, clause and file, then what is missing; its last line is `N theorems, 0 missing`
"""

import glob
import os
import re
import sys

TOP = os.path.dirname(os.path.dirname(os.path.abspath(__file__)))
missing = []


def read(path):
    with open(os.path.join(TOP, path), encoding="utf-8") as f:
        return f.read()


def functions(path):
    """The public functions of a source file, each with the names of its clauses; a clause without a name is `returns`."""
    text = re.sub(r"//.*", "", read(path))
    found = {}
    for start in re.finditer(r'\bpub (?:extern "C" )?fn (\w+)', text):
        head = re.compile(r".*?(?:\n\s*\{\}?\n|\)(?: -> [^\n{]*)? \{\n)", re.S).match(text, start.start())[0]
        found[start[1]] = re.findall(r"\bensures (\w+) \{", head) or (["returns"] if "ensures" in head else [])
    return found


def theorems():
    """(function, clause, theorem, file) of each clause of `claims`."""
    for name, clauses in functions("crates/claims/src/lib.rt").items():
        answers = read(f"crates/claims/proofs/{name}/Answers.antt")
        files = {}
        for module, names in re.findall(r"^use Rattle\.(\S+)\.\{(.*)\}$", answers, re.M):
            files.update({n.split(" as ")[-1]: (module, n.split(" as ")[0]) for n in names.split(", ")})
        for clause in clauses:
            goal = "returns" if clause == "returns" else f"returns-clause-{clause}"
            said = re.search(rf"^{goal} c = (.*)$", answers, re.M)
            cited = [n for n in files if said and re.search(rf"(?<![\w-]){re.escape(n)}(?![\w-])", said[1])]
            if len(cited) != 1:
                missing.append(f"claims::{name}, clause {clause}: no one theorem answers it")
                continue
            module, theorem = files[cited[0]]
            crate, folder, *rest = module.split(".")
            path = f"crates/{crate}/{folder}/{'/'.join(rest)}.antt"
            if not re.search(rf"^ *pub {re.escape(theorem)} :", read(path), re.M):
                missing.append(f"{path}: no {theorem}")
            yield name, clause, theorem, path


def main():
    page = read("docs/CLAIMS.md")
    named = set(re.findall(r"`claims::(\w+)`", page))
    count = 0
    told = {}
    for name, clause, theorem, path in theorems():
        print(f"claims::{name} {clause}: {theorem}, {path}")
        told.setdefault(name, []).append(clause)
        count += 1
    missing.extend(f"CLAIMS names claims::{n}, which is not there" for n in sorted(named - set(told)))
    missing.extend(f"CLAIMS does not name claims::{n}" for n in sorted(set(told) - named))
    for name, clauses in re.findall(r"`claims::(\w+)`(?: \(([^)]*)\))?", page):
        for clause in re.findall(r"`(\w+)`", clauses):
            if clause not in told.get(name, []):
                missing.append(f"CLAIMS names clause {clause} of claims::{name}, which is not there")

    edits = {}
    for path in glob.glob(os.path.join(TOP, "crates", "*", "must-fail", "*.edit")):
        text = read(path)
        edits[os.path.basename(os.path.dirname(os.path.dirname(path))), os.path.basename(path)[:-5]] = "file: src/" in text
    door = [("pilvaust", "lib"), ("pilvaust", "entries"), ("pilvaust", "lent_lists"), ("exports", "lib"), ("lex", "reader"), ("output", "printing"), ("input", "lib")]
    rows = dict(re.findall(r"^\| `([\w:]+)` \|.*\| ([^|]*) \|$", page, re.M))
    for crate, module in door:
        for name in functions(f"crates/{crate}/src/{module}.rt"):
            full = f"{crate}::{name}" if module == "lib" else f"{crate}::{module}::{name}"
            if full not in rows:
                missing.append(f"CLAIMS has no row of {full}")
                continue
            own = [n for n in re.findall(r"`(\w+)`", rows[full]) if edits.get((crate, n))]
            if len(own) < 2:
                missing.append(f"{full}: fewer than two edits of code in its crate: {own}")
    for full, said in rows.items():
        for n in re.findall(r"`(\w+)`", said):
            if (full.split("::")[0], n) not in edits:
                missing.append(f"{full}: no edit {n}")
    for m in missing:
        print(m)
    print(f"{count} theorems, {len(missing)} missing")
    return 1 if missing else 0


if __name__ == "__main__":
    sys.exit(main())
