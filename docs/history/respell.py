#!/usr/bin/env python3
"""Brings this repository's own definitions and lemmas to the spelling of the kit's guide to style:
facts and types in upper camel case, everything else in snake case; a dash joins the names of a lemma.

usage: python3 tools/respell.py [--dry]        at the top, once, right after the kit's port.py

It reads what crates/*/specs and crates/*/proofs declare, and turns the words of .antt files, of clauses, comments and
`ghost use` lines of .rt files, of must-fail edits, of README.md and of docs/*.md. Strings keep their words. It prints the names
that fall together and turns nothing where one is left.
"""
import os
import re
import sys

from respell_names import BY_HAND, IN_CRATE, LABELS

ROOT = os.getcwd()
CRATES = os.path.join(ROOT, "crates")
WORD = re.compile(r"[A-Za-z_◌][\w'₀-₉◌-]*")
HEAD = re.compile(r"^(\s*)((?:(?:abbrev|unfoldable|pub|data|record)\s+)*)([^\s(){}:;,.]+(?:\s+[^\s(){}:;,.]+)*?)((?:\s+[({].*)?)\s*:(?=\s|$)(.*)$")



def files():
    for d, ds, fs in os.walk(CRATES):
        ds[:] = sorted(x for x in ds if x != "out")
        for f in sorted(fs):
            if f.endswith((".antt", ".rt", ".edit")):
                yield os.path.join(d, f)


def is_type(sig):
    """Whether a signature's result is a type."""
    s = re.sub(r"\bwhere\b.*$", "", sig).strip()
    return bool(re.search(r"(^|→\s*)Type( \d+)?$", s))


def declared():
    """name -> [is a type, stands in specs, is a field or constructor]"""
    out = {}
    for p in files():
        if not p.endswith(".antt") or ("/proofs/" in p and os.path.basename(p) in ("Proof.antt", "Invariants.antt", "Answers.antt")):
            continue
        spec = "/specs/" in p
        lines = open(p, encoding="utf-8").read().split("\n")
        block = None
        for i, l in enumerate(lines):
            if l.strip().startswith("--"):
                continue
            if l.strip() and not l[0].isspace():
                block = None
            m = HEAD.match(l)
            if not m:
                continue
            sig = m.group(5)
            k = i + 1
            while k < len(lines) and lines[k].startswith(m.group(1) + "    ") and not sig.strip().endswith("where") and (sig.strip() == "" or sig.rstrip().endswith("→") or lines[k].lstrip().startswith("→")):
                sig += " " + lines[k].strip()
                k += 1
            words = m.group(2).split()
            inner = block is not None and block[0] < len(m.group(1))
            for n in m.group(3).split():
                if n in ("let", "in", "where", "mutual", "use", "open", "λ"):
                    break
                t, s, f = out.get(n, (False, False, False))
                out[n] = (t or (is_type(sig) and not inner and len(m.group(1)) <= 6) or "data" in words or "record" in words, s or spec, f or inner)
            if "data" in words or "record" in words:
                block = (len(m.group(1)),)
    return out


def snake(part):
    part = re.sub(r"([a-z0-9])([A-Z])", r"\1_\2", part)
    return part.lower() if re.search(r"[a-z]", part) else part


def upper(n):
    return "".join(x[:1].upper() + x[1:] for x in re.split(r"[-_]", n) if x)


def table(decl):
    types = {n for n, (t, s, f) in decl.items() if t}
    new = {}
    for n in types:
        if "◌" in n:
            continue
        new[n] = upper(n)
    for n, (t, s, f) in decl.items():
        if t or "◌" in n or n in types:
            continue
        parts = []
        for q in n.split("-"):
            if q in types:
                parts.append(new[q])
            elif re.match(r"[A-Z]", q):
                parts.append(q)
            else:
                parts.append(snake(q))
        joined = ("_" if (s or f) and not any(re.match(r"[A-Z]", q) for q in parts) else "-").join(parts)
        new[n] = joined
    new.update(BY_HAND)
    return {a: b for a, b in new.items() if a != b}


def turn(text, new, locals_too):
    def word(m):
        w = m.group(0)
        tail = ""
        while w and w not in new and re.search(r"['₀-₉-]$", w):
            tail = w[-1] + tail
            w = w[:-1]
        if w in new:
            return new[w] + tail
        if locals_too and re.search(r"[a-z0-9][A-Z]", w) and not re.match(r"[A-Z◌]", w):
            return "-".join(q if re.match(r"[A-Z]", q) else snake(q) for q in w.split("-")) + tail
        return m.group(0)

    # strings keep their words; a " in a comment opens none
    out = []
    for line in text.split("\n"):
        parts = re.split(r'("(?:[^"\\]|\\.)*")', line) if not line.lstrip().startswith("--") else [line]
        out.append("".join(q if k % 2 else WORD.sub(word, q) for k, q in enumerate(parts)))
    return "\n".join(out)


def turn_rt(text, new):
    """Clauses, ghost items and comments of a .rt file; strings keep their words. Code has no word of the table but in clauses."""
    out, i = [], 0
    for m in re.finditer(r'b?"(?:[^"\\]|\\.)*"|b?\'(?:[^\'\\]|\\.)\'', text):
        line = text.rfind("\n", 0, m.start()) + 1
        if "//" in text[line:m.start()] or re.search(r"\b(requires|ensures|ghost)\b", text[line:m.start()]):
            continue
        out.append(turn(text[i : m.start()], new, False))
        out.append(m.group(0))
        i = m.end()
    out.append(turn(text[i:], new, False))
    return "".join(out)


def main(argv):
    dry = "--dry" in argv
    decl = declared()
    new = table(decl)
    texts = {p: open(p, encoding="utf-8").read() for p in files()}
    for c, names in IN_CRATE.items():
        for p in texts:
            if p.startswith(os.path.join(CRATES, c, "")):
                texts[p] = WORD.sub(lambda m: names.get(m.group(0), m.group(0)), texts[p])
    seen = set()
    for t in texts.values():
        seen.update(WORD.findall(t))
    # a definition may have the name of a function of src/, as the kit's guides show
    for p, t in texts.items():
        if p.endswith(".rt"):
            seen.difference_update(re.findall(r"\bfn (\w+)", t))
    seen -= LABELS
    back, bad = {}, []
    for a, b in sorted(new.items()):
        if b in back:
            bad.append((a, b, "and " + back[b]))
        back.setdefault(b, a)
        if b in seen and b not in new:
            bad.append((a, b, "stands already" + (" (declared)" if b in decl else "")))
    for a, b, why in bad:
        print("falls together:", a, "->", b, why)
    print(f"{len(decl)} names, {len(new)} turned, {len(bad)} fall together")
    if dry or bad:
        for a, b in sorted(new.items()):
            if "-v" in argv:
                print("turn:", a, b)
        return 1 if bad else 0
    for p, t in texts.items():
        u = turn_rt(t, new) if p.endswith(".rt") else turn(t, new, p.endswith(".antt"))
        if u != open(p, encoding="utf-8").read():
            open(p, "w", encoding="utf-8").write(u)
    for p in [os.path.join(ROOT, "README.md")] + [os.path.join(ROOT, "docs", f) for f in sorted(os.listdir(os.path.join(ROOT, "docs"))) if f.endswith(".md")]:
        t = open(p, encoding="utf-8").read()
        u = re.sub(r"`[^`\n]*`", lambda m: turn(m.group(0), new, False), t)
        if u != t:
            open(p, "w", encoding="utf-8").write(u)
    return 0


if __name__ == "__main__":
    raise SystemExit(main(sys.argv[1:]))
