#!/usr/bin/env python3
"""Counts, in crates/*/src (and proofs for point 8), the places that docs/DESIGN-PASS.md speaks of.

    python3 tools/places.py            a line for each count
    python3 tools/places.py --list 3   the places of a point

Run in a checkout of any commit. A place is found by its words alone, so a count says how often a form stands there, not whether it should."""
import collections
import glob
import re
import sys

SOURCES = sorted(glob.glob('crates/*/src/**/*.rt', recursive=True))
PROOFS = sorted(glob.glob('crates/*/proofs/**/Answers.antt', recursive=True))
LIBRARY = [p for p in SOURCES if p.split('/')[1] not in ('checker', 'runner', 'case_answers')]


def lines(paths, pattern):
    """Lines that match, comments left out."""
    found = []
    for path in paths:
        for number, line in enumerate(open(path, encoding='utf-8'), 1):
            code = line.split('//')[0]
            if re.search(pattern, code):
                found.append(f'{path}:{number}: {code.strip()}')
    return found


def functions():
    """(path, line, name, parameters, clauses, body) of each function."""
    for path in SOURCES:
        text = open(path, encoding='utf-8').read()
        for m in re.finditer(r'^( *)(?:pub )?fn (\w+)', text, re.M):
            end = re.search(r'^' + m.group(1) + r'}$', text[m.start():], re.M)
            whole = text[m.start():m.start() + (end.end() if end else 0)]
            start = whole.find('(')
            depth = 0
            close = start
            for i in range(start, len(whole)):
                depth += {'(': 1, ')': -1}.get(whole[i], 0)
                if depth == 0:
                    close = i
                    break
            parameters = [p.strip() for p in re.split(r',(?![^<(\[]*[>)\]])', whole[start + 1:close]) if p.strip()]
            body = whole.find('\n' + m.group(1) + '{\n')
            yield path, text[:m.start()].count('\n') + 1, m.group(2), parameters, whole[close:body], whole[body:]


def twins():
    """Bodies of three lines or more that are the same but for names and numbers."""
    groups = collections.defaultdict(list)
    for path, line, name, parameters, _, body in functions():
        code = re.sub(r'//.*', '', body)
        if len([x for x in code.splitlines() if x.strip(' {}')]) < 3:
            continue
        names = {}

        def rename(m):
            word = m.group(0)
            if word in ('let', 'mut', 'if', 'else', 'while', 'loop', 'for', 'in', 'match', 'return', 'as', 'usize', 'u32', 'u8', 'bool'):
                return word
            return names.setdefault(word, f'v{len(names)}')
        skeleton = re.sub(r'\w+', rename, code)
        groups[re.sub(r'\s+', ' ', skeleton)].append(f'{path}:{line}: {name}')
    return [' ~ '.join(g) for g in groups.values() if len(g) > 1]


def shared_facts():
    """Facts that stand in a requires or ensures of three functions or more."""
    facts = collections.defaultdict(set)
    for path, line, name, _, clauses, _ in functions():
        for kind, fact in re.findall(r'\b(requires|ensures)\s*\w*\s*\{(.*?)\}\s*(?=requires|ensures|$)', clauses, re.S):
            for part in re.findall(r'\b([A-Z]\w+)\b', fact):
                facts[part].add(f'{path}: {name}')
    return [f'{fact}: {len(where)} functions' for fact, where in sorted(facts.items()) if len(where) >= 3]


def together():
    """Runs of four parameters of the same names and types in three functions or more, the longest runs only."""
    runs = collections.defaultdict(set)
    for path, line, name, parameters, _, _ in functions():
        for n in range(4, len(parameters) + 1):
            for i in range(len(parameters) - n + 1):
                runs[tuple(parameters[i:i + n])].add(f'{path}: {name}')
    often = {r: w for r, w in runs.items() if len(w) >= 3}
    longest = [r for r in often if not any(r != s and often[r] <= often[s] and ' '.join(r) in ' '.join(s) for s in often)]
    return [f'{", ".join(r)}: {len(often[r])} functions' for r in longest]


def many_parameters():
    return [f'{p}:{l}: {n} ({len(q)})' for p, l, n, q, _, _ in functions() if len(q) >= 8]


def taking(pattern):
    return [f'{p}:{l}: {n}' for p, l, n, q, _, _ in functions() if re.search(pattern, ', '.join(q))]


COUNTS = [
    (1, 'own enums', lambda: lines(SOURCES, r'^\s*(pub )?enum ')),
    (1, 'fields of a struct that are a flag or a number of a fault', lambda: lines(SOURCES, r'^\s+pub (\w+: bool|number: usize),')),
    (1, 'constants that number kinds', lambda: lines(SOURCES, r'^(pub )?const (NO_TOKEN|NAME|VARIABLE|NUMERAL|NECK|OPEN|CLOSE|COMMA|STOP|EQUALS|PLUS|MINUS|STAR|OVERLONG|END|SEMICOLON|BLANK|PERCENT|COLON|INPUT|OUTPUT|FREE|\w+_KIND): (usize|u8|u32)')),
    (2, 'groups of functions whose bodies differ in names and numbers only', twins),
    (3, 'loops that no for makes', lambda: lines(SOURCES, r'\b(while|loop)\b')),
    (4, 'functions that compare, copy, convert or print by hand', lambda: lines(SOURCES, r'\bfn (same_\w+|is_four|is_true|is_fail|is_mode|is_at|is_match|copy\w*|append\w*|put_\w+|print_\w+|fault_of|\w*numbers?|mark_number|both_ground)\b')),
    (5, 'facts in the contracts of three functions or more', shared_facts),
    (5, 'runs of four parameters or more in three functions or more', together),
    (5, 'functions of eight parameters or more', many_parameters),
    (6, 'functions that take a table of words', lambda: taking(r'\[u32\]')),
    (6, 'functions that take a lent buffer and a place in it', lambda: taking(r'out: &mut \[(u8|usize)\]')),
    (7, 'parameters that choose what a function does', lambda: taking(r'\b(kind|least|end|stored|wide|narrow|sheet_or_goal|bit): (usize|bool)')),
    (8, 'answers of one tactic and no lemma', lambda: lines(PROOFS, r'= (omega arith|search rules|lit< tt|grind arith|refl)$')),
]


def main():
    if len(sys.argv) > 2 and sys.argv[1] == '--list':
        for point, what, places in COUNTS:
            if point == int(sys.argv[2]):
                print(f'# {what}')
                print('\n'.join(places()))
        return
    for point, what, places in COUNTS:
        print(f'{point}  {len(places()):5}  {what}')


main()
