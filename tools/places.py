#!/usr/bin/env python3
"""Prints the places in crates/*/src that may have an older form, point by point, for docs/DESIGN-PASS.md.

usage: tools/places.py [FOLDER]     the folder of a checkout, this one if none is named; only the counts with --counts
"""
import re, sys, glob, os, collections

args = [a for a in sys.argv[1:] if not a.startswith('--')]
counts_only = '--counts' in sys.argv
root = args[0] if args else os.path.join(os.path.dirname(__file__), '..')
files = sorted(glob.glob(os.path.join(root, 'crates/*/src/**/*.rt'), recursive=True))
texts = {os.path.relpath(f, root): open(f).read() for f in files}


def code(text):
    """Lines with no comment, ghost line, clause or test table."""
    for n, line in enumerate(text.split('\n'), 1):
        bare = line.split('//')[0]
        if re.match(r'\s*(ghost |requires |ensures )', bare):
            continue
        yield n, bare


def grep(pattern, keep=lambda f: True):
    return [(f, n, line.strip()) for f, t in texts.items() if keep(f) for n, line in code(t) if re.search(pattern, line)]


def fields(pattern):
    """the fields of structs that fit"""
    found = []
    for f, t in texts.items():
        inside = False
        for n, line in code(t):
            if re.match(r'(pub )?struct \w+.*\{', line):
                inside = True
            elif line.startswith('}'):
                inside = False
            elif inside and re.search(pattern, line):
                found.append((f, n, line.strip()))
    return found


def functions():
    """file, name, parameters, clauses of each function, from its head up to its body"""
    for f, t in texts.items():
        for m in re.finditer(r'\bfn (\w+)(?:<[^(]*>)?\(', t):
            end = t.find('\n{', m.start()), t.find('\n    {', m.start()), t.find(' {\n', m.start()), t.find(';', m.start())
            end = min(e for e in end if e > 0)
            head = t[m.start():end]
            depth, i = 0, head.index('(')
            for j in range(i, len(head)):
                depth += {'(': 1, ')': -1}.get(head[j], 0)
                if depth == 0:
                    break
            params = [p.strip() for p in re.split(r',(?![^<(\[]*[>)\]])', head[i + 1:j]) if ':' in p]
            clauses = re.findall(r'(?:ensures|requires)\*?(?: \w+)? \{ (.*?) \}\s*(?=\n|$)', head[j:], re.S)
            yield f, m.group(1), params, clauses


points = collections.OrderedDict()
points['1 flags, numbers and letters for kinds'] = \
    fields(r': (bool|char),|number: u8,') + grep(r'-> u8 \{?$|-> u8$') + grep(r'fn \w+\(&mut self.*-> bool')
named = collections.defaultdict(list)
for f, name, params, clauses in functions():
    named[name].append(f)
trait_names = {'next', 'fmt', 'from', 'try_from', 'row', 'row_count', 'main', 'new', 'of', 'eq', 'default'}
points['2 functions of one name'] = [(', '.join(fs), 0, name) for name, fs in sorted(named.items()) if len(fs) > 1]
points['3 loops that count or step by hand'] = \
    grep(r'\bwhile\b|\bloop\b|[+-]= 1\b|\bfor \w+ in [\w.()+ ]+\.\.|saturating_add\(1\)')
points['4 equality, order, conversion and printing by hand'] = [
    (f, 0, name) for f, name, p, c in functions()
    if re.match(r'same_|is_(word|dashed|digit$|letter|other|mark$|required|allowed|markable|line_break|tag$)|from_byte|byte$|refusal$|number$|spot$|status_of|answer_of|lower_of|describe|at_place|kind_letter|need_letter|class_name|extent_|tag_of$|has_tag|line$|lines_in', name)
    or (name == 'of' and any('word' in x for x in p))]
facts = collections.defaultdict(set)
for f, name, params, clauses in functions():
    for c in clauses:
        c = re.sub(r'\s+', ' ', c)
        c = re.sub(r'(\+\+ ).*', r'\1..', c)
        for part in re.findall(r'\([^()]*\([^()]*\)[^()]*\)|\([^()]{12,}\)|^[^(]{20,}$|OnOk result \(out\.new\.items ≡ out\.old\.items \+\+ \.\.', c):
            facts[part.strip()].add((f, name))
points['5 facts in the contracts of three or more functions'] = [(', '.join(sorted(n for _, n in fs)), len(fs), fact) for fact, fs in sorted(facts.items()) if len(fs) >= 3]
pairs = collections.defaultdict(set)
for f, name, params, clauses in functions():
    ps = sorted(set(re.sub(r"'\w+ ?|mut ", '', p).strip() for p in params))
    for i in range(len(ps)):
        for j in range(i + 1, len(ps)):
            pairs[ps[i] + ', ' + ps[j]].add((f, name))
points['5 parameters that three or more functions take together'] = [(', '.join(sorted(n for _, n in fs)), len(fs), pair) for pair, fs in sorted(pairs.items()) if len(fs) >= 3]
points['6 arrays, spans and indices in structs and statics'] = \
    fields(r': \[\w+; \w+\],|&\S* ?\[\w+\],|(count|length|at|under): usize,') + grep(r'^static |^(pub )?struct Span|ArrayVec')
points['7 switches on which step to run'] = grep(r'match (format|detail|which|row\.kind|row\.need|self\.format)\b') + grep(r'Box<dyn|fn\(\w')
points['8 proof files'] = [(os.path.relpath(f, root), 0, '') for f in sorted(glob.glob(os.path.join(root, 'crates/*/proofs/**/*.antt'), recursive=True))]

for point, places in points.items():
    print(f'{len(places):4d}  {point}')
    if not counts_only:
        for f, n, what in places:
            print(f'        {f}{":" + str(n) if n else ""}  {what}')
