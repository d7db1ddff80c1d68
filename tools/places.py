#!/usr/bin/env python3
"""places.py [TREE]: the places in src/ that docs/DESIGN-PASS.md counts, point by point. A place is a line `point file:line what`."""
import collections, pathlib, re, sys

root = pathlib.Path(sys.argv[1] if len(sys.argv) > 1 else '.') / 'crates'
files = sorted(root.glob('*/src/*.rt'))
found = collections.defaultdict(list)

def place(point, f, n, what):
    found[point].append(f'{f.relative_to(root)}:{n} {what}')

def line_of(s, i):
    return s.count('\n', 0, i) + 1

functions = []  # file, line, name, comment above, parameters, clauses, body
for f in files:
    s = f.read_text()
    for m in re.finditer(r'((?:^[ ]*//[^\n]*\n)*)(?:^[ ]*#\[[^\n]*\n)*^[ ]*(?:pub )?(?:extern "C" )?fn (\w+)[^(]*\((.*?)\)(?: -> [^\n{]*?)?(?:[ ]\{$|\n((?:[ ]+(?:requires|ensures)\b.*?)?)^[ ]*\{$)(.*?)^[ ]*\}$', s, re.M | re.S):
        functions.append((f, line_of(s, m.start(2)), m.group(2), m.group(1), [' '.join(p.split()) for p in m.group(3).split(',') if p.strip()], m.group(4) or '', m.group(5)))
    # 1: an enum of two variants of which one has no field, or each has one
    for m in re.finditer(r'^(?:pub )?enum (\w+)[^{]*\{(.*?)^\}', s, re.M | re.S):
        variants = re.findall(r'^    (\w+)(\([^\n]*\)| \{.*?\})?,?', m.group(2), re.M | re.S)
        if len(variants) == 2 and sum(bool(p) for _, p in variants) >= 1:
            place('1 enum', f, line_of(s, m.start()), m.group(1))
        if len(variants) == 3 and [v for v, p in variants if v in ('Unsound', 'Nothing', 'None') and not p]:
            place('1 enum', f, line_of(s, m.start()), m.group(1))
    for m in re.finditer(r'^pub struct (\w+)[^{]*\{[^}]*: bool,[^}]*\}', s, re.M):
        place('1 flag beside a value', f, line_of(s, m.start()), m.group(1))
    for m in re.finditer(r'^[ ]*(?:while|loop)\b.*', s, re.M):
        place('3 loop', f, line_of(s, m.start()), m.group(0).strip())
    for m in re.finditer(r'.*% 256\) as u8.*', s):
        place('4 bytes of a number', f, line_of(s, m.start()), m.group(0).strip())
for f, n, name, comment, params, clauses, body in functions:
    if re.search(r'\bor 0\b|; 0 (?:where|of)|zeros, and|, or n\.|none is ready: the number', comment):
        place('1 number for none', f, n, name)
    if len(re.findall(r'^\s+(?:\d+|[\w:]+) => (?:\d+,|\w+ (?:==|<=) |n == |5 <= )', body, re.M)) > 2:
        place('1 numbers for kinds', f, n, name)
    if name in ('wide', 'wide32', 'lesser', 'same_totals', 'same_bytes', 'fill_zero', 'copy_in', 'copy_within', 'record', 'get2', 'get3', 'quad', 'big2', 'big4', 'absent', 'is_bad', 'one_if_live'):
        place("4 std's function by hand", f, n, name)
    if any(re.match(r'\w+: (?:&dyn|fn\(|impl Fn)', p) or p.endswith(': bool') and name not in () for p in params):
        place('7 switch or table of functions', f, n, name)
    if re.search(r'\b(?:s|room|arena|out): &(?:mut )?\[u8\], at: usize', ', '.join(params)):
        place('6 slice with a place beside', f, n, name)
# 2: a name that two crates define
names = collections.defaultdict(set)
for f, n, name, *_ in functions:
    names[name].add(f.relative_to(root).parts[0])
for name, crates in sorted(names.items()):
    if len(crates) > 1 and not name.startswith('slotpool'):
        found['2 name in several crates'].append(f'{name}: {" ".join(sorted(crates))}')
# 5: a fact that three functions or more state, and three parameters or more that three functions or more take together
facts, runs = collections.defaultdict(set), collections.defaultdict(set)
for f, n, name, comment, params, clauses, body in functions:
    for clause in re.findall(r'requires(?: \w+)? \{(.*?)\}(?=\s*(?:requires|ensures|$))', clauses, re.S):
        for fact in re.split(r' × ', ' '.join(clause.split())):
            facts[fact.strip(' ()')].add((f.parts[-3], name))
    typed = [p for p in params if ':' in p]
    for i in range(len(typed)):
        for j in range(i + 3, len(typed) + 1):
            runs[', '.join(typed[i:j])].add((f.parts[-3], name))
for fact, who in sorted(facts.items(), key=lambda x: -len(x[1])):
    if len(who) >= 3:
        found['5 fact in three contracts'].append(f'{len(who)} {fact}')
longest = [r for r in runs if len(runs[r]) >= 3 and not any(r in q and r != q and runs[q] == runs[r] for q in runs)]
for r in sorted(longest, key=lambda r: -len(runs[r])):
    found['5 parameters together'].append(f'{len(runs[r])} {r}')
for point in sorted(found):
    print(f'{point}: {len(found[point])}')
    for p in found[point]:
        print('   ', p)
