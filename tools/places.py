#!/usr/bin/env python3
"""Counts the places of docs/DESIGN-PASS.md in crates/*/src: tools/places.py [FOLDER] [--list].

Each line of the count is a point of that page; --list prints the places themselves. It reads the source as text, so what it
finds is where to look: the page says what became of each place.
"""
import collections
import glob
import os
import re
import sys

here = next((a for a in sys.argv[1:] if not a.startswith('-')), '.')
listing = '--list' in sys.argv


def files():
    for path in sorted(glob.glob(os.path.join(here, 'crates/*/src/*.rt'))):
        yield os.path.relpath(path, os.path.join(here, 'crates')), open(path, encoding='utf-8').read()


def lines(pattern):
    found = []
    for name, text in files():
        for k, line in enumerate(text.split('\n'), 1):
            if re.search(pattern, line) and not line.lstrip().startswith('//'):
                found.append(f'{name}:{k}: {line.strip()}')
    return found


def functions():
    """crate/file, name, parameters, clauses, body of each function with a body"""
    head = re.compile(r'^( *)(?:pub(?:\(crate\))? )?(?:unsafe )?(?:extern "C" )?fn (\w+)', re.M)
    for name, text in files():
        for m in head.finditer(text):
            end = text.find('\n' + m.group(1) + '}\n', m.end())
            whole = text[m.start():end if end >= 0 else len(text)]
            mark = re.search(r'\n' + m.group(1) + r'\{\n', whole) or re.search(r' \{\n', whole)
            if not mark:
                continue
            top, body = whole[:mark.start()], whole[mark.end():]
            params = re.search(r'\((.*?)\)(?: ->|\n|$)', top, re.S)
            yield name, m.group(2), params.group(1) if params else '', top, body


def twins():
    """functions whose text is the same once types, numbers, strings and names that begin with a capital are left out"""
    groups = collections.defaultdict(list)
    for name, fn, params, top, body in functions():
        if body.count('\n') < 1:
            continue
        t = re.sub(r'//.*', '', params + '{' + body)
        t = re.sub(r'b?"[^"]*"', 'S', t)
        t = re.sub(r'\b(i8|i32|i64|u8|u32|u64|usize)\b', 'T', t)
        t = re.sub(r'\b\d[\d_]*(T|u8|u32|u64|usize)?\b', 'N', t)
        t = re.sub(r'\b[A-Z]\w*(::[A-Z]\w*)*', 'K', t)
        t = re.sub(r'\b' + fn + r'\b', 'F', t)
        t = re.sub(r'\s+', '', t)
        groups[t].append(f'{name}: {fn}')
    return [' = '.join(g) for g in groups.values() if len(g) > 1]


def travelling():
    """four or more parameters that stand in the same order in three or more functions"""
    seen = collections.defaultdict(set)
    for name, fn, params, top, body in functions():
        ps = [re.sub(r'\s+', ' ', p).strip() for p in params.split(',') if ':' in p]
        ps = [re.sub(r'&mut ', '&', p) for p in ps]
        for i in range(len(ps)):
            for j in range(i + 4, len(ps) + 1):
                seen[tuple(ps[i:j])].add(f'{name}: {fn}')
    big = {k: v for k, v in seen.items() if len(v) >= 3}
    keep = []
    for k, v in sorted(big.items(), key=lambda kv: -len(kv[0])):
        if not any(len(o) > len(k) and v <= w and any(o[i:i + len(k)] == k for i in range(len(o))) for o, w in keep):
            keep.append((k, v))
    return [', '.join(k) + f' ({len(v)} functions)' for k, v in keep]


def facts():
    """parts of a `requires` that stand in three or more functions"""
    seen = collections.defaultdict(set)
    for name, fn, params, top, body in functions():
        for clause in re.findall(r'requires(?: \w+)? \{ (.*?) \}\n', top + '\n', re.S):
            for part in re.split(r'×', clause):
                part = re.sub(r'^[\s(]+|[\s)]+$', '', part)
                if part:
                    seen[part].add(f'{name}: {fn}')
    return [f'{k} ({len(v)} functions)' for k, v in sorted(seen.items()) if len(v) >= 3]


points = [
    ('1 enums of the repository', lines(r'^\s*(pub )?enum ')),
    ('1 a flag or kind beside a value (struct fields)', lines(r'^\s*pub (how|clean|negative|normals|references|props): (How|bool)')),
    ('1 numbers for kinds or refusals (not in C structs)', lines(r'entry: u64|Refused\(usize\)|Refused\(\d+\)|entry == \d|\b(10|2) < entry')),
    ('2 groups of twin functions', twins()),
    ('3 while and loop', lines(r'^\s*(let .* = )?(\'\w+: )?(while |loop \{)')),
    ('4 equality by number', lines(r'\.number\(\) [!=]= ')),
    ('4 conversions by a function', lines(r'^\s*(pub )?fn (of_\w+|counts_of|vector_of|eligible_of|used_of|outcome_of|wide|one|word|byte|lesser|same_reference)\(')),
    ('4 printing by hand', lines(r'^\s*(pub )?fn (put_\w+|say_\w+|show_\w+)\(')),
    ('5 parameters that travel together', travelling()),
    ('5 facts in three or more contracts', facts()),
    ('6 a buffer with a length or place beside it', lines(r'(out: &mut \[u8\], used: usize|text: &\[u8\], at: usize|file: &\[u8\], at: usize|let mut \w+ = \[0\w+; \d+\])')),
    ('7 a switch on a number', lines(r'if (entry == \d+|\d+ < entry)')),
]
for title, found in points:
    print(f'{len(found):4d}  {title}')
    if listing:
        for place in found:
            print('        ' + place)
