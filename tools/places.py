#!/usr/bin/env python3
"""Places of the design pass: what reads like an older Rattle in src/, point by point.

python3 tools/places.py [ROOT]        how many of each
python3 tools/places.py -v [ROOT]     each of them

It goes by text. A place that stays has its reason beside it in the code and in docs/DESIGN-PASS.md.
"""
import collections
import glob
import re
import sys

verbose = '-v' in sys.argv
roots = [a for a in sys.argv[1:] if a != '-v']
root = roots[0] if roots else '.'


def sources():
    for path in sorted(glob.glob(root + '/crates/*/src/**/*.rt', recursive=True)):
        yield path.split('/crates/')[1], open(path).read()


def lines(pattern, but=None, code=True):
    for path, text in sources():
        for n, line in enumerate(text.split('\n'), 1):
            if code and line.strip().startswith('//'):
                continue
            if re.search(pattern, line) and not (but and re.search(but, line)):
                yield f'{path}:{n}: {line.strip()}'


def functions():
    """(path, name, parameters, body) of each function."""
    for path, text in sources():
        for m in re.finditer(r'\n( *)(?:pub(?:\([a-z]+\))? )?(?:extern "C" )?fn (\w+)', text):
            indent = m.group(1)
            end = text.find('\n' + indent + '}\n', m.start())
            whole = text[m.start():end if end > 0 else len(text)]
            depth = 0
            start = whole.find('(', whole.find(m.group(2)))
            # past the type parameters, which may hold parentheses
            angle = whole.find('<', whole.find(m.group(2)), start)
            if angle >= 0:
                d = 0
                for i in range(angle, len(whole)):
                    d += (whole[i] == '<') - (whole[i] == '>' and whole[i - 1] != '-')
                    if d == 0:
                        start = whole.find('(', i)
                        break
            for i in range(start, len(whole)):
                depth += (whole[i] in '([{') - (whole[i] in ')]}')
                if depth == 0:
                    break
            parts, d, last = [], 0, start + 1
            for j in range(start + 1, i):
                d += (whole[j] in '([{<') - (whole[j] in ')]}>' and whole[j - 1] != '-')
                if whole[j] == ',' and d == 0:
                    parts.append(whole[last:j])
                    last = j + 1
            parts.append(whole[last:i])
            body = whole.find('\n' + indent + '{', i)
            body = body if body >= 0 else whole.find('{', i)
            yield path, m.group(2), [p for p in parts if p.strip()], whole[body:] if body >= 0 else ''


WORDS = set('let mut if else match return for in while loop break continue fn self Some None Ok Err true false as'.split())


def twins():
    found = collections.defaultdict(list)
    for path, name, _, body in functions():
        body = re.sub(r'\b\d[\d_]*\b', 'N', re.sub(r'//.*', '', body))
        tokens = re.findall(r'\w+|[^\s\w]', body)
        names, shape = {}, []
        for t in tokens:
            if re.match(r'[A-Za-z_]', t) and t not in WORDS and t != 'N':
                t = '#%d' % names.setdefault(t, len(names))
            shape.append(t)
        if len(tokens) > 14:
            found[' '.join(shape)].append(f'{path}: {name}')
    for group in found.values():
        if len(group) > 1:
            yield from group


def repeated_clauses():
    found = collections.Counter()
    for path, text in sources():
        for line in text.split('\n'):
            if re.match(r'\s*(ensures|requires)\b', line):
                found[path.split('/')[0] + ': ' + line.strip()] += 1
    for clause, times in sorted(found.items()):
        if times >= 3:
            yield f'{times} times in {clause}'


def long_lists():
    for path, name, parts, _ in functions():
        if len(parts) >= 6:
            yield f'{path}: {name} ({len(parts)} parameters)'


points = [
    ('1a a field or a value that says by a bool or a number whether, or why not',
     lambda: lines(r'^\s+(pub )?\w+: (bool|Option<Refusal>),|^\s+(pub )?(number|making|fails): u8,', r'\bfn ')),
    ('1b a result within a result, or an option within one',
     lambda: lines(r'Result<(Result|Option)<|Option<(Option|Result)<')),
    ('1c a function that answers a number for a kind or a refusal',
     lambda: lines(r'-> (u8|Result<u8)\b', r'network/src/refusal|search/src/answer')),
    ('1d an error put into another by hand',
     lambda: lines(r'Err\(\w+\) => (return )?(Ok\()?Err\(|Err\(\w+\) => return Err')),
    ('1e a none handed on by hand',
     lambda: lines(r'^\s*return (None|Ok\(None\));|None => None,')),
    ('1f enums with a variant for nothing or for a refusal',
     lambda: lines(r'^\s+(Untried|Refused\(Refusal\)|NotPlanned\(|NoDistrict|NotUnderstood|Nothing|Silence)\b.*[,{]?$', r'::|=>')),
    ('2 functions whose bodies are the same but for names and numbers', twins),
    ('3 loops that count, or go by an index', lambda: lines(r'^\s*(while|loop)\b|for \w+ in [^{]*\.\.')),
    ('4 comparisons, conversions and printing by hand',
     lambda: lines(r'fn (is_same\w*|from_figure|to_figure|number|is_before|alike|unread|say_\w+|write_runs|report|read_queue|read_estimator|laid|done|planned|found|refused)\b')),
    ('5a clauses that stand three times or more in a crate', repeated_clauses),
    ('5b functions of six parameters or more', long_lists),
    ('6 rows with a length beside them, rows side by side, rows within a row',
     lambda: lines(r'count: u8|\bplaces: \[|cap: u32|len: u32|Vec<bool>|\[bool\]|&.{0,4}mut \[(Way|Label|u32)|\bcell\(')),
    ('7 switches by a bool or a choice, chains of tests for a word',
     lambda: lines(r'match .*(tools|choice|queue|estimator)|^\s*\w+: bool,$|if is_word')),
]

for title, places in points:
    places = list(places())
    print(f'{len(places):4} {title}')
    if verbose:
        for place in places:
            print('       ' + place)
