#!/usr/bin/env python3
"""Counts in crates/*/src the places of each point of docs/DESIGN-PASS.md.

    python3 tools/places.py [COMMIT]     of the checkout, or of a commit
    python3 tools/places.py -v [COMMIT]  lists the places, too
"""
import collections
import re
import subprocess
import sys

verbose = '-v' in sys.argv
words = [w for w in sys.argv[1:] if w != '-v']


def git(*args):
    return subprocess.check_output(('git',) + args, text=True)


def sources():
    """Each source by its name, as text without comments."""
    if words:
        names = git('ls-tree', '-r', '--name-only', words[0], 'crates').split('\n')
    else:
        names = git('ls-files', '-co', '--exclude-standard', 'crates').split('\n')
    for name in sorted(names):
        if re.fullmatch(r'crates/\w+/src/.*\.rt', name):
            text = git('show', words[0] + ':' + name) if words else open(name).read()
            yield name, re.sub(r'(?m)^\s*//.*$', '', text)


def lines(pattern):
    """Each place where the pattern stands."""
    found = []
    for name, text in SOURCES:
        for m in re.finditer(pattern, text):
            found.append('%s:%d: %s' % (name, text.count('\n', 0, m.start()) + 1, m.group(0).strip().split('\n')[0]))
    return found


def functions():
    """Each function: its place, name, parameters, clauses."""
    for name, text in SOURCES:
        for m in re.finditer(r'(?m)^ *(?:pub )?fn (\w+)(?:<[^>]*>)?\(', text):
            depth, i = 1, m.end()
            while depth:
                depth += {'(': 1, ')': -1}.get(text[i], 0)
                i += 1
            end = re.compile(r'(?m)^ *\{$|\{\n').search(text, i)
            yield '%s:%s' % (name, m.group(1)), text[m.end():i - 1], text[i:end.start()] if end else ''


def parameters(text):
    parts, depth, part = [], 0, ''
    for c in text:
        depth += {'(': 1, '[': 1, '<': 1, ')': -1, ']': -1, '>': -1}.get(c, 0)
        if c == ',' and depth == 0:
            parts.append(part)
            part = ''
        else:
            part += c
    return [' '.join(p.replace("'a ", '').split()) for p in parts + [part] if p.strip()]


def repeated_facts():
    """A fact in the `requires` of three or more functions of a crate, each of its places."""
    by = collections.defaultdict(list)
    for place, _, clauses in FUNCTIONS:
        crate = place.split('/')[1]
        for fact in re.findall(r'requires (?:\w+ )?\{ (.*?) \}\n', clauses + '\n'):
            for part in re.split(r' × ', fact.replace('(', '').replace(')', '')):
                by[crate, part].append(place)
    return ['%s: %s' % (p, fact[1]) for fact, ps in by.items() if len(ps) >= 3 for p in ps]


def groups():
    """Three or more parameters that stand side by side in three or more functions of a crate, each function once."""
    by = collections.defaultdict(set)
    for place, params, _ in FUNCTIONS:
        ps = parameters(params)
        for i in range(len(ps) - 2):
            by[(place.split('/')[1],) + tuple(ps[i:i + 3])].add(place)
    return sorted({p for g, ps in by.items() if len(ps) >= 3 for p in ps})


def counted_buffers():
    """An array parameter or field with a count of its own, or three or more arrays side by side."""
    found = []
    for place, params, _ in FUNCTIONS:
        arrays = [p for p in parameters(params) if re.search(r': &(mut )?\[', p)]
        if len(arrays) >= 3:
            found.append('%s: %d arrays' % (place, len(arrays)))
    return found + lines(r'(?m)^    pub (\w*length|have|dependencies|steps|listed)\b: ')


def twins():
    """Functions whose body is another one's of the crate, names and numbers left aside; each but the first."""
    by = collections.defaultdict(list)
    for name, text in SOURCES:
        for m in re.finditer(r'(?ms)^( *)(?:pub )?fn (\w+).*?^\1\{\n(.*?)^\1\}$', text):
            body = ' '.join(re.sub(r'\b(?:Case|Storage|Trace)::', '', m.group(3)).split())
            shape = re.sub(r'\b(?!let|mut|while|for|in|if|else|return|match|true|false)\w+\b', 'x', body).replace(' ', '')
            if len(shape) > 40:
                by[name.split('/')[1], shape].append('%s:%s' % (name, m.group(2)))
    return [p for ps in by.values() if len(ps) > 1 for p in ps[1:]]


def pairs():
    """Functions that stand twice under a name with another beginning or ending."""
    names = {(place.split('/')[1], place.split(':')[1]) for place, _, _ in FUNCTIONS}
    swaps = ((r'^size_', 'write_'), (r'$', '8'), (r'$', '_by_threes'))
    return sorted('%s:%s' % (c, n) for c, n in names for a, b in swaps
                  if re.search(a, n) and re.sub(a, b, n) != n and (c, re.sub(a, b, n)) in names)


SOURCES = list(sources())
FUNCTIONS = list(functions())
COUNTS = [
    ('1a', 'enums of the shape of Option or Result', lines(r'(?m)^(?:pub )?enum \w+ \{\n(?:[^}]*\b(?:Refused|Absent)\b[^}]*)\}')),
    ('1b', 'fields that say whether what stands beside them counts', lines(r'(?m)^    pub (?:number|condition|ended|going|done|which|holds): (?:u8|u32|bool),')),
    ('1c', 'functions that give a number for a refusal, a rule or a comparison', lines(r'\) -> u8\n')),
    ('1d', 'constants that number kinds, refusals or answers', lines(r'(?m)^ *(?:pub )?const (?!MOST|LEAST|ROOM|GROUPS|AT_ONCE|DIGITS|MASKS)\w+: u(?:8|32|64) = ')),
    ('2a', 'functions whose body is another one\'s, names and numbers left aside', twins()),
    ('2b', 'functions that stand twice, for counting and for writing or for another type', pairs()),
    ('3', 'loops that are no `for`', lines(r'(?m)^ *(?:while|loop)\b.*\{$')),
    ('4a', 'casts that widen', lines(r'\bas (?:usize|u64)\b')),
    ('4b', 'functions that only convert', lines(r'(?m)^fn wide\w*\(')),
    ('4c', 'words printed by hand', lines(r'\bsay\w*\(\s*rt, b"')),
    ('5a', 'facts in the `requires` of three or more functions of a crate', repeated_facts()),
    ('5b', 'functions with three parameters that travel together', groups()),
    ('6', 'arrays side by side, or with a count beside', counted_buffers()),
    ('7', 'arms that choose by a number of a kind', lines(r'(?m)^ *if (?:kind|flag|b|number|step|class|verdict) == \w+(?:::\w+)? \{$|^ *\d+ => ')),
]
for point, what, places in COUNTS:
    print('%-3s %4d  %s' % (point, len(places), what))
    if verbose:
        print('\n'.join('           ' + p for p in places))
