#!/usr/bin/env python3
"""Counts the places in src/ at which an older form of the language may stand, point by point.

    tools/places.py [COMMIT] [POINT]

COMMIT is the tree that is read (the checked out files where none is named); with a POINT, a number from 1 to 8, each place
is printed, else the counts. What is printed are candidates, to be read one by one: docs/DESIGN-PASS.md says which were
places and what became of them. The tests in crates/cases are left out.
"""
import collections
import os
import re
import subprocess
import sys

PATTERNS = {
    1: r'^\s*(pub )?\w+: bool,|\b\w+: bool[,)]|\b(pub )?enum \w+|=> (Ok|Some)\(\w+\),|Err\(_\) =>|None => ((0|false|None)\b|Mask::zero\(\)|\(0, )',
    3: r'\bwhile\b|\bfor\b.*\bin\b.*\.\.|\.enumerate\(\)|\[(at|base|m|w|q) \+ \d\]',
    4: r'^impl.*\b(From|TryFrom|FromStr|Display|PartialEq|Eq|PartialOrd|Ord|Clone|Drop)\b.* for |fn (word|named|prints|operands)\(|\.bits\(\) == \w+\.\w+\.bits\(\)',
    6: r'\[\w+(::\w+\(\))?; \d+\]|\bVec<|\bBox<|\bString\b|\bBTreeMap<',
    7: r'\bmatch (layer|condition|rule|command|verb|self|width|\(verb)|\bif on\b|\bdyn \b|: fn\(',
}


def sources(commit):
    """The files of src/ and of proofs/, as (path, text)."""
    if commit is None:
        names = subprocess.run(['git', 'ls-files', '-co', '--exclude-standard', 'crates'], capture_output=True, text=True).stdout.split()
        return [(n, open(n).read()) for n in names if os.path.exists(n)]
    names = subprocess.run(['git', 'ls-tree', '-r', '--name-only', commit, 'crates'], capture_output=True, text=True).stdout.split()
    keep = [n for n in names if n.endswith(('.rt', '.antt'))]
    return [(n, subprocess.run(['git', 'show', f'{commit}:{n}'], capture_output=True, text=True).stdout) for n in keep]


def closed(text, i, opening, closing):
    """The place behind the bracket that closes the one at i; an arrow closes nothing."""
    depth = 0
    while True:
        if text[i] == opening:
            depth += 1
        elif text[i] == closing and text[i - 1] != '-':
            depth -= 1
        i += 1
        if depth == 0:
            return i


def functions(path, text):
    """Each function as (name, parameters, clauses, body)."""
    for m in re.finditer(r'(?m)^ *(?:pub(?:\(crate\))? )?fn (\w+)', text):
        at = m.end()
        if text[at] == '<':
            at = closed(text, at, '<', '>')
        end = closed(text, at, '(', ')')
        parameters = text[at + 1:end - 1]
        clauses = []
        at = end + re.match(r'[^{;]*?(?=\s*(?:requires|ensures|where|\{|;))', text[end:], re.S).end()
        while True:
            c = re.match(r'[^{};]*?(requires|ensures)\s*\w*\s*(?=\{)', text[at:])
            if not c:
                break
            start = at + c.end()
            at = closed(text, start, '{', '}')
            clauses.append(' '.join(text[start + 1:at - 1].split()))
        b = re.match(r'[^{;]*(?=\{)', text[at:])
        body = text[at + b.end() + 1:closed(text, at + b.end(), '{', '}') - 1] if b else ''
        yield m.group(1), parameters, clauses, body


def shape(body):
    """A body with its names, numbers and operators replaced by their order of appearance."""
    body = re.sub(r'//.*', '', body)
    body = re.sub(r'"[^"]*"', 'text', re.sub(r',(\s*[\])}])', r'\1', body))
    body = re.sub(r'!(?=\w)', '', body)
    names = {}
    words = re.findall(r'\w+|[^\w\s]', body)
    return ' '.join(names.setdefault(w, f'x{len(names)}') if re.match(r'\w', w) else ('o' if w in '&|^' else w) for w in words)


def twins(files):
    groups = collections.defaultdict(list)
    for path, text in files:
        if '/src/' not in path or '/cases/' in path:
            continue
        for name, _, _, body in functions(path, text):
            if len(body.split()) >= 4:
                groups[shape(body)].append(f'{path}: fn {name}')
        for m in re.finditer(r'(?m)^pub struct (\w+)[^{;]*\{(.*?)^\}', text, re.S):
            fields = re.sub(r'ghost .*|//.*|pub |&\'a mut|&\'a', '', m.group(2))
            groups['struct ' + ' '.join(fields.split())].append(f'{path}: struct {m.group(1)}')
        for m in re.finditer(r'(?m)^pub struct (\w+)(<[^(]*>)\((.*)\);', text):
            groups['tuple ' + m.group(2) + m.group(3)].append(f'{path}: struct {m.group(1)}')
    return [' = '.join(g) for g in groups.values() if len(g) > 1]


def repeated(files):
    facts, together = collections.Counter(), collections.Counter()
    for path, text in files:
        if '/src/' not in path or '/cases/' in path:
            continue
        for name, parameters, clauses, _ in functions(path, text):
            for c in set(clauses):
                facts[path.split('/')[1] + ': ' + c] += 1
            ps = sorted({' '.join(p.split()) for p in re.findall(r'\w+: [^,]+', parameters)})
            for i, p in enumerate(ps):
                for q in ps[i + 1:]:
                    together[f"{path.split('/')[1]}: {p}, {q}"] += 1
    return [f'{n} x {c}' for c, n in facts.items() if n >= 3] + [f'{n} x ({c})' for c, n in together.items() if n >= 3]


def answers(files):
    found = []
    for path, text in files:
        if '/proofs/' in path and path.endswith('Answers.antt'):
            found += [f'{path}: {m}' for m in re.findall(r'(?m)^pub ([\w-]+) : goal', text)]
    return found


def places(point, files):
    if point == 2:
        return twins(files)
    if point == 5:
        return repeated(files)
    if point == 8:
        return answers(files)
    found = []
    for path, text in files:
        if '/src/' in path and '/cases/' not in path:
            for i, line in enumerate(text.splitlines(), 1):
                if re.search(PATTERNS[point], line) and not line.lstrip().startswith(('//', 'ghost', 'ensures', 'requires')):
                    found.append(f'{path}:{i}: {line.strip()}')
    return found


def main():
    arguments = sys.argv[1:]
    point = int(arguments.pop()) if arguments and re.fullmatch(r'[1-8]', arguments[-1]) else None
    files = sources(arguments[0] if arguments else None)
    for p in [point] if point else range(1, 9):
        found = places(p, files)
        print(f'{p}: {len(found)}')
        if point:
            print('\n'.join(found))


main()
