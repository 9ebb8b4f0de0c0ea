#!/usr/bin/env python3
"""Counts what docs/DESIGN-PASS.md counts, in crates/*/src and crates/*/proofs.

    tools/design_count.py [-v] [COMMIT]

Of COMMIT, or of the files as they lie here; with -v each place, by file and line.
"""
import collections
import pathlib
import re
import subprocess
import sys

TOP = pathlib.Path(__file__).resolve().parent.parent


def files(commit, pattern):
    """The files whose path fits, each with its text."""
    if commit is None:
        for path in sorted(TOP.glob('crates/*/**/*')):
            name = path.relative_to(TOP).as_posix()
            if re.fullmatch(pattern, name):
                yield name, path.read_text(encoding='utf-8')
        return
    git = ['git', '-C', str(TOP)]
    names = subprocess.run(git + ['ls-tree', '-r', '--name-only', commit, 'crates'], check=True, capture_output=True, text=True).stdout
    for name in names.splitlines():
        if re.fullmatch(pattern, name):
            yield name, subprocess.run(git + ['show', f'{commit}:{name}'], check=True, capture_output=True, text=True).stdout


def functions(text):
    """Each function: its line, its head up to the body, its body's lines."""
    lines = text.split('\n')
    for first, line in enumerate(lines):
        found = re.match(r'(\s*)(pub(\(crate\))? )?(extern "C" )?fn ', line)
        if not found:
            continue
        indent = found.group(1)
        last = next((k for k in range(first, len(lines)) if lines[k] == indent + '}'), None)
        if last is None:
            continue
        whole = lines[first:last + 1]
        start = next((k for k, x in enumerate(whole) if x.endswith('{') and not re.match(r'\s*(requires|ensures)', x)), 0)
        yield first + 1, '\n'.join(whole[:start + 1]), whole[start + 1:-1]


def shape(body):
    """The body with each name and number but the first letters of calls taken away."""
    kept = [re.sub(r'\b[A-Za-z_][A-Za-z0-9_]*\b|\b\d[\d_]*\b', 'x', line.strip()) for line in body]
    return '\n'.join(kept)


def by_line(pattern):
    """Counts the lines that the pattern fits, comments left out."""
    def count(name, text):
        for number, line in enumerate(text.split('\n'), 1):
            if not line.lstrip().startswith('//') and re.search(pattern, line):
                yield f'{name}:{number}', line.strip()
    return count


def counted_loops(name, text):
    """`while` loops whose condition names a variable that the body counts by one."""
    lines = text.split('\n')
    for number, line in enumerate(lines, 1):
        found = re.match(r"(\s*)(?:'\w+: )?while (.*) \{$", line)
        if not found:
            continue
        end = next(k for k in range(number, len(lines)) if lines[k].startswith(found.group(1) + '}'))
        body = '\n'.join(lines[number:end])
        if any(re.search(r'\b' + v + r' [+-]= 1;', body) for v in re.findall(r'[a-z_]\w*', found.group(2))):
            yield f'{name}:{number}', line.strip()


def flags(name, text):
    """Functions to bool by `if .. { return true|false; }`, and to 0 or 1 by `if .. { return 1|0; }`."""
    for number, head, body in functions(text):
        joined = '\n'.join(body)
        if 'while ' in joined or 'for ' in joined:
            continue
        if re.search(r'-> bool', head) and re.search(r'return (true|false);|return \w+;\n\s*\}\n\s*(false|true)$', joined):
            yield f'{name}:{number}', head.split('\n')[0].strip()
        elif re.search(r'-> [ui]\d+|-> usize', head) and re.search(r'return [01];', joined) and re.search(r'^\s*[01]$', body[-1] if body else ''):
            yield f'{name}:{number}', head.split('\n')[0].strip()


def long_heads(name, text):
    """Functions of seven parameters or more."""
    for number, head, _ in functions(text):
        signature = head.split(')')[0]
        if len(re.findall(r'\b\w+: ', signature.split('(', 1)[-1])) >= 7:
            yield f'{name}:{number}', head.split('\n')[0].strip()


def switches(name, text):
    """Functions whose whole body is one `match` of which each arm is a call."""
    for number, head, body in functions(text):
        arms = [x.strip() for x in body[1:-1]]
        if body and body[0].strip().startswith('match ') and len(arms) > 1 and all(re.fullmatch(r'\w+(::\w+)+ => !?[\w:]+\(.*\),', x) for x in arms):
            yield f'{name}:{number}', head.split('\n')[0].strip()


def twins(sources):
    """Functions of three lines or more whose bodies have one shape with another's."""
    groups = collections.defaultdict(list)
    for name, text in sources:
        for number, head, body in functions(text):
            if len(body) >= 3:
                groups[shape(body)].append((f'{name}:{number}', head.split('\n')[0].strip()))
    for places in groups.values():
        if len(places) > 1:
            yield from places


def repeated_clauses(sources):
    """`requires` clauses that stand, word for word, in three functions or more; and how many functions have them."""
    seen = collections.defaultdict(list)
    for name, text in sources:
        for number, line in enumerate(text.split('\n'), 1):
            found = re.match(r'\s*requires (\w+ )?(\{.*\})', line)
            if found:
                seen[found.group(2)].append((f'{name}:{number}', found.group(2)))
    for places in seen.values():
        if len(places) >= 3:
            yield from places


SOURCE = r'crates/\w+/src/[\w/]+\.rt'
EACH = [
    ('1 own enums', by_line(r'^\s*(pub )?enum \w+')),
    ('1 cases that say that there is nothing, or why not', by_line(r'::(Refused|Malformed|Broken|Wrong|Nothing|Missing|Stuck|NoProblem|Unfit|TooSmall|Never|Unknown)\b')),
    ('1 Option and Result in signatures and fields', by_line(r'\b(Option|Result)<')),
    ('1 `?`', by_line(r'\?(;|\)|$|\.)')),
    ('3 loops that count by hand', counted_loops),
    ('3 loops by `while`, all', by_line(r"^\s*('\w+: )?while ")),
    ('3 loops by `for`', by_line(r"^\s*('\w+: )?for ")),
    ('3 iterator chains', by_line(r'\.(iter|iter_mut|chunks\w*|windows)\(')),
    ('4 tests and 0/1 written by `if` and `return`', flags),
    ('4 impls of From, TryFrom, Display', by_line(r'^impl.* (From|TryFrom|fmt::Display)\b.* for ')),
    ('5 functions of seven parameters or more', long_heads),
    ('6 fixed buffers', by_line(r'let mut \w+ = \[')),
    ('7 switches on which step to run', switches),
]


def main():
    words = [w for w in sys.argv[1:] if w != '-v']
    commit = words[0] if words else None
    sources = list(files(commit, SOURCE))
    rows = [(title, [place for name, text in sources for place in count(name, text)]) for title, count in EACH]
    rows.append(('2 functions whose body has the shape of another\'s', list(twins(sources))))
    rows.append(('5 `requires` clauses that stand in three functions or more', list(repeated_clauses(sources))))
    proofs = list(files(commit, r'crates/\w+/proofs/(.+/)?\w+\.antt'))
    lines = lambda chosen: sum(text.count('\n') for _, text in chosen)
    answers = [p for p in proofs if p[0].endswith('/Answers.antt')]
    for title, places in sorted(rows):
        print(f'{len(places):5} {title}')
        if '-v' in sys.argv:
            for place, text in places:
                print(f'        {place}: {text}')
    print(f'{len(answers):5} 8 files of answers, of {lines(answers)} lines; {lines(proofs)} lines of proofs in all')
    print(f'{lines(sources):5} lines of src')


if __name__ == '__main__':
    main()
