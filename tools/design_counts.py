#!/usr/bin/env python3
"""Counts, in crates/*/src, the places that the page docs/DESIGN-PASS.md is about. `--list N` prints those of point N."""
import collections
import glob
import os
import re
import sys

TOP = os.path.join(os.path.dirname(os.path.abspath(__file__)), '..')


def sources():
    for path in sorted(glob.glob(os.path.join(TOP, 'crates/*/src/**/*.rt'), recursive=True)):
        with open(path, encoding='utf-8') as file:
            yield os.path.relpath(path, TOP), file.read().split('\n')


def lines(pattern):
    found = re.compile(pattern)
    for path, text in sources():
        for number, line in enumerate(text, 1):
            if not line.lstrip().startswith(('//', 'ghost use')) and found.search(line):
                yield f'{path}:{number}: {line.strip()}'


def functions():
    """Each function: where it begins, its name, its clauses and its body."""
    for path, text in sources():
        at = 0
        while at < len(text):
            name = re.match(r'\s*(?:pub )?(?:extern "C" )?fn (\w+)', text[at])
            if not name:
                at += 1
                continue
            indent = len(text[at]) - len(text[at].lstrip())
            end = at
            while not re.match(r' {%d}\}' % indent, text[end]) and end + 1 < len(text):
                end += 1
            whole = text[at:end + 1]
            clauses = [line.strip() for line in whole if re.match(r'\s*(requires|ensures)\b', line)]
            body = [line for line in whole if not re.match(r'\s*(requires|ensures)\b', line)]
            yield f'{path}:{at + 1}', name.group(1), clauses, '\n'.join(body)
            at = end + 1


def counted_loops():
    """A `while` whose body steps the variable of its condition by a constant."""
    for path, text in sources():
        for number, line in enumerate(text):
            head = re.match(r'(\s*)while (.*)\{$', line)
            if not head:
                continue
            names = set(re.findall(r'\b[a-z_]\w*\b', head.group(2)))
            for inner in text[number + 1:]:
                step = re.match(r'\s+(\w+) (?:\+=|-=) ', inner)
                if step and step.group(1) in names:
                    yield f'{path}:{number + 1}: {line.strip()}'
                    break
                if re.match(re.escape(head.group(1)) + r'\}', inner):
                    break


def shape(body):
    words = re.sub(r'//.*', '', body)
    words = re.sub(r'0x[0-9A-Fa-f_]+|\d+', '0', words)
    kept = r'\b(fn|pub|let|mut|match|if|else|while|for|in|return|self|loop|break|continue|as)\b'
    return re.sub(r'\w+', lambda w: w.group(0) if re.fullmatch(kept, w.group(0)) else 'x', re.sub(r'\s+', ' ', words))


def twins():
    """Functions of five lines or more whose bodies are the same but for names and numbers."""
    groups = collections.defaultdict(list)
    for where, name, _, body in functions():
        if body.count('\n') >= 4:
            groups[shape(body)].append(f'{where}: {name}')
    for group in groups.values():
        if len(group) > 1:
            yield from group


def facts():
    """Facts that stand in the `requires` of three functions or more."""
    seen = collections.Counter()
    for _, _, clauses, _ in functions():
        for clause in clauses:
            if clause.startswith('requires'):
                inside = clause[clause.index('{') + 1:clause.rindex('}')].strip()
                for fact in re.split(r' × ', inside):
                    seen[re.sub(r'^\((.*)\)$', r'\1', fact)] += 1
    for fact, times in seen.most_common():
        if times >= 3:
            yield f'{times} times: {fact}'


def repeated_lets():
    seen = collections.Counter()
    for path in glob.glob(os.path.join(TOP, 'crates/*/proofs/**/Answers.antt'), recursive=True):
        with open(path, encoding='utf-8') as file:
            here = collections.Counter(line.strip() for line in file if line.strip().startswith('let '))
        for line, times in here.items():
            if times >= 3:
                seen[os.path.relpath(path, TOP) + ': ' + line] = times
    for line, times in seen.most_common():
        yield f'{times} times: {line}'


POINTS = {
    1: ('own Option or Result, flags and number codes', lambda: lines(r'\bWaiting\b|Refusal::Accepted|\.number\(\)|-> Refusal\b|\boperation: u8\b|refusal: Refusal,$')),
    2: ('functions alike but for names and numbers', twins),
    3: ('loops that count by hand', counted_loops),
    4: ('copying, conversion, comparison and printing by hand', lambda: lines(r'std::num::wrapping|\bfn (number|code|flag|byte|encode|low_first\w*|fill|copy|same|waiting_of|registers_of|operation_of|is_digit|is_multicolor|is_read|further_right|choose|two_at|four_at|one_at)\b')),
    5: ('facts in the requires of three functions or more', facts),
    6: ('a buffer with a place or a count beside it, tables side by side', lambda: lines(r'out: &mut \[u8\], at: usize|\bdrawn: usize\b|^const (RED|GREEN|BLUE|NAMES|STARTS)\b|firsts: &\[u16\]')),
    7: ('a match that only picks which function runs', lambda: lines(r'^\s*\w+::\w+(\([a-z_]+\))? => [a-z_:.]+\(.*\),$')),
    8: ('answers that repeat a line three times or more', repeated_lets),
}


def main():
    if len(sys.argv) == 3 and sys.argv[1] == '--list':
        for place in POINTS[int(sys.argv[2])][1]():
            print(place)
        return
    for number, (what, places) in POINTS.items():
        print(f'{number}. {what}: {len(list(places()))}')


main()
