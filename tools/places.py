#!/usr/bin/env python3
"""Lists the places that docs/DESIGN-PASS.md counts, by its points, in crates/*/src of the tree in which it is run.

    python3 tools/places.py          the count of each point
    python3 tools/places.py 3        the places of point 3, a line each
"""
import collections
import glob
import re
import sys

SKIP = re.compile(r'^\s*//')


def sources():
    for path in sorted(glob.glob('crates/*/src/*.rt')):
        with open(path) as file:
            yield path, file.read().split('\n')


def matching(pattern, without=None):
    """The lines that match a pattern, comments left out."""
    found = re.compile(pattern)
    for path, lines in sources():
        for number, line in enumerate(lines, 1):
            if not SKIP.match(line) and found.search(line) and not (without and re.search(without, line)):
                yield f'{path}:{number}: {line.strip()}'


def functions():
    """Each function: its place, its name, its parameters, its answer's type, the facts of its clauses, its body."""
    head = re.compile(r'^ *(?:pub(?:\([a-z]+\))? )?(?:const |unsafe |extern "C" )*fn (\w+)')
    for path, lines in sources():
        at = 0
        while at < len(lines):
            named = head.match(lines[at])
            if not named:
                at += 1
                continue
            start, text = at, lines[at]
            while '{' not in re.sub(r'(requires|ensures)\s*\w*\s*\{.*\}$', '', lines[at].split('//')[0]) and at + 1 < len(lines):
                at += 1
                text += '\n' + lines[at]
            indent = len(lines[start]) - len(lines[start].lstrip())
            body, at = [], at + 1
            while at < len(lines) and lines[at] != ' ' * indent + '}':
                body.append(lines[at])
                at += 1
            parameters = re.findall(r'(\w+): ([^,()]+(?:\([^)]*\))?)', text.split('->')[0].split('requires')[0].split('ensures')[0])
            answer = re.search(r'-> ([^\n{]+)', text)
            clauses = re.findall(r'(?:requires|ensures)\s*\w*\s*\{(.*)\}', text)
            facts = [part.strip(' ()') for clause in clauses for part in re.split(r' × ', clause)]
            yield f'{path}:{start + 1}', named.group(1), parameters, answer.group(1).strip() if answer else '', facts, body
            at += 1


def point_1():
    """Own enums of the shape of Option or Result, a flag or a refusal with a value beside it, numbers for refusals, kinds and none."""
    yield from matching(r'\benum \w+', r'enum (Verdict|Refusal|Kind|Slot)\b')
    yield from matching(r'^\s*(pub )?(refusal: u16|going: bool|waiting: bool|failed: bool|open: bool)')
    yield from matching(r'-> u16')
    yield from matching(r'\b(refusal|number|refused|held|first|found): u16', r'pub |number: u16, (outcome|answer)|find|holds')
    yield from matching(r'const (NO_TASK|WITHHELD|STATED|TASK|END|ASKED|LATE|PAIR|NONE)\b')
    yield from matching(r'// .*(stands? for none|for none|where there is none|0 where|past .* for none)')


def point_1_comments():
    found = re.compile(r'// .*(stands? for none|or 0 where the line is no|0 where there is none|past .* for none|the count of jobs (where|stands)|0 where it is not refused)')
    for path, lines in sources():
        for number, line in enumerate(lines, 1):
            if found.search(line):
                yield f'{path}:{number}: {line.strip()}'


def bare(body):
    """A body with its types, sizes, constants and the names of what it calls left out."""
    text = ' '.join(line.split('//')[0].strip() for line in body)
    return re.sub(r'\b(u8|u16|u32|u64|usize|i32|[A-Z]\w*|\d[\d_]*\w*)\b|b"[^"]*"|b\'.\'', '#', text)


def point_2():
    """Functions whose bodies are the same but for types, sizes and constants, and structs whose fields are."""
    groups = collections.defaultdict(list)
    for place, name, _, _, _, body in functions():
        text = bare(body)
        if len(text) > 40:
            groups[re.sub(r'\b\w+(?=\()', 'f', text)].append(f'{place}: {name}')
    for path, lines in sources():
        text = '\n'.join(lines)
        for item in re.finditer(r'pub struct (\w+)(?:<[^>]*>)? \{\n(.*?)\n\}', text, re.S):
            fields = re.sub(r': [^,\n]+', ': #', re.sub(r'\s*//[^\n]*', '', item.group(2)))
            if fields.count('#') > 1:
                groups['struct ' + fields].append(f'{path}:{text[:item.start()].count(chr(10)) + 1}: struct {item.group(1)}')
    for places in groups.values():
        if len(places) > 1:
            yield from places


def point_3():
    """Loops with an index counted by hand, or that go through something by hand."""
    yield from matching(r'^\s*(\'\w+: )?(while|loop)\b|= \'\w+: loop')


def point_4():
    """Copies of a struct field by field, and equality, order, the least of two, conversions and printing by hand."""
    copied = re.compile(r'let (\w+) = (\w+)\.(\1);')
    for place, name, _, _, _, body in functions():
        copies = sum(1 for line in body if copied.search(line))
        if copies >= 3:
            yield f'{place}: {name} copies {copies} fields'
    yield from matching(r'fn (same_common|is_zero|earlier|within_places|wide|number|magnitude|is_negative|twos_complement|units_of|dedicated|code_of|positive|negative|put_number|put_digits|hex_digit|checked_of)\b', r'calls_budget|pub fn put_number\(out')


def point_5():
    """Facts that three or more contracts state, and parameters that three or more functions take together."""
    facts, together = collections.defaultdict(set), collections.defaultdict(set)
    for place, name, parameters, _, stated, _ in functions():
        for fact in stated:
            plain = re.sub(r'\b[a-z]\w*\.(now|old|new)\b', 'x', fact)
            if len(plain) > 8 and re.search(r'[≤<≡]', plain) and not plain.startswith('result') and 'result ≡' not in plain:
                facts[plain].add(f'{place}: {name}')
        kinds = sorted({(a, b.strip()) for a, b in parameters if a != 'self'})
        for i, one in enumerate(kinds):
            for other in kinds[i + 1:]:
                together[one, other].add(f'{place}: {name}')
    for fact, places in sorted(facts.items()):
        if len(places) > 2:
            yield f'{len(places)} contracts: {fact}'
    for (one, other), places in sorted(together.items()):
        if len(places) > 2:
            yield f'{len(places)} functions: {one[0]}: {one[1]}, {other[0]}: {other[1]}'


def point_6():
    """Arrays with a length beside, arrays side by side, and lists searched by hand."""
    for path, lines in sources():
        text = '\n'.join(lines)
        for item in re.finditer(r'pub struct (\w+)(?:<[^>]*>)? \{\n(.*?)\n\}', text, re.S):
            arrays = len(re.findall(r': \[[^\]]+; [^\]]+\]', item.group(2)))
            if arrays:
                yield f'{path}:{text[:item.start()].count(chr(10)) + 1}: struct {item.group(1)}, {arrays} arrays'
    for place, name, parameters, _, _, body in functions():
        slices = [a for a, b in parameters if re.match(r'&(mut )?\[', b)]
        if len([a for a in slices if a in ('children', 'parents', 'tasks', 'releases', 'ready', 'works', 'due', 'left', 'period', 'work', 'loads', 'lowest', 'edges')]) > 1:
            yield f'{place}: {name} takes {", ".join(slices)}'
    yield from matching(r'fn (holds|find|find_offer)\b')
    yield from matching(r'\[\w+; (1024|257|256|64|2048|4096|MOST|FIELDS)\]')


def point_7():
    """Chains of tests that choose what to run, tables of functions."""
    yield from matching(r'if (!)?words::is_word\(|if at > 0 \{|if put > 0 \{|dyn |: fn\(')


POINTS = {'1': point_1, '2': point_2, '3': point_3, '4': point_4, '5': point_5, '6': point_6, '7': point_7}


def main():
    chosen = sys.argv[1:] or sorted(POINTS)
    for name in chosen:
        places = list(dict.fromkeys(POINTS[name]()))
        if name == '1':
            places += [line for line in point_1_comments() if line not in places]
        if sys.argv[1:]:
            print('\n'.join(places))
        print(f'point {name}: {len(places)} places')


main()
