#!/usr/bin/env python3
"""Lists the places of src/ that docs/DESIGN-PASS.md counts: places.py POINT [FOLDER], or with no point the number of each.

A place is found by its form alone, so some of those that are found are right as they stand; the page says which, and why.
  1  enum     an enum of which one variant has a value and another has none, or one of whose variants is a refusal or a failure
     flag     a field or a result that is a number or a flag beside a value: number, mistake, stop, full, kind, outcome ..
     code     a constant that stands for no value, and a number that a function answers for a refusal
  2  twins    functions of one shape: the same tokens but for names, numbers and texts (28 tokens at least)
  3  loop     a `while` whose body adds to a variable of its condition or takes from it
  4  by hand  min, max, saturating arithmetic, equality, order, copies of structs field by field, numbers to and from variants
  5  fact     a fact that stands in the clauses of three functions or more of a crate
     lot      four parameters or more that three functions or more of a crate take together
  6  buffer   a buffer and a place in it or a length of it as parameters, or in a struct
  7  step     a value of type fn, dyn or Box<dyn>, and a `bool` or a number that says which runner or step to take
  8  answer   an answer that stands three times or more in a crate's proofs
"""
import collections
import itertools
import re
import sys
from pathlib import Path

KEYWORDS = set('fn pub let mut if else while for in match return loop break continue as ref struct enum impl const true false self u8 u16 '
               'u32 u64 usize bool'.split())
TOKEN = re.compile(r'b?"(?:[^"\\]|\\.)*"|b?\'(?:[^\'\\]|\\.)\'|[A-Za-z_]\w*|\d\w*|[^\sA-Za-z_0-9]')


class Function:
    def __init__(self, path, line, head, clauses, body):
        self.path, self.line, self.head, self.clauses, self.body = path, line, head, clauses, body
        self.name = re.search(r'\bfn (\w+)', head)[1]
        inside = head[head.index('('):]
        depth, at = 0, 0
        for at, c in enumerate(inside):
            depth += (c == '(') - (c == ')')
            if depth == 0:
                break
        self.parameters = [' '.join(it.split()) for it in split_at(inside[1:at], ',') if it.strip()]
        self.result = inside[at + 1:].split('->')[1].split(' where')[0].strip() if '->' in inside[at + 1:] else ''

    @property
    def crate(self):
        return self.path.parts[-3] if self.path.parts[-2] == 'src' else self.path.parts[-4]

    @property
    def at(self):
        return f'{self.path}:{self.line} {self.name}'


def split_at(text, mark):
    """Splits at a mark outside of brackets."""
    found, depth, part = [], 0, ''
    for c in text:
        depth += (c in '([{<') - (c in ')]}>')
        if c == mark and depth <= 0:
            found.append(part)
            part = ''
        else:
            part += c
    return found + [part]


def closing(text, at):
    depth = 0
    for i in range(at, len(text)):
        depth += (text[i] == '{') - (text[i] == '}')
        if depth == 0:
            return i
    return len(text) - 1


def functions(path):
    text = re.sub(r'//[^\n]*', '', path.read_text())
    for it in re.finditer(r'^[ \t]*(?:pub )?(?:unsafe )?(?:extern "C" )?(?:const )?fn \w+', text, re.M):
        brace = text.find('\n', it.end())
        # The body begins with the first brace that ends a line, or stands alone on it.
        head_end = re.compile(r'\{[ \t]*\n').search(text, it.start())
        if not head_end:
            continue
        head = text[it.start():head_end.start()]
        body_at = head_end.start()
        marks = list(re.finditer(r'^\s*(?:requires|ensures)\b[^{]*\{(.*)\}\s*$', head, re.M))
        clauses = [m[1].strip() for m in marks]
        if marks:
            head = head[:marks[0].start()]
        yield Function(path, text.count('\n', 0, it.start()) + 1, ' '.join(head.split()), clauses, text[body_at:closing(text, body_at) + 1])


def shape(function):
    tokens = TOKEN.findall(' '.join(function.parameters) + ' -> ' + function.result + ' ' + function.body)
    said = []
    for it in tokens:
        if re.match(r'b?"|\d|b?\'', it):
            said.append('0')
        elif re.match(r'[A-Za-z_]', it) and it not in KEYWORDS:
            said.append('x')
        else:
            said.append(it)
    return ' '.join(said)


def enums(text):
    for it in re.finditer(r'^(?:pub )?enum (\w+)[^{]*\{(.*?)^\}', text, re.M | re.S):
        body = re.sub(r'//[^\n]*', '', it[2])
        yield text.count('\n', 0, it.start()) + 1, it[1], [v.strip() for v in split_at(body, ',') if v.strip()]


def structs(text):
    for it in re.finditer(r'^(?:pub )?struct (\w+)[^{;]*\{(.*?)^\}', text, re.M | re.S):
        body = re.sub(r'//[^\n]*', '', it[2])
        yield text.count('\n', 0, it.start()) + 1, it[1], [v.strip().removeprefix('pub ') for v in split_at(body, ',') if v.strip()]


FLAG = re.compile(r'^(number|mistake|stop|full|found|two|begun|kind|outcome|mark|done|ok|valid): (u8|bool|Result<\(\), \w+>)$')


def point_1(top):
    for path in sources(top):
        text = path.read_text()
        for line, name, variants in enums(text):
            with_value = [v for v in variants if '(' in v or '{' in v]
            if with_value and len(with_value) < len(variants) or any(re.match(r'(Refused|Failed|Err|Cut|Unread|Nowhere)\b', v) for v in variants):
                yield f'enum {path}:{line} {name}'
        for line, name, fields in structs(text):
            for it in fields:
                if len(fields) > 1 and FLAG.match(it):
                    yield f'flag {path}:{line} {name}.{it.split(":")[0]}'
        for it in re.finditer(r'^(?:pub )?const (NO_\w+|NONE\w*|\w+_MISSING|\w+_UNKNOWN|\w+_TWICE|NOT_\w+|UNKNOWN_\w+|BEYOND_\w+|\w+_TOO_LARGE|TEXT_BEHIND|SECOND_ELSEWHERE|ROM_NOT_FIRST|OPERAND_\w+)\b: u', text, re.M):
            yield f'code {path}:{text.count(chr(10), 0, it.start()) + 1} {it[1]}'
        for f in functions(path):
            if f.result == 'u8' and re.search(r'number|mistake|refus|wrong|stop', f.name) and 'extern' not in f.head:
                yield f'code {f.at}'


def point_2(top):
    kinds = collections.defaultdict(list)
    for path in sources(top):
        for f in functions(path):
            s = shape(f)
            if len(s.split()) >= 28:
                kinds[s].append(f)
    for group in kinds.values():
        if len(group) > 1:
            yield 'twins ' + '; '.join(f.at for f in group)


def point_3(top):
    for path in sources(top):
        text = re.sub(r'//[^\n]*', lambda m: ' ' * len(m[0]), path.read_text())
        for it in re.finditer(r'^([ \t]*)while ([^{]*)\{', text, re.M):
            body = text[it.end():closing(text, it.end() - 1)]
            for name in set(re.findall(r'[a-z_]\w*(?:\.[a-z_]\w*)*', it[2])):
                if re.search(rf'(?<![\w.]){re.escape(name)} (?:[+-]= |= {re.escape(name)} [+-] )', body):
                    yield f'loop {path}:{text.count(chr(10), 0, it.start()) + 1} while {it[2].strip()}'
                    break


BY_HAND = [
    ('min or max', re.compile(r'\{\s*if (\w+) <=? (\w+) \{\s*(?:return )?(?:\1|\2);?\s*\}(?: else \{)?\s*(?:\1|\2)\s*\}?\s*\}')),
    ('difference or 0', re.compile(r'\{\s*if (\w+) <=? (\w+) \{\s*(?:return )?0;?\s*\}(?: else \{)?\s*\1 - \2\s*\}?\s*\}')),
    ('sum or most', re.compile(r'\{\s*if (\w+) - (\w+) <=? (\w+) \{\s*(?:return )?\1;?\s*\}(?: else \{)?\s*\w+ \+ \w+\s*\}?\s*\}')),
    ('quotient or 0', re.compile(r'\{\s*if (\w+) == 0 \{\s*(?:return )?0;?\s*\}(?: else \{)?\s*\w+ [/%] \1\s*\}?\s*\}')),
    ('equality', re.compile(r'(\w+)\[[^\]]+\] != (\w+)\[[^\]]+\] \{\s*return false')),
    ('variant of a number', re.compile(r'\n\s*(?:\d+|_) => (?:\w+::)+[A-Z]\w*,[^{}]*?\n\s*(?:\d+|_) => (?:\w+::)+[A-Z]\w*')),
    ('number of a variant', re.compile(r'(?:\n\s*(?:\w+::)+[A-Z]\w* => \d+,){2}')),
    ('digits', re.compile(r"b'[0aA]' \+ ")),
]


def point_4(top):
    for path in sources(top):
        for f in functions(path):
            for name, form in BY_HAND:
                if form.search(f.body):
                    yield f'by-hand {f.at}: {name}'
            for it in re.finditer(r'\b([A-Z]\w*) \{([^{}]*)\}', f.body):
                fields = [w.strip() for w in it[2].split(',') if w.strip()]
                same = [w for w in fields if re.match(r'(\w+): (?:\w+\.)+\1$', w)]
                if len(same) > 2 and len({re.match(r'\w+: (.*)\.\w+$', w)[1] for w in same}) == 1:
                    yield f'by-hand {f.at}: {it[1]} copied field by field'


def facts(clause):
    for part in re.split(r' × ', clause):
        part = part.strip()
        while part.startswith('(') and part.endswith(')'):
            part = part[1:-1].strip()
        yield part


def point_5(top):
    seen, lots = collections.defaultdict(set), collections.defaultdict(set)
    for path in sources(top):
        for f in functions(path):
            for clause in f.clauses:
                for fact in facts(clause):
                    if 'result' not in fact and '.new' not in fact:
                        seen[f.crate, fact].add(f.at)
            names = frozenset(f.parameters)
            if len(names) > 3:
                lots[f.crate].add((f.at, names))
    for (crate, fact), where in seen.items():
        if len(where) > 2:
            yield f'fact {crate}: {fact} ({len(where)} functions)'
    for crate, taken in lots.items():
        best = {}
        for some in itertools.combinations(sorted(taken, key=lambda it: it[0]), 3):
            common = frozenset.intersection(*(it[1] for it in some))
            if len(common) > 3:
                best.setdefault(common, set()).update(it[0] for it in some)
        largest = [c for c in best if not any(c < d for d in best)]
        for common in largest:
            yield f'lot {crate}: {", ".join(sorted(common))} ({len([1 for it in taken if common <= it[1]])} functions)'


def point_6(top):
    for path in sources(top):
        for f in functions(path):
            buffers = [p.split(':')[0].strip() for p in f.parameters if re.search(r': &(?:mut )?\[\w+(?:; \w+)?\]$', p)]
            places = [p for p in f.parameters if re.match(r'(at|place|from|to|size|length|count|used|written|n|end): usize$', p)]
            if buffers and places:
                yield f'buffer {f.at}'
        for line, name, fields in structs(path.read_text()):
            if any(re.search(r': \[', it) for it in fields) and any(re.match(r'(length|count|size|len|used|at): usize', it) for it in fields):
                yield f'buffer {path}:{line} {name}'


def point_7(top):
    for path in sources(top):
        text = re.sub(r'//[^\n]*', '', path.read_text())
        for it in re.finditer(r'\bdyn\b|: fn\(|Box<dyn', text):
            yield f'step {path}:{text.count(chr(10), 0, it.start()) + 1}'
        for f in functions(path):
            for p in f.parameters:
                if re.match(r'(skips|plain|runner|kind|which|way): (bool|u8|u64)$', p):
                    yield f'step {f.at} {p}'


def point_8(top):
    seen = collections.defaultdict(list)
    for path in sorted(top.glob('crates/*/proofs/*/Answers.antt')):
        if 'out' in path.parts:
            continue
        for it in re.finditer(r'^(?:pub )?([\w-]+) c(?:\w| )* = ?(.*(?:\n[ \t]+.*)*)', path.read_text(), re.M):
            answer = re.sub(r'\s+', ' ', it[2]).strip()
            if len(answer) > 30:
                seen[path.parts[-4], answer].append(f'{path}:{it[1]}')
    for (crate, answer), where in seen.items():
        if len(where) > 2:
            yield f'answer {crate}: {len(where)} times: {answer[:100]}'


def sources(top):
    return sorted(path for path in top.glob('crates/*/src/**/*.rt'))


POINTS = {str(n): globals()[f'point_{n}'] for n in range(1, 9)}

if __name__ == '__main__':
    words = sys.argv[1:]
    points = [words.pop(0)] if words and words[0] in POINTS else list(POINTS)
    top = Path(words[0] if words else '.')
    for n in points:
        found = list(POINTS[n](top))
        if len(points) == 1:
            print('\n'.join(found).replace(str(top) + '/', ''))
        print(f'{n}: {len(found)}' if len(points) > 1 else f'{len(found)} places')
