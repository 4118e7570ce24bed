#!/usr/bin/env python3
"""Counts forms of code in src/ that newer ones could take the place of: forms.py [ROOT] [--list N].

1 enums of one's own, numbers for refusals and kinds, a fault beside a value; 2 functions that are alike but for names, types and numbers;
3 loops by `while` and `loop`; 4 equality, order, copying by hand; 5 facts that stand in the contracts of three or more functions;
6 texts with both ends beside them; 7 which room to lend, asked in each call; 8 answers that only name a tactic.
"""
import collections
import glob
import re
import sys

KEYWORDS = set('let mut if else while for in return match true false as loop break continue fn pub self'.split())


def lines(root, pattern, skip=None):
    out = []
    for path in sorted(glob.glob(root + '/crates/*/src/*.rt')):
        for number, line in enumerate(open(path), 1):
            if re.search(pattern, line) and not (skip and re.search(skip, line)):
                out.append('%s:%d %s' % (path[len(root) + 8:], number, line.strip()))
    return out


def functions(text):
    """name, clauses and body of each function"""
    text = re.sub(r'//[^\n]*', '', text)
    for m in re.finditer(r'(?:^|\n) *(?:pub )?(?:extern "C" )?(?:unsafe )?fn (\w+)', text):
        alone = re.compile(r'(?m)^ *\{$').search(text, m.end())
        after = re.compile(r'\n *(?:pub )?(?:unsafe )?fn ').search(text, m.end())
        if alone and (not after or alone.start() < after.start()):
            start = alone.start()
        else:
            start = re.compile(r'\{\n').search(text, m.end()).start()
        depth = 0
        first = text.find('{', start)
        for end in range(first, len(text)):
            depth += {'{': 1, '}': -1}.get(text[end], 0)
            if depth == 0:
                break
        yield m.group(1), text[m.end():start], text[first:end + 1]


def shape(body):
    out = []
    for word in re.findall(r'b?"[^"]*"|[A-Za-z_]\w*|\d+|[^\s\w]', body):
        if re.match(r'[A-Za-z_]', word) and word not in KEYWORDS and not word.startswith('b"'):
            out.append('n')
        else:
            out.append('0' if word[0].isdigit() else 's' if word[0] in '"b' and '"' in word else word)
    return ' '.join(out).replace('n : : n', 'n')


def twins(root):
    groups = collections.defaultdict(list)
    for path in sorted(glob.glob(root + '/crates/*/src/*.rt')):
        for name, _, body in functions(open(path).read()):
            key = shape(body)
            if len(key.split()) >= 20:
                groups[key].append(path.split('/')[-3] + '::' + name)
    return sorted((' '.join(g) for g in groups.values() if len(g) > 1), key=lambda g: -len(g.split()))


def facts(root):
    where = collections.defaultdict(set)
    for path in glob.glob(root + '/crates/*/src/*.rt'):
        for name, clauses, _ in functions(open(path).read()):
            for clause in re.findall(r'requires(?: \w+)? \{ (.*?) \}\s*(?=\n|$)', clauses, re.S):
                for fact in re.split(r' × ', clause):
                    where[re.sub(r'\s+', ' ', fact).strip('() ')].add(path.split('/')[-3] + '::' + name)
    return ['%d %s' % (len(w), f) for f, w in sorted(where.items(), key=lambda x: -len(x[1])) if len(w) >= 3]


def answers(root):
    out = []
    for path in sorted(glob.glob(root + '/crates/*/proofs/**/Answers.antt', recursive=True)):
        for line in open(path):
            if re.match(r'^\S+( \S+)? = (omega arith|search rules)$', line.rstrip()):
                out.append('%s %s' % (path[len(root) + 8:], line.strip()))
    return out


def main():
    args = sys.argv[1:]
    wanted = None
    if '--list' in args:
        at = args.index('--list')
        wanted = args[at + 1]
        args = args[:at] + args[at + 2:]
    root = (args or ['.'])[0]
    clause = r'requires|ensures|//'
    rows = [
        ('1a', 'enums of one\'s own', lines(root, r'^(pub )?enum ')),
        ('1b', 'refusals by number', lines(root, r'(Refused|Fault)\(\d+')),
        ('1c', 'a fault, or whether there is one, beside a value', lines(root, r'^    (pub )?(fault|refusal|there|found|number): (u32|bool)')),
        ('1d', 'tests of kinds by number', lines(root, r'\b(kind|tag|joins?)\b (==|!=|<|<=) \d|\d (<|<=|==) \w*\.?(kind|tag)\b|match .*(kind|tag)', clause)),
        ('2', 'groups of functions that are alike', twins(root)),
        ('3', 'loops by `while` and `loop`', lines(root, r"^\s*('\w+: )?(while|loop)\b")),
        ('4', 'equality, order and copying by hand', lines(root, r'fn (same|is_capital|is_digit|agrees|later|least|copy|equal)\w*\(')),
        ('5', 'facts in three contracts or more', facts(root)),
        ('6', 'texts with both ends beside them', lines(root, r'\(?\w+: &\[u8\], (a|at|from): usize, (e|end|to)\w*: usize')),
        ('7', 'which room to lend, asked in a call', lines(root, r'if open_case::is_small\(site\)|steps\.len\(\) <= read_sheets::|o\.n <= open_case::SMALL_SIZE')),
        ('8', 'answers that only name a tactic', answers(root)),
    ]
    for key, what, places in rows:
        if wanted is None:
            print('%-3s %4d  %s' % (key, len(places), what))
        elif wanted == key:
            print('\n'.join(places))


main()
