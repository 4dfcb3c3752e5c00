#!/usr/bin/env python3
"""Counts the places that docs/DESIGN-PASS.md speaks of: tools/design/count.py [--list] [TREE].

TREE is a checkout (the default is this one); --list prints each place. Comments are left out."""
import collections
import glob
import os
import re
import sys

places = '--list' in sys.argv
trees = [a for a in sys.argv[1:] if not a.startswith('--')]
top = trees[0] if trees else os.path.join(os.path.dirname(os.path.abspath(__file__)), '..', '..')
os.chdir(top)


def lines_of(pattern):
    for name in sorted(glob.glob(pattern, recursive=True)):
        if '/out/' not in name:
            for number, line in enumerate(open(name, encoding='utf-8'), 1):
                yield name, number, line.rstrip('\n')


SOURCE = [(n, k, t) for n, k, t in lines_of('crates/*/src/**/*.rt') if not t.strip().startswith('//')]


def told(point, what, found):
    print(f'{point}  {len(found):4}  {what}')
    if places:
        for name, number, text in found:
            print(f'            {name}:{number}: {text.strip()[:110]}')


def code(pattern, skip=None):
    return [p for p in SOURCE if re.search(pattern, p[2]) and not (skip and re.search(skip, p[0] + ' ' + p[2]))]


def clauses():
    """Facts that three functions or more require, without the name of the clause."""
    said = collections.defaultdict(list)
    for name, number, text in SOURCE:
        match = re.match(r'\s+requires (?:\w+ )?\{ (.*) \}', text)
        for fact in re.split(r' × ', match.group(1)) if match else []:
            fact = re.sub(r'\.(now|old|entry)\b', '', fact.strip('() '))
            said[name.split('/')[1], fact].append((name, number, text))
    return [group[0] for group in said.values() if len(group) >= 3]


def windows(size=6):
    """Runs of six lines or more of one shape: names, numbers and strings masked; a run counts once."""
    words = re.compile(r'"[^"]*"|0x[0-9A-Fa-f]+|\b\d+\b|\b[A-Za-z_]\w*\b')
    keep = {'let', 'mut', 'fn', 'pub', 'if', 'else', 'match', 'return', 'while', 'for', 'in', 'requires', 'ensures', 'self'}
    shape = lambda t: words.sub(lambda m: m.group(0) if m.group(0) in keep else 'x', t.strip())
    body = [(n, k, t, shape(t)) for n, k, t in SOURCE
            if t.strip() and not re.match(r'\s*(ghost )?use |\s*pub use |\s*\w+,$|\s*[)}\](]*[,;]?$|\s*\) -> |\s*\w+: [^=]*,$|\s*\} else \{$', t)]
    seen, found, skip = {}, [], -1
    for i in range(len(body) - size):
        run = body[i:i + size]
        if run[0][0] != run[-1][0] or i < skip:
            continue
        key = tuple(r[3] for r in run)
        if sum(len(s) for s in key) < 120:
            continue
        if key in seen and seen[key] + size <= i:
            found.append(run[0][:3])
            skip = i + size
        else:
            seen.setdefault(key, i)
    return found


def lemmas():
    text = ''.join(t + '\n' for _, _, t in lines_of('crates/*/proofs/**/*.antt'))
    text += ''.join(t + '\n' for _, _, t in lines_of('crates/*/specs/**/*.antt')) + ''.join(t + '\n' for _, _, t in SOURCE)
    cited = collections.Counter(re.findall(r"[^\s(){},.:;\[\]]+", text))
    out = []
    for name, number, line in lines_of('crates/*/proofs/*.antt'):
        match = re.match(r'\s*pub ([^\s:{]+)( \{[^}]*\})* : ', line)
        if match and cited[match.group(1)] <= 2:
            out.append((name, number, line))
    return out


C = r'/pcp/src/'
told('1a', 'numbers under names: refusals, phases, endings, kinds', code(r'\bconst [A-Z_0-9]+: u8\b'))
told('1b', 'a number beside a value, or a flag beside one', code(r'^\s+pub (number|set|failed|ended): '))
told('1c', 'own enums (of each it was read whether Option or Result says the same)', code(r'^\s*(pub |pub\(crate\) )?enum '))
told('1d', 'functions that answer a byte: a refusal, a phase, a kind, a result or just a byte', code(r'-> u8( \{)?$', C))
told('2 ', 'runs of six lines and more of one shape in src/', windows())
told('3 ', 'loops that count by hand', code(r'^\s*while\b'))
told('4 ', 'equality, order, copying, conversion and membership by functions of our own', code(
    r'\b(same_bytes|same_version|same_fields|one_of|pick|unless|least|product|word_bytes|dword_bytes|qword_bytes|words_of)\('))
told('5 ', 'facts that three functions or more of a crate require', clauses())
told('5 ', 'requires clauses', code(r'^\s+requires\b'))
told('6 ', 'a place or a length beside its buffer', code(r'\b(at|end|place|len|length): (usize|&mut usize)\b'))
told('7 ', 'a step chosen by a number', code(r'^\s+(19|0x13) (=>|if )'))
told('7 ', 'tables of functions', code(r'\bfn\(|dyn |Box<'))
told('8 ', 'proof files of functions', [(n, 1, '') for n in sorted(glob.glob('crates/*/proofs/*/**/*.antt', recursive=True))])
told('8 ', 'lines of proofs', list(lines_of('crates/*/proofs/**/*.antt')))
told('8 ', 'lemmas that nothing cites', lemmas())
