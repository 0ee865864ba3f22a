#!/usr/bin/env python3
"""Counts places that read like an older Rattle: python3 tools/places.py [COMMIT] [-v].

Reads crates/*/src of a commit, or of the files as they stand; -v lists each place.
Lists of names (twins, enums, parallel arrays) were made by reading; a name counts while the source has it.
"""
import pathlib
import re
import subprocess
import sys

args = [a for a in sys.argv[1:] if a != '-v']
verbose = '-v' in sys.argv
top = pathlib.Path(__file__).resolve().parent.parent


def sources():
    if args:
        names = subprocess.run(['git', '-C', top, 'ls-tree', '-r', '--name-only', args[0], 'crates'],
                               capture_output=True, text=True, check=True).stdout.split()
        for name in names:
            if '/src/' in name and name.endswith('.rt'):
                text = subprocess.run(['git', '-C', top, 'show', f'{args[0]}:{name}'],
                                      capture_output=True, text=True, check=True).stdout
                yield name[len('crates/'):], text
    else:
        for path in sorted(top.glob('crates/*/src/**/*.rt')):
            yield str(path.relative_to(top / 'crates')), path.read_text()


files = dict(sources())


def code(text):
    """The text without comments and ghost lines."""
    keep = [l for l in text.split('\n')
            if not re.match(r'\s*(//|ghost |ensures|requires)', l)]
    return '\n'.join(keep)


def hits(pattern, flags=0):
    found = []
    for name, text in files.items():
        body = code(text)
        for m in re.finditer(pattern, body, flags):
            found.append(f'{name}: {" ".join(m.group(0).split())[:110]}')
    return found


def functions():
    """Each function as (file, name, parameters, clauses)."""
    for name, text in files.items():
        for m in re.finditer(r'\bfn (\w+)[^(]*?\(', text):
            depth, i = 1, m.end()
            while i < len(text) and depth:
                depth += {'(': 1, ')': -1}.get(text[i], 0)
                i += 1
            params = text[m.end():i - 1]
            rest = text[i:]
            stop = re.search(r'\bfn \w', rest)
            clauses = re.findall(r'(?:requires|ensures)[^{]*\{ (.*) \}', rest[:stop.start() if stop else None])
            yield name, m.group(1), re.findall(r'(\w+):', params), clauses


def travelling(group):
    return [f'{n}: {f}' for n, f, ps, _ in functions() if all(p in ps for p in group)]


def repeated():
    """Facts that stand in the clauses of three functions or more, whatever the book or list is called."""
    seen = {}
    for name, fn, _, clauses in functions():
        for c in clauses:
            c = re.sub(r'\b[A-Z]\.(Q\.)?(Book|Records|Quantity|ReserveQuantity)\.', '', c)
            c = re.sub(r'\b[OBL]\.(?=[a-z])', '', c)
            c = re.sub(r'\b(self|book|obligations|requests|list|rows|records|slots)\.', 'x.', c)
            seen.setdefault(c, set()).add(f'{name}: {fn}')
    return [f'{len(v)} functions: {c[:90]}' for c, v in seen.items() if len(v) >= 3 and len(c) > 12]


def named(*names):
    return [f'{f}: {n}' for n in names for f, t in files.items()
            if re.search(r'(struct|enum|trait|fn|mod) ' + n + r'\b', t)]


def crate(*names):
    return [n for n in names if any(f.startswith(n + '/') for f in files)]


POINTS = [
    ('1 hand-written ?', hits(r'if let Err\((\w+)\) = [^{]*\{\s*return Err\(\1\);\s*\}')),
    ('1 is_none/is_err and a return', hits(r'if [^{]*\.is_(?:none|err)\(\) \{\s*return')),
    ('1 enums of the shape of Option or Result', [x for x in named('Admission', 'Answer') if 'enum' not in x]),
    ('1 a flag beside its value', hits(r'limited: bool,\s*limits')),
    ('2 crates that are twins', crate('span_changes') and ['span_moves, span_changes']),
    ('2 refusals that are twins', named('LimitRefusal', 'SpanRefusal')),
    ('2 lent and stored', named('StoredFullBook', 'StoredSparseBook', 'StoredList')),
    ('2 inherent calls beside a trait that only passes them on', hits(r'fn \w+\([^)]*\)[^{]*\{\s*self\.(?:len|capacity|get|set|push)\([^)]*\)\s*\}')),
    ('2 raise and lower of records', named('raise_records', 'lower_records')),
    ('2 stages', named('first_gate', 'second_gate') + hits(r'impl (?:Announcing|Reconciling|Intraday) \{\s*pub fn (?:day|announce)')),
    ('2 quantities', [x for x in named('Volume', 'Band') if x.startswith('quantity/')]),
    ('2 programs', [f for f, t in files.items() if re.search(r'fn run\(rt: &HostRuntime\)', t)]),
    ('2 numbers read from words', [x for x in named('small', 'tenths', 'places', 'limit') if x.startswith('script/')]),
    ('2 helpers of tests', [x for x in named('tenths', 'cents', 'raise', 'lower') if re.search('_tests/src/(volumes|lent|balances|full_books)', x)]),
    ('3 loops over an index', hits(r'for (?:i|place|\(i, slot\)) in [^{]*\{')),
    ('3 loops that search or count', hits(r'for [^{]*\{\s*if [^{]*\{\s*(?:return|free \+= 1)') + hits(r'for [^{]*\{\s*(?:count|free) \+= ')),
    ('4 fields copied one by one', hits(r'(\w+): (\w+)\.\1,\s*(\w+): \2\.\3,')),
    ('4 equality by fields', hits(r'(\w+)\.(\w+) == (\w+)\.\2\b')),
    ('4 Some(x) => x, None => y', hits(r'Some\((\w+)\) => \1,\s*None => ')),
    ('4 a match that gives true and false', hits(r'=> (?:true|false),[^}]*=> (?:true|false),')),
    ('4 words read or printed by a match', hits(r'"\w+" => Ok\(') + hits(r'=> println!\(rt; "[a-z ]+[^"]*"\)')),
    ('5 facts of three or more contracts', repeated()),
    ('5 provider, first, last', travelling(['provider', 'first', 'last'])),
    ('5 giver, taker, first, last', travelling(['giver', 'taker', 'first', 'last'])),
    ('5 provider, quarter', travelling(['provider', 'quarter'])),
    ('5 provider, block, quantity', travelling(['provider', 'block', 'quantity'])),
    ('5 quarters, block', travelling(['quarters', 'block'])),
    ('5 supply, heap', travelling(['supply', 'heap'])),
    ('5 rt, choice or tally', travelling(['rt', 'tally'])),
    ('6 a buffer with a length beside', hits(r'(?:slots|values): [^\n]*\n\s*(?:pub )?(?:used|count): usize')),
    ('6 parallel arrays', hits(r'\w+: \[[^\n]*; 32\],\s*(?:pub\(crate\) )?\w+: \[[^\n]*; 32\]')),
    ('7 a switch on a step', hits(r'match (?:change|joining|gate) \{')),
]


def main():
    for label, found in POINTS:
        found = found or []
        print(f'{len(found):4}  {label}')
        if verbose:
            for f in found:
                print(f'        {f}')


main()
