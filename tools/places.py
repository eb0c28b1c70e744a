# Lists places of crates/*/src by their form, and how many there are of each.
# usage: python3 tools/places.py [FOLDER] (the top of a checkout; here if none is named); -c prints the counts alone
import collections
import glob
import os
import re
import sys

args = [a for a in sys.argv[1:] if a != '-c']
top = args[0] if args else '.'
sources = sorted(glob.glob(os.path.join(top, 'crates/*/src/**/*.rt'), recursive=True))
texts = {f: open(f).read() for f in sources}
short = {f: os.path.relpath(f, os.path.join(top, 'crates')) for f in sources}


def lines(pattern, but=None):
    return [f'{short[f]}:{i}: {l.strip()}' for f in sources for i, l in enumerate(texts[f].split('\n'), 1)
            if re.search(pattern, l) and not (but and re.search(but, l)) and not l.strip().startswith('//')]


def blocks(pattern):
    return [f'{short[f]}:{texts[f].count(chr(10), 0, m.start()) + 1}: {m.group(1)}' for f in sources for m in re.finditer(pattern, texts[f])]


def parameters(least):
    out = []
    for f in sources:
        for m in re.finditer(r'\bfn (\w+)(?:<[^(]*>)?\(([^)]*)\)', texts[f]):
            names = re.findall(r'(?:^|,)\s*(?:mut )?(\w+)\s*:|&(?:mut )?self|\bself\b', m.group(2))
            if len(names) >= least:
                out.append(f'{short[f]}: {m.group(1)} takes {len(names)}')
    return out


def twins():
    where = collections.defaultdict(set)
    for f in sources:
        for m in re.finditer(r'\bfn (\w+)', texts[f]):
            if not re.search(r'^impl[^\n]* for ', texts[f][:m.start()].rsplit('\n}\n', 1)[-1], re.M):
                where[m.group(1)].add(short[f])
    return [f'{n}: {", ".join(sorted(w))}' for n, w in sorted(where.items()) if len(w) > 1 and n not in ('main', 'run')]


def facts():
    where = collections.Counter()
    for f in sources:
        for m in re.finditer(r'(?:requires|ensures)(?: \w+)? \{([^\n]*)\}', texts[f]):
            said = m.group(1)
            premises = [said] if m.group(0).startswith('requires') else re.findall(r'([^→{]+) →', said)
            for w in set(re.findall(r'\b([A-Z]\w+) [a-z]', ' '.join(premises))):
                where[w] += 1
    return [f'{w}: asked in {n} clauses' for w, n in where.most_common() if n > 2]


def answers():
    files = glob.glob(os.path.join(top, 'crates/*/proofs/**/*.antt'), recursive=True)
    goals = sum(len(re.findall(r'^pub [^\n]* : goal\.', open(f).read(), re.M)) for f in files)
    lemmas = [f for f in files if os.path.basename(f) not in ('Answers.antt', 'Invariants.antt', 'Lib.antt')]
    return [f'answers to goals: {goals}', f'files of lemmas: {len(lemmas)}, lines in them: {sum(open(f).read().count(chr(10)) for f in lemmas)}']


rewraps = r'None => None|Some\(\w+\) => Some\(|Ok\((\w+)\) => Ok\(|Ok\(\(\)\) => (Ok|\{\}|done)|Err\(\w+\) => (return )?(Err|None|\w+,)|if let Err\(|None => unreachable'
forms = [
    ('1 enums', lines(r'^(pub |pub\(crate\) )?enum ')),
    ('1 fields that are flags', lines(r'^ +(pub )?\w+: bool,')),
    ('1 arms that only wrap again', lines(rewraps)),
    ('1 answers thrown away', lines(r'let _ = ')),
    ('1 numbers answered for nothing', blocks(r'fn (\w+)[^{}]*-> u8\n(?:    ensures [^\n]*\n)+\{\n    0\n\}')),
    ('2 functions of one name in several files', twins()),
    ('3 loops over numbers, and while', lines(r'\bwhile |^ *(\'\w+: )?for \w+ in [^{]*\.\.')),
    ('3 counts by hand', lines(r'\w+ (\+=|-=) 1\b|= \w+\.saturating_add\(1\)|\.enumerate\(\)')),
    ('4 impls that a derive may give', lines(r'^impl.*\b(PartialEq|Eq|PartialOrd|Ord|Clone|Copy|Default)\b.* for ')),
    ('4 texts made from parts', lines(r'(format|print|println|eprintln)!\(')),
    ('4 words and numbers turned by match', lines(r'-> (&\'static str|Option<Kind>|char)')),
    ('5 functions of five parameters and more', parameters(5)),
    ('5 facts asked in three clauses and more', facts()),
    ('6 lengths and counts beside a buffer', lines(r'^ +(pub(\(crate\))? )?(count|len|\w*bits): usize,|^ +(pub(\(crate\))? )?\w+: \[\w+; \w+\],')),
    ('6 searches of sorted lists', lines(r'binary_search|partition_point')),
    ('7 switches on a kind', lines(r'match \*?(\w+\.)*(kind|film|call|command)\b(?!\()')),
    ('8 proofs', answers()),
]
for name, found in forms:
    print(f'{name}: {len(found)}' if not name.startswith('8') else f'{name}: {"; ".join(found)}')
    if '-c' not in sys.argv and not name.startswith('8'):
        for f in found:
            print('  ' + f)
