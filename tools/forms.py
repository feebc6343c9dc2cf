"""Counts the older forms in src/ and what stands of proofs: python3 tools/forms.py [-v] [ROOT]

One row for each point of docs/DESIGN-PASS.md; with -v the places too. It looks at text alone: a place that it counts may be there for a reason
(the page says which), and what a person has to judge (point 7) it only lists."""
import re, sys
from collections import Counter
from pathlib import Path

verbose = '-v' in sys.argv
roots = [a for a in sys.argv[1:] if a != '-v']
root = Path(roots[0] if roots else '.')
files = {p: p.read_text() for p in sorted(root.glob('crates/*/src/*.rt'))}
FN = re.compile(r'^( *)(?:pub )?(?:extern "C" )?fn (\w+)(?:<[^>]*>)?\((.*?)\)\s*(?:-> ([^\n{]+?))?\s*(?=\n|\{)', re.M | re.S)
crate = lambda p: p.parts[len(root.parts) + 1] if p.is_relative_to(root) else p.parts[1]


def functions():
    for p, s in files.items():
        for m in FN.finditer(s):
            end = s.find('\n' + m[1] + '}', m.end())
            params = [a for a in re.split(r',\s*(?![^\[<]*[\]>])', m[3].strip().rstrip(',')) if a and 'self' not in a]
            yield crate(p), m[2], params, (m[4] or '').strip(), s[m.end():end]


def types(word):
    for p, s in files.items():
        for m in re.finditer(r'^(?:pub )?%s (\w+)[^{;]*\{(.*?)^\}' % word, s, re.M | re.S):
            yield crate(p), m[1], m[2]


def tell(point, what, places):
    places = list(places)
    print(f'{point}  {len(places):4}  {what}')
    if verbose:
        for x in places:
            print('           ' + ' '.join(map(str, x)) if isinstance(x, tuple) else '           ' + str(x))


fns = list(functions())
flag = re.compile(r'^ *(?:pub )?(found|done|poss|refused|answer): ', re.M)
tell('1a', 'own enums of the shape of Option or Result',
     ((c, n) for c, n, b in types('enum') if re.search(r'^ *(Nothing|Out|Accepted|Done)\b', b, re.M)))
tell('1b', 'structs with a flag, a refusal or a number for none beside values', ((c, n) for c, n, b in types('struct') if flag.search(b)))
tell('1c', 'functions that reply a number for a refusal, 0 for none',
     ((c, n) for c, n, a, r, b in fns if r in ('u8', 'u16', 'usize') and re.search(r'fault|refusal|^scan|^next$|^of_record$|^check|^with_l|level_bits|^number$', n)
      and n not in ('next_place',)))
tell('1d', 'fields that hold a refusal or its number as a number', ((p.name, m[0].strip()) for p, s in files.items() for m in re.finditer(r'^ *pub (number|refused): u\d+,', s, re.M)
      if 'level' not in s[m.end():m.end() + 40]))
tell('1e', 'functions that reply a length, 0 for none', ((c, n) for c, n, a, r, b in fns if r == 'usize' and c in ('text', 'reply') and n in ('refused', 'verdicts', 'put_line', 'answer', 'print')))
names = Counter(n for c, n, *_ in fns if n not in ('main', 'from', 'try_from', 'fmt', 'new', 'eq'))
tell('2a', 'functions of one name in several files', ((n, ', '.join(c for c, m, *_ in fns if m == n)) for n, k in sorted(names.items()) if k > 1))
consts = Counter(m[1] for s in files.values() for m in re.finditer(r'^(?:pub )?const (\w+):', s, re.M))
tell('2b', 'constants of one name in several files', (n for n, k in consts.items() if k > 1))
tell('2c', 'element or 0: the same function for another type', ((c, n) for c, n, a, r, b in fns if re.search(r'if i < \w+\.len\(\) \{\s*return .*\[i\]', b)))
tell('3 ', 'loops that count by hand', ((p.parent.parent.name + '/' + p.name, m[0].strip()) for p, s in files.items() for m in re.finditer(r'^ *(while|loop)\b.*', s, re.M)))
tell('4a', 'least, greatest or difference written by hand',
     ((c, n) for c, n, a, r, b in fns if re.fullmatch(r'.*?\{\s*if [\w.]+ < [\w.]+ \{\s*return [\w.]+;\s*\}\s*[\w. -]+\s*', b, re.S) and len(b) < 200))
tell('4b', 'conversions and comparisons written by hand', ((c, n) for c, n, *_ in fns if n in ('source_of', 'raised', 'lowered', 'wide', 'refusal', 'refused', 'length_of', 'level_bits')
      and c not in ('text', 'engine')))
tell('4c', 'plain types without Debug, PartialEq or Eq',
     ((p.parent.parent.name, m[2]) for p, s in files.items() for m in re.finditer(r'#\[derive\((.*?)\)\]\n(?:pub )?(?:struct|enum) (\w+)', s) if 'Debug' not in m[1]))
tell('5a', 'functions with six parameters or more', ((c, n, len(a)) for c, n, a, r, b in fns if len(a) >= 6))
tell('5b', 'clauses that bound lead or the width of a count', ((c, n) for c, n, a, r, b in fns if re.search(r'requires \{[^}]*\((lead|w) ≤ [89]\)', b)))
tell('6 ', 'buffers with a length beside', [(c, n) for c, n, b in types('struct') if re.search(r'bytes: \[u8; \d+\]', b)]
     + [(c, n) for c, n, a, r, b in fns if re.search(r'&\[u8\], k: usize|&\[u16\], k: usize|text: &\[u8\], n', ', '.join(x.strip() for x in a))])
tell('7 ', 'matches on which step to run (to be judged: what they choose between)', ((c, n) for c, n, a, r, b in fns if re.search(r'match \w*(step|state|mode|op)\b', b)))
answers = [m[0] for p in root.glob('crates/*/proofs/**/Answers.antt') for m in re.finditer(r'^pub [\w.-]+ : goal\.', p.read_text(), re.M)]
lemmas = [p for p in root.glob('crates/*/proofs/*.antt') if p.name != 'Lib.antt']
print(f'8   {len(answers):4}  answers, {sum(len(p.read_text().splitlines()) for p in root.glob("crates/*/proofs/**/Answers.antt"))} lines; '
      f'{len(lemmas)} files of lemmas, {sum(len(p.read_text().splitlines()) for p in lemmas)} lines')
