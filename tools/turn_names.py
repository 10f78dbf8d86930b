#!/usr/bin/env python3
"""Spells the names of this repository's definitions and lemmas anew, once, on the texts that the kit's port.py left.

usage: turn_names.py [--table]      (from the project's root; --table only prints the rows)

A definition of specs/ or a lemma of proofs/ is in snake case: camel case goes, and a dash goes but between two names (a
definition of specs/ or a word of the library). A lemma that would have its function's name gets `_lem`. Types, modules and
facts keep their capitals, and the names of functions, fields and parameters of src/ stay. What only a Proof.antt declares
stays too: turn_proofs.py writes those files anew.
It reads the declarations of the tree that it stands in, so that it gives the same rows on the same tree; the rows are in
tools/names.tsv after a run, each with the crates that declare the name.
"""
import collections, glob, os, re, sys

WORD = r'[^\s(){}.;,@"«»]+'
LIBRARY = set('std core io libc os'.split())
PLAIN = set('length take drop set get_or append replicate map sum count min max add mul sub mod div zero suc cond eqb leb ltb'.split())


def read(path):
    with open(path, encoding='utf-8') as f:
        return f.read()


def texts(*ends):
    found = []
    for part in ('specs', 'proofs', 'src'):
        for end in ends:
            found += glob.glob(f'crates/*/{part}/**/*{end}', recursive=True)
    return sorted(p for p in found if '/out/' not in p)


def declared():
    """Where each name is declared, and whether in specs/."""
    where = collections.defaultdict(list)
    for path in texts('.antt'):
        for line in read(path).split('\n'):
            if line.strip().startswith('--'):
                continue
            m = re.match(r'^\s*(?:(?:pub|abbrev|unfoldable)\s+)*(?:record|data) (' + WORD + ')', line)
            m = m or re.match(r'^\s*(?:(?:pub|abbrev|unfoldable)\s+)*(' + WORD + r')(?:(?: \{[^{}\n]*\}| \([^()\n]*\))*) ?:(?: |$)', line)
            if m:
                where[m.group(1)].append(path)
    return where


def imported():
    """The names that come from the library."""
    found = set()
    for path in texts('.antt', '.rt'):
        for m in re.finditer(r'^\s*(?:ghost )?use ([^\s;{]+?)\.?(\{[^}]*\})?( as \S+)?;?$', read(path), re.M):
            parts = m.group(1).split('.')
            if not (parts[0] == 'Rattle' and parts[1] not in LIBRARY) and m.group(2):
                found.update(it.strip().split(' as ')[0] for it in m.group(2)[1:-1].split(',') if it.strip())
    return found


def snake(name):
    name = name.replace('getD', 'get_or')
    if not name[0].isupper():
        for _ in range(2):
            name = re.sub(r'([a-z0-9])([A-Z])', lambda m: m.group(1) + '_' + m.group(2).lower(), name)
    return name


def table():
    where, library = declared(), imported()
    rows = {}
    for name, paths in sorted(where.items()):
        if name in library or all(p.endswith('/Proof.antt') for p in paths) or re.match(r'(invariant|decreases)-', name):
            continue
        rows[name] = snake(name)
    known = PLAIN | {rows.get(n, n) for n, paths in where.items() if any('/specs/' in p for p in paths)}
    for name, new in rows.items():
        parts = new.split('-')
        halves = [('_'.join(parts[:i]), '_'.join(parts[i:])) for i in range(1, len(parts))]
        two = [h for h in halves if h[0] in known and h[1] in known]
        facts = ''.join(('-' if i and (parts[i - 1][:1].isupper() or p[:1].isupper()) else '_' if i else '') + p for i, p in enumerate(parts))
        rows[name] = '-'.join(two[0]) if two else facts
    # of two that would have one name, the lemma gets an ending
    by_new = collections.defaultdict(list)
    for name, new in rows.items():
        by_new[new].append(name)
    for new, names in by_new.items():
        if len(names) > 1:
            first = [n for n in names if any('/specs/' in p for p in where[n])]
            first.sort(key=lambda n: '-' in n)  # a definition before a fact
            keep = (first or [n for n in names if '-' not in n and n != new] or names)[0]
            for n in names:
                if n != keep:
                    rows[n] = new + '_lem'
    # nor does a lemma take a name of the library
    for name, new in rows.items():
        if name != new and new in library:
            rows[name] = new + '_lem'
    return {n: new for n, new in rows.items() if n != new}


def turn(text, rows, code):
    """code: a comment begins with this."""
    word = re.compile(WORD)
    span = re.compile(r'(?<![\w-])(' + '|'.join(sorted(map(re.escape, rows), key=len, reverse=True)) + r")(?![\w'-])")
    plain = re.compile(r'[a-z0-9_]+')
    out = []
    for line in text.split('\n'):
        m = re.search(r'(?:^|\s)' + code, line)
        cut = m.start() if m else len(line)
        # in src/, and behind a dot, a name of words and underscores is one of src/
        body = word.sub(lambda m: m.group() if plain.fullmatch(m.group()) and (code == '//' or line[:m.start()].endswith('.')) else rows.get(m.group(), m.group()), line[:cut])
        said = re.sub(r'`[^`\n]+`', lambda m: span.sub(lambda w: rows[w.group()], m.group()), line[cut:])
        out.append(body + said)
    return '\n'.join(out)


def main():
    rows = table()
    if '--table' not in sys.argv:
        with open('tools/names.tsv', 'w', encoding='utf-8') as f:
            where = declared()
            f.write(''.join(f"{a}\t{b}\t{' '.join(sorted({p.split('/')[1] for p in where[a]}))}\n" for a, b in sorted(rows.items())))
        for path in texts('.antt', '.rt'):
            old = read(path)
            new = turn(old, rows, '//' if path.endswith('.rt') else '--')
            if new != old:
                with open(path, 'w', encoding='utf-8') as f:
                    f.write(new)
    else:
        print('\n'.join(f'{a}\t{b}' for a, b in sorted(rows.items())))


main()
