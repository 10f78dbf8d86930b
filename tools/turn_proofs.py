#!/usr/bin/env python3
"""Writes each Proof.antt anew as Invariants.antt and Answers.antt, once.

usage: turn_proofs.py LANDED NAMES CRATE..      (from the project's root)

LANDED is a checkout of the commit before the port, whose goals have their first names; NAMES/CRATE/names.json is what
`rattle check --generated NAMES/CRATE --old-names` wrote. An answer that only asks for the search is left out. A path through
the steps keeps its last step, by today's name. Proofs that walk the code (lts, Code) stay.
"""
import json, os, re, sys, glob

WORD = r'[^\s(){}.;,@"«»\[\]]+'
PARAM = r'[^\s(){}.;,@"«»\[\]=]+'
plain = lambda s: re.sub('-+', '-', s.replace('_', '-')).lower()


def read(path):
    with open(path, encoding='utf-8') as f:
        return f.read()


def blocks(text):
    """The top of the file, its `use` lines, and its declarations, each with the comment lines above it."""
    head, uses, decls, said = [], [], [], []
    for line in text.rstrip('\n').split('\n'):
        if re.match(r'use ', line):
            uses.append(line)
        elif line.startswith('--'):
            (said if uses else head).append(line)
        elif line == '':
            if decls and not said:
                decls[-1][1].append('')
        else:
            m = re.match(r'((?:(?:abbrev|pub|unfoldable|record|data|mutual) )*)(' + WORD + r')', line)
            if line[0] not in ' \t)' and re.match(r'((?:(?:abbrev|pub|unfoldable) )*)(' + WORD + r')((?: \{[^{}]*\}| \([^()]*\))*) ?:(\s|$)', line) or re.match(r'(abbrev |pub |unfoldable )*(record|data) ', line):
                name = re.match(r'(?:(?:abbrev|pub|unfoldable|record|data) )*(' + WORD + ')', line).group(1)
                decls.append([name, said + [line]])
                said = []
            else:
                decls[-1][1].extend(said + [line])
                said = []
    for d in decls:
        while d[1] and d[1][-1] == '':
            d[1].pop()
    return head, uses, decls


def needs(text):
    """Each answer's name with its goal's name."""
    return re.findall(r'(?m)^(' + WORD + r') :\s+tie\.Need-(' + WORD + r')', text)


class Names:
    def __init__(self, json_of):
        self.needs = {plain(a): b for a, b in json_of['needs']}
        self.fields, self.arms, self.places, self.typed = {}, {}, {}, {}
        for (old, parent, (a, b), _, _), new, arm, typed in zip(json_of['places'], json_of['places_by_name'], json_of['arms'], json_of['typed']):
            self.places[plain(old)] = new
            if a:
                self.fields.setdefault(plain(a), b)
            if arm:
                name, _, rows = arm
                for field, step, path in rows:
                    if path:
                        self.arms.setdefault((plain(step), *map(str, path)), (name, field))
            for value, step in typed:
                self.typed[plain(step)] = value
        self.asked = {b for _, b in json_of['asked_at']}
        self.loops = {}
        for ((a, b), variables), changed in zip(json_of['loops'], json_of['changed']):
            self.loops[plain(a)] = (b, variables, changed)

    def path(self, parts, answer):
        """A path through the steps, by today's names; of an answer, by the name of its argument."""
        head, rest = parts[0], parts[1:]
        befores = 0
        while rest and rest[0] == 'before':
            rest, befores = rest[1:], befores + 1
        if not rest:
            return parts
        step = plain(rest[0])
        if step not in self.fields and step.endswith('-lem'):  # a step that the names' script took for a lemma
            step = step[:-4]
        for n in (3, 2, 1):
            key = (step, *rest[1:1 + n])
            if len(rest) >= 1 + n and key in self.arms:
                name, field = self.arms[key]
                return [head, name, field, *rest[1 + n:]]
        if answer and step in self.typed and len(rest) > 1 and rest[1] == 'given':
            return [answer, 'type_inv', self.typed[step], *rest[2:]]
        if step in self.fields:
            return [head, self.fields[step], *rest[1:]]
        if rest[0] in ('type_inv',) and answer:
            return [answer, *rest]
        if rest[0] in ('args', 'requires', 'ranges', 'well_formed', 'lifetimes'):
            return [head, *rest]
        return parts


def others(body):
    """The variables that a `let` binds to what is no place of the code."""
    found, places = set(), set()
    for name, bound in re.findall(r'let (' + WORD + r') = ([^\n]*?) in(?=\s|$)', body):
        if re.fullmatch(WORD + r'(\.before)*', bound) and bound.split('.')[0] not in found:
            places.add(name)
        else:
            found.add(name)
    return found


def turn_paths(line, names, none, answer):
    def one(m):
        parts = m.group(0).split('.')
        return m.group(0) if parts[0] in none else '.'.join(names.path(parts, answer))
    code, *said = re.split(r'(?:(?<=\s)|^)--', line, maxsplit=1)
    code = re.sub(r'(?<![^\s(){},;\[\]])(?:(?!tie\.)[^\s(){}.;,@"«»\[\]λ]+)(?:\.' + WORD + r')+', one, code)
    return code + ('--' + said[0] if said else '')


def loop_of(name, names):
    m = re.match(r'(invariant|decreases)-(.*)', name)
    return (m.group(1), *names.loops[plain(m.group(2))]) if m and plain(m.group(2)) in names.loops else None


def turn_loop(name, lines, names):
    kind, new, variables, changed = loop_of(name, names)
    text = '\n'.join(lines)
    m = re.search(r'(?m)^' + re.escape(name) + r' ((?:' + WORD + r' )*)=', text)
    params = m.group(1).split()
    later = [v for v, c in zip(variables, changed) if c]
    rows = {}
    if len(params) == len(variables) + len(later):
        for p, v, c in zip(params, variables, changed):
            rows[p] = f'l.initial.{v}' if c else f'l.{v}'
        for p, v in zip(params[len(variables):], later):
            rows[p] = f'l.{v}'
    else:  # values with no name of the source stand among them
        for v in variables:
            rows[v], rows[v + '₀'] = f'l.{v}', f'l.initial.{v}'
    rows.pop('_', None)
    body = re.sub(r'(?<![^\s(){},;@\[\]¬])' + WORD, lambda w: rows.get(w.group(), w.group()), text[m.end():])
    label = f'{kind}-{new}'
    before = [l for l in text[:m.start()].split('\n')[:-1]]
    before = [re.sub(r'^(abbrev )?(pub )?' + re.escape(name) + r' :\s+tie\.\S+', f'abbrev pub {label} : goal.{label}', l) for l in before]
    return label, '\n'.join(before + [f'{label} l ={body}'])


def inlined(answers):
    """What speaks of a place of the code as a `let` of each answer that cites it, since each answer's own argument has all that the places before it have."""
    helpers, rest, stuck = {}, [], []
    for text in answers:
        m = re.match(r'(?:--.*\n)*(?:abbrev )?(' + WORD + r') :\s+\((' + WORD + r') : (?:tie|goal)\.[^()]*\)', text)
        if not m:
            rest.append(text)
            continue
        name, var = m.group(1), m.group(2)
        e = re.search(r'(?m)^' + re.escape(name) + ' ' + WORD + r'((?: ' + PARAM + r')*) =', text)
        own = e and re.match(re.escape(name) + ' (' + WORD + ')', e.group(0)).group(1)
        if not e or re.search(r'(?m)^(  where| *where)$', text) or len(re.findall(r'(?m)^' + re.escape(name) + ' ', text)) != 2:
            stuck.append(name)
            rest.append(text)
            continue
        kind = re.sub(r'(?m)^(unfolding .*|--.*)\n?', '', text[m.end():e.start()]).strip()
        kind = re.sub(r'^→\s+', '', kind)
        unfolding = re.findall(r'(?m)^unfolding (.*)$', text[:e.start()])
        term = text[e.end():].strip()
        if e.group(1):
            term = 'λ' + e.group(1) + '. ' + term
        hidden = re.match(r'\{(' + WORD + r') : ([^{}]*)\} → ', kind)
        if hidden:  # a `let` has no hidden argument
            kind = f'({hidden.group(1)} : {hidden.group(2)}) → ' + kind[hidden.end():]
            term = 'λ _ ' + term[2:] if term.startswith('λ ') else f'λ _. {term}'
        helpers[name] = ((var, own), kind, term, unfolding, bool(hidden))
    out = []

    def one_place(text, arg):
        """Each path from a place before is one from the answer's own."""
        places = [arg]
        for n, bound in re.findall(r'let (' + PARAM + r') = (' + PARAM + r'(?:\.before)*) in(?=\s|$)', text):
            if bound.split('.')[0] in places and n not in places:
                places.append(n)
        for n in places[1:]:
            text = re.sub(r'(?m)^ *let ' + re.escape(n) + r' = ' + PARAM + r'(?:\.before)* in\n', '', text)
            text = re.sub(r'let ' + re.escape(n) + r' = ' + PARAM + r'(?:\.before)* in ', '', text)
            text = re.sub(r'let ' + re.escape(n) + r' = ' + PARAM + r'(?:\.before)* in\n *', '', text)
            text = re.sub(r'(?<![^\s(){},;\[\]])' + re.escape(n) + r'(?=[.\s(){},;]|$)', arg, text)
        text = re.sub(r'(?<![^\s(){},;\[\]])' + re.escape(arg) + r'(?:\.before)+\.', arg + '.', text)
        return re.sub(r'not-(?:true|false) _ (?:\((' + PARAM + r'\.if-not-' + PARAM + r'\.(?:true|false))\)|(' + PARAM + r'\.if-not-' + PARAM + r'\.(?:true|false)))', lambda m: m.group(1) or m.group(2), text)

    for text in rest:
        m = re.search(r'(?m)^pub (' + WORD + r') : goal\.', text)
        e = m and re.search(r'(?m)^' + re.escape(m.group(1)) + ' (' + PARAM + r')((?: ' + PARAM + r')*) =', text)
        if not e:
            out.append(text)
            continue
        arg = e.group(1)
        cite = lambda s, n: re.search(r'(?<![^\s(){},;])' + re.escape(n) + r'(?![^\s(){},;.])', s)
        order = []

        def visit(n):
            for k in helpers:
                if k != n and k not in order and cite(helpers[n][1] + ' ' + helpers[n][2], k):
                    visit(k)
            order.append(n)
        body = text[e.end():]
        for n in helpers:
            if n not in order and cite(body, n):
                visit(n)
        if not order:
            out.append(text[:e.end()] + one_place(body, arg))
            continue

        def drop(s):
            for n in order:
                s = re.sub(r'(?<![^\s(){},;])' + re.escape(n) + r' (?:\(' + PARAM + r'(?:\.before)*\)|' + PARAM + r'(?:\.before)*)(?![^\s(){},;])', n + (' _' if helpers[n][4] else ''), s)
                s = s.replace(f'({n})', n)
            return s
        lets = []
        unfold = []
        for n in order:
            (var, own), kind, term, u, _ = helpers[n]
            put = lambda s, v: re.sub(r'(?<![^\s(){},;\[\]])' + re.escape(v) + r'(?![^\s(){},;.\[\]])', arg, s)
            deeper = lambda s: s.replace('\n', '\n    ')
            flat = lambda s: re.sub(r'\s*\n\s*', ' ', s)
            lets.append(f'    let {n} : {flat(put(drop(kind), var))} = {deeper(put(drop(term), own))} in')
            unfold += [w for x in u for w in x.split() if w not in unfold]
        front = text[:e.start()]
        if unfold:
            had = re.search(r'(?m)^unfolding (.*)$', front)
            new = [w for w in unfold if not had or w not in had.group(1).split()]
            front = re.sub(r'(?m)^unfolding (.*)$', lambda m: 'unfolding ' + ' '.join([m.group(1), *new]), front) if had else front + 'unfolding ' + ' '.join(new) + '\n'
        body = drop(body)
        if not body.startswith('\n'):
            body = '\n    ' + body.strip()
        out.append(front + text[e.start():e.end()] + one_place('\n' + '\n'.join(lets) + body, arg))
    return out, stuck


def snake(name):
    for _ in range(2):
        name = re.sub(r'([a-z0-9])([A-Z])', lambda m: m.group(1) + '_' + m.group(2).lower(), name)
    return name.replace('-', '_') if not re.search('[A-Z]', name) else name


def convert(landed, path, json_of):
    text = read(path)
    if re.search(r'(?<![\w-])(lts|code)\.', text) or 'Statement as stated' in text:
        return f'left: {path}: a walk'
    names = Names(json_of)
    old_needs = needs(read(os.path.join(landed, path)))
    new_needs = needs(text)
    if len(old_needs) != len(new_needs):
        return f'left: {path}: {len(old_needs)} goals before, {len(new_needs)} now'
    goals, left = {}, []
    for (_, old), (name, now) in zip(old_needs, new_needs):
        keys = [plain(k) for k in (now, old)]
        for a, b in (('holds', 'init'), ('less', 'smaller'), ('again', 'preserved')):
            keys += [re.sub(f'-{a}$', f'-{b}', k) for k in keys]
        keys += [re.sub('^(overflow|slice-bounds|bounds|nonzero)-', '', k) for k in keys]
        key = next((k for k in keys if k in names.needs), None)
        if key is None:
            goals[name] = None
            left.append(f'gone: {path}: the goal {old}')
        else:
            goals[name] = names.needs[key]
    head, uses, decls = blocks(text)
    module = re.search(r'use (Rattle\.\S+)\.Tie as tie', text).group(1)
    uses = [u for u in uses if not u.startswith(module + '.') and not u.startswith('use ' + module + '.')]
    # helpers in snake case
    taken = set(re.findall(WORD, text))
    own = {}
    for name, lines in decls:
        if name in goals or loop_of(name, names):
            continue
        new = snake(name)
        if new != name and new not in taken:
            own[name] = new
    for local in re.findall(r'(?m)^ +(' + WORD + r')(?: \{[^{}\n]*\})* : ', text):
        new = snake(local)
        if new != local and new not in taken and local not in goals and not any(re.search(r'[{ ,]' + re.escape(local) + r'[,}]', u) for u in uses):
            own[local] = new
    bodies = {}
    for name, lines in decls:
        bodies[name] = '\n'.join(lines)
    used = lambda name, but: any(re.search(r'(?<![^\s(){},;])' + re.escape(name) + r'(?![^\s(){},;])', b) for n, b in bodies.items() if n not in but)
    end = [n for n, b in bodies.items() if 'tie.close' in b or 'tie.spec' in b]
    invariants, answers = [], []
    wanted = set()
    rename = {**{n: g for n, g in goals.items() if g}, **own}

    inner = set()

    def place(m):
        new = names.places.get(plain(m.group(1)), m.group(1))
        if new in names.asked or m.group(1).startswith('Need-'):
            return 'goal.' + new
        loops = re.findall('(invariant|decreases)-(' + WORD + ')', m.group(2))
        labels = [f'{kind}-{names.loops[plain(loop)][0]}' for kind, loop in loops]
        inner.update(labels, ['tie'])
        return ' '.join(['tie.' + new, *labels])

    def turned(name, body):
        none = others(body)
        answer = re.search(r'(?m)^' + re.escape(name) + r' (' + WORD + r')(?: κs| _)? =', body) if name in goals else None
        body = '\n'.join(turn_paths(l, names, none, answer and answer.group(1)) for l in body.split('\n'))
        body = re.sub(r'tie\.(' + WORD + r')((?: (?:invariant|decreases)-' + WORD + ')*)', place, body)
        return re.sub(r'(?<![^\s(){},;@\[\]λ])' + WORD, lambda m: rename.get(m.group(), m.group()), body)

    loop_texts = {}
    for name, body in bodies.items():
        if loop_of(name, names):
            try:
                loop_texts[name] = turn_loop(name, body.split('\n'), names)[1]
            except (ValueError, AttributeError) as e:
                left.append(f'left: {path}: {e}')
                loop_texts[name] = body
    # helpers that the invariants cite go with them
    more = list(loop_texts.values())
    while more:
        t = more.pop()
        for n, b in bodies.items():
            if n not in goals and n not in loop_texts and n not in end and n not in wanted and re.search(r'(?<![^\s(){},;])' + re.escape(n) + r'(?![^\s(){},;])', t):
                wanted.add(n)
                more.append(b)
    for name, body in bodies.items():
        if name in end:
            continue
        if name in loop_texts:
            t = loop_texts[name]
            t = re.sub(r'(?<![^\s(){},;@\[\]λ])' + WORD, lambda m: own.get(m.group(), m.group()), t)
            invariants.append(t)
        elif name in goals and goals[name] is None and 'search rules' in body:
            continue
        elif name in goals:
            code = re.sub(r'(?m)^(--.*|unfolding .*)\n', '', body)
            lines = code.split('\n')
            trivial = re.fullmatch(re.escape(name) + r' :\s+tie\.[^\n]*(?:\n +[^\n]*)*?\n' + re.escape(name) + r' [^=]*= search rules', code)
            if trivial and not used(name, {name, *end}):
                continue
            t = turned(name, body)
            new = goals[name] or name
            t = re.sub(r'(?m)^' + re.escape(new) + r' :\s+goal\.' + WORD, f'pub {new} : goal.{new}', t, count=1)
            t = re.sub(r'(?m)^(' + re.escape(new) + r' ' + WORD + r') κs =', r'\1 =', t)
            t = re.sub(r'(?m)^(' + re.escape(new) + r' ' + WORD + r') _ =', r'\1 =', t)
            answers.append(t)
        elif name in wanted:
            t = turned(name, body)
            if not re.search(r'(?m)^(abbrev |unfoldable )?pub ', t):
                t = re.sub(r'(?m)^((?:abbrev |unfoldable )?)(?=' + re.escape(own.get(name, name)) + ' )', r'\1pub ', t, count=1)
            invariants.append(t)
        else:
            answers.append(turned(name, body))
    answers, stuck = inlined(answers)
    left += [f'left: {path}: {h} stays over a place' for h in stuck]
    if not any('tie.' in a for a in answers):
        inner.clear()
    folder = os.path.dirname(path)
    said = head
    if invariants:
        with open(os.path.join(folder, 'Invariants.antt'), 'w', encoding='utf-8') as f:
            f.write('\n'.join(said + uses + [f'use {module}.Given as goal', '']) + '\n' + '\n\n'.join(invariants) + '\n')
    if answers:
        cited = sorted(inner - {'tie'}) + [own.get(n, n) for n in bodies if n in wanted]
        extra = [f'use {module}.Invariants.{{{", ".join(cited)}}}'] if cited else []
        extra += [f'use {module}.Tie as tie'] if 'tie' in inner else []
        with open(os.path.join(folder, 'Answers.antt'), 'w', encoding='utf-8') as f:
            f.write('\n'.join(said + uses + extra + [f'use {module}.Goals as goal', '']) + '\n' + '\n\n'.join(answers) + '\n')
    os.remove(path)
    return '\n'.join(left)


def main():
    landed, where, *crates = sys.argv[1:]
    for crate in crates:
        with open(f'{where}/{crate}/names.json', encoding='utf-8') as f:
            table = json.load(f)
        for path in sorted(glob.glob(f'crates/{crate}/proofs/**/Proof.antt', recursive=True)):
            inner = os.path.dirname(path).split('/proofs/', 1)[1].replace('/', '.')
            key = f'Rattle-{crate}-proofs.{inner}.Lts'
            if key not in table:
                print(f'left: {path}: no names')
                continue
            try:
                said = convert(landed, path, table[key])
            except Exception as e:
                said = f'left: {path}: {type(e).__name__} {e}'
            if said:
                print(said)


main()
