#!/usr/bin/env python3
"""Turns the older walks of functions, proofs/F/Proof.antt with `tie.close (tie.spec ..)`, into Invariants.antt and Answers.antt.

usage: rt check --generated DIR --old-names; tools/port_proofs.py crates/NAME DIR/names.json [F..]

names.json says of each function its goals, steps, places and loops under their older and their newer names. A goal's declaration becomes
its answer, an answer by place in `tie.spec` the one of the goal that stands there, a path `c.before.before.STEP.FIELD` the path `c.STEP.FIELD`;
`search rules` and `omega arith` go, since the check tries them itself. What could not be placed is printed: `rt check` says the rest."""
import json, pathlib, re, sys
NAME = r'[^\s(){}.;,@"«»]+'

ARGS=set()
def norm(n):
    n = n.replace("_IsPlace", "_place").replace("-IsPlace", "-place")
    n = n.replace('-', '_').lower()
    return n[:-4] if n.endswith('_lem') else n

def decls(text):
    """top-level declarations: list of (comment+text) blocks; header separately"""
    lines = text.split('\n')
    head, blocks, cur, pend = [], [], None, []
    seen_decl = False
    for ln in lines:
        if not seen_decl and (ln.startswith('--') or ln.startswith('use ') or ln.startswith('pub use') or ln.strip() == ''):
            head.append(ln); continue
        seen_decl = True
        if ln and not ln[0].isspace() and not ln.startswith('--'):
            m = re.match(rf"(?:(?:pub|abbrev|unfoldable|data|record|module|mutual) *)*({NAME})", ln)
            blocks_start = bool(re.match(rf"(?:(?:pub|abbrev|unfoldable|data|record) +)*{NAME}(?: [^=]*)? :(?:\s|$)", ln)) and not ln.startswith('unfolding')
            if blocks_start or ln.startswith('module') or ln.startswith('use ') or cur is None:
                cur = pend + [ln]; pend = []
                blocks.append(cur)
            else:
                cur.extend(pend); pend = []
                cur.append(ln)
        elif ln.startswith('--'):
            pend.append(ln)
        elif ln.strip() == '':
            if cur is not None: (pend if pend else cur).append(ln)
        else:
            if pend and cur is not None:
                cur.extend(pend); pend = []
            if cur is None:
                cur = []; blocks.append(cur)
            cur.append(ln)
    # header comment lines directly above the first decl belong to it
    h = '\n'.join(head)
    return h, ['\n'.join(b).rstrip('\n') for b in blocks]

def split_args(s):
    """top-level juxtaposed arguments"""
    out, depth, cur = [], 0, ''
    i = 0
    while i < len(s):
        ch = s[i]
        if ch in '([{': depth += 1
        if ch in ')]}': depth -= 1
        if ch.isspace() and depth == 0:
            if cur: out.append(cur); cur = ''
        else:
            cur += ch
        i += 1
    if cur: out.append(cur)
    return out

class Fn:
    def __init__(self, entry):
        self.e = entry
        self.needs = {norm(o): n for o, n in entry['needs']}
        self.order = [n for o, n in entry['needs']]
        self.cls_of = {n: a[0] for (o, n), a in zip(entry['needs'], entry['asked_at'])}
        self.view = any(entry['arms']) or any(entry['typed']) or any(re.search(r'(known|told)', pl[0]) for pl in entry['places'])
        self.classes = {}
        self.places = {}
        for i, (pl, byname) in enumerate(zip(entry['places'], entry['places_by_name'])):
            self.places[pl[0]] = i
            self.classes[norm(pl[0])] = byname
        for a in entry.get('asked_at', []):
            self.classes.setdefault(norm(a[0]), a[1])
        self.old_cls = {norm(pl[0]): pl[0] for pl in entry['places']}
        self.loops = [((o, n), vars_) for (o, n), vars_ in entry['loops']]

    def chain(self, cls):
        """old step -> (new step, arm fields, callee params), along the way to a place; all places where none is given"""
        out = {}
        idx = []
        if cls in self.places:
            i = self.places[cls]
            while True:
                idx.append(i)
                parent = self.e['places'][i][1]
                if parent is None or parent not in self.places: break
                i = self.places[parent]
        else:
            idx = range(len(self.e['places']))
        for i in idx:
            pl = self.e['places'][i]
            nm = pl[2]
            if not nm or not nm[0]: continue
            key = norm(nm[0])
            out.setdefault(key, [nm[1], [], None])
            if pl[3]: out[key][2] = self.e['params'].get(pl[3])
        for i in idx:
            arm = self.e['arms'][i] if i < len(self.e['arms']) else None
            if arm:
                for new, old, path in arm[2]:
                    key = norm(old)
                    out.setdefault(key, [arm[0], [], None])
                    out[key][1].append(([norm(x) for x in path], [arm[0], new]))
        for (o, n), _ in self.loops:
            out.setdefault(norm(o), [n, [], None])
            out.setdefault(norm(o + '-test'), [n + '-test', [], None])
        return out

    def path(self, tok, steps, aliases):
        parts = [x for x in tok.split('.') if x != 'before']
        root, rest = parts[0], parts[1:]
        if not rest: return root
        out = [root]
        params = aliases.get(root)
        i = 0
        n = norm(rest[0])
        if rest[0] in ('args', 'ranges', 'type_inv', 'requires', 'ensures', 'result', 'new', 'auto', 'fits'): pass
        elif n in steps and not (root != 'c' and n in ARGS):
            new, fields, params = steps[n]
            tail = [norm(x) for x in rest[1:]]
            best = None
            for path, to in fields:
                if tail[:len(path)] == path and (best is None or len(path) > len(best[0])): best = (path, to)
            if best:
                out += best[1]; i = 1 + len(best[0])
                if len(best[1]) > 1 and best[1][1].endswith('-own'):
                    pass
            else:
                out.append(new); i = 1
        while i < len(rest):
            p = rest[i]
            prev = out[-1]
            if prev in ('args', 'ranges', 'type_inv') and not p.endswith('-end'): p = p.replace('-', '_')
            if prev == 'args' and re.fullmatch(r't\d+', p) and p not in PARAMS and int(p[1:]) <= len(PARAMS): p = PARAMS[int(p[1:]) - 1]
            if prev in ('new', 'auto') and p.isdigit() and params and int(p) < len(params):
                out.append(params[int(p)])
                if i + 1 < len(rest) and rest[i + 1] == '0': i += 1
                i += 1
                continue
            out.append(p)
            i += 1
        return '.'.join(out)

    def up(self, cls, k):
        for _ in range(k):
            if cls not in self.places: return None
            cls = self.e['places'][self.places[cls]][1]
        return cls

    def term(self, t, cls=None, goal=None):
        steps = self.chain(cls)
        aliases, where = {}, {}
        # a record of an earlier place
        def place(c, k):
            up = self.up(c, k) if c else None
            if up is None: return None
            if k == 0 and c == cls: return 'c'
            n, at = 0, c_of
            while at is not None and at != up:
                at = self.up(at, 1); n += 1
            return 'c' + '.before' * n if at == up else None
        where['c'] = cls
        c_of = cls
        pos = 0
        while True:
            m = re.compile(rf"let ({NAME}) = ({NAME})((?:\.before)+) in ?").search(t, pos)
            if not m: break
            if m[2] in where and where[m[2]] and goal:
                where[m[1]] = self.up(where[m[2]], m[3].count('.before'))
                t = t[:m.start()] + '\x00' + t[m.end():]
                pos = m.start()
            else: pos = m.end()
        t = re.sub(r"\n?[ \t]*\x00(?=\n)", "", t).replace('\x00', '')
        # a step under a name of its own: what is said of it is said of the step
        pos = 0
        while True:
            m = re.compile(rf"let ({NAME}) = ({NAME}(?:\.before)*\.({NAME}))(?<!\.before) in ?").search(t, pos)
            if not m: break
            if norm(m[3]) in steps and steps[norm(m[3])][1]:
                rest = re.sub(rf"(?<![^\s(){{}};,\[←∙])({re.escape(m[1])})\.", lambda mm: m[2] + '.', t[m.end():])
                t = t[:m.start()] + rest
                pos = m.start()
            else: pos = m.end()
        for m in re.finditer(rf"let ({NAME}) = ({NAME}(?:\.{NAME})+) in", t):
            last = norm(m[2].split('.')[-1])
            if last in steps and steps[last][2]: aliases[m[1]] = steps[last][2]
        def steps_to(target):
            n, at = 0, c_of
            while at is not None and at != target:
                at = self.up(at, 1); n += 1
            return 'c' + '.before' * n if at == target else None
        def called(m):
            target = self.helper_cls.get(m[1])
            got = steps_to(target) if target else None
            if target and goal and target != c_of:
                got = f"(goal.at.{goal} c).{self.classes.get(norm(target))}"
            return m[1] + ' ' + got if got and (m[2] in where) else m[0]
        t = re.sub(rf"(?<=[ (;,\[←∙])({NAME}) ({NAME}?)((?:\.before)*)(?=[\s(){{}};,]|\.(?!before)|$)", called, t)
        def sub(m):
            tok = m[1]
            parts = tok.split('.')
            root = parts[0]
            if all(x == 'before' for x in parts[1:]):
                if root in where and (len(parts) > 1 or root != 'c'):
                    got = place(where[root], len(parts) - 1)
                    if got: return got
                return tok
            if root in where and root != 'c': parts[0] = 'c'
            got = self.path('.'.join(parts), steps, aliases)
            return f"(opened {got})" if re.search(r"-own\.keys\d+$", got) else got
        return re.sub(rf"(?<![^\s(){{}};,\[←∙])({NAME}(?:\.{NAME})*)", sub, t)

    @staticmethod
    def params_in(text):
        return re.sub(r"(?<![^\s(){};,\[←∙])((?:a|\S*\.args)\.)t(\d+)(?![\w-])", lambda m: m[1] + PARAMS[int(m[2]) - 1] if int(m[2]) <= len(PARAMS) and 't' + m[2] not in PARAMS else m[0], text)

    def need(self, old):
        n = norm(old)
        for key in (n, n.removeprefix('overflow_')):
            if key in self.needs: return self.needs[key]
        for x in self.order:
            if norm(x) == n: return x
        m = re.match(r"overflow_([a-z]+)_", n)
        if m:
            c = [x for x in self.order if x.startswith(f"overflow_{m[1]}-")]
            if len(c) == 1: return c[0]
        return None

PARAMS=[]
def args_of(crate_dir, f):
    name = f.split('/')[-1].lstrip('+')
    out = set()
    for s in crate_dir.glob('src/**/*.rt'):
        for m in re.finditer(rf"fn {name}(?:<[^>]*>)?\(([^)]*)\)", s.read_text()):
            found = re.findall(r"(\w+)\s*:", m[1])
            out |= set(found)
            PARAMS[:] = found
    return out

def convert(file, entry, crate, fpath):
    ARGS.clear(); ARGS.update(args_of(file.parents[len(fpath.split('/')) + 1], fpath))
    fn = Fn(entry)
    text = file.read_text()
    head, blocks = decls(text)
    fdot = fpath.replace('/', '.')
    invs, answers, helpers, warn = [], {}, [], []
    fn.helper_cls = {}
    for b in blocks:
        hm = re.search(rf"(?m)^(?:(?:pub|abbrev|unfoldable) +)*({NAME}) : [^\n]*?\(?c? ?:? ?(?:tie|lts)\.((?:After|Then|Else|Start|In|At|Arm|Past|Joined)[^\s()]*)", b)
        if hm and not re.search(r"tie\.(Need|invariant|decreases)", b): fn.helper_cls[hm[1]] = fn.old_cls.get(norm(hm[2]))
        nm = re.search(rf"(?m)^({NAME}) : tie\.Need-({NAME})", b)
        if nm and fn.need(nm[2]): fn.helper_cls[nm[1]] = fn.cls_of.get(fn.need(nm[2]))
    spec = None
    for b in blocks:
        code = '\n'.join(l for l in b.split('\n') if not l.startswith('--'))
        com = '\n'.join(l for l in b.split('\n') if l.startswith('--'))
        sig = re.match(rf"(?:(?:pub|abbrev|unfoldable) +)*({NAME}) : *([^\n]*)", code)
        if not sig:
            helpers.append(b); continue
        name, ty = sig[1], sig[2]
        if 'statement' in ty and 'tie.' in code:
            spec = code; continue
        m = re.match(rf"tie\.Need-({NAME})((?: [^\n→]*)?)$", ty)
        if m:
            old = norm(m[1])
            new = fn.need(m[1])
            if new is None:
                warn.append(f"no need {m[1]}"); new = m[1]
            rest = code.split('\n')[1:]
            body = '\n'.join(rest)
            body = re.sub(rf"(?m)^{re.escape(name)}(?= |$)", new, body)
            body = re.sub(rf"(?m)^({re.escape(new)} c) κs(?= )", r"\1", body)
            answers[name] = [new, fn.term(body, fn.cls_of.get(new), new), com]
            continue
        m = re.match(rf"tie\.(invariant|decreases)-({NAME})", ty)
        if m:
            old = m[2]
            loop = [(k, n, v) for k, ((o, n), v) in enumerate(fn.loops) if norm(o) == norm(old)]
            if not loop:
                warn.append(f"no loop {old}"); helpers.append(b); continue
            k, new, vs = loop[0]
            changed = entry['changed'][k]
            body = '\n'.join(code.split('\n')[1:])
            bm = re.match(rf"((?:unfolding[^\n]*\n)?){re.escape(name)} ([^=]*?)=(.*)$", body, re.S)
            if not bm:
                bm2 = re.match(rf"((?:unfolding[^\n]*\n)?){re.escape(name)} *=(.*)$", body, re.S)
                warn.append(f"invariant {name} of another form"); helpers.append(b); continue
            ps = bm[2].split()
            sub = {}
            for p, v, ch in zip(ps, vs, changed):
                sub[p] = f"l.initial.{v}" if ch else f"l.{v}"
            for p, v in zip(ps[len(vs):], [v for v, ch in zip(vs, changed) if ch]):
                sub[p] = f"l.{v}"
            sub.pop('_', None)
            if len(ps) != len(vs) + sum(changed):
                warn.append(f"{name}: {len(ps)} parameters, {len(vs)} variables {vs} {changed}")
            t = re.sub(rf"(?<![^\s(){{}};,\[←∙]){NAME}", lambda mm: sub.get(mm[0], mm[0]), bm[3])
            kind = 'invariant' if m[1] == 'invariant' else 'decreases'
            invs.append((com + '\n' if com else '') + f"abbrev pub {kind}-{new} : goal.{kind}-{new}\n{bm[1]}{kind}-{new} l ={t}")
            continue
        cls = None
        if re.search(r"(?:tie|lts)\.", code):
            cm = re.search(rf"(?:tie|lts)\.({NAME})", code)
            cls = fn.old_cls.get(norm(cm[1]))
            code = re.sub(rf"lts\.({NAME})((?: (?:[^()→\n]|\([^()\n]*\))+?)?)(?=\)| →)", lambda mm: fn.classes.get(norm(mm[1]), 'GOALS.' + mm[1]), code)
            code = re.sub(rf"(?:tie|lts)\.({NAME})", lambda mm: fn.classes.get(norm(mm[1]), 'GOALS.' + mm[1]), code)
            b = (com + '\n' if com else '') + code
        helpers.append(fn.term(b, cls))
    # the spec's arguments, by place
    if spec:
        unf = re.search(r"(?m)^unfolding ([^\n]*)", spec)
        m = re.search(r"tie\.spec\b(.*)\)\s*$", spec, re.S)
        args = split_args(m[1]) if m else []
        ninv = sum(1 for a in args if re.match(r"(invariant|decreases)-", a))
        args = [a for a in args if not re.match(r"(invariant|decreases)-", a)]
        order = list(fn.order)
        # align by named answers
        pos = 0
        aligned = []
        if len(args) == len(order):
            aligned = list(zip(args, order))
        else:
            warn.append(f"{len(args)} answers for {len(order)} goals")
            # segment by anchors
            segs_a, segs_o = [], []
            anchors = [(i, answers[a][0]) for i, a in enumerate(args) if a in answers and answers[a][0] in order]
            pi, po = 0, 0
            for i, g in anchors + [(len(args), None)]:
                o = order.index(g) if g else len(order)
                A, O = args[pi:i], order[po:o]
                if len(A) == len(O):
                    aligned += list(zip(A, O))
                else:
                    rest = [a for a in A if not re.fullmatch(r"\(λ c(?: κs)?\. search rules\)", a)]
                    for a in rest: aligned.append((a, 'UNPLACED of ' + ' '.join(O)))
                pi, po = i + 1, o + 1
        for a, g in aligned:
            if a in answers: 
                continue
            lm = re.match(r"\(λ (\S+?)(?: κs)?\.\s+(.*)\)$", a, re.S)
            if lm:
                if lm[2].strip() in ('omega arith', 'tt', 'refl') or lm[2].strip() == 'search rules' and not (unf and g.startswith('returns')): continue
                body = f"{g} {lm[1]} = {fn.term(lm[2], fn.cls_of.get(g), g)}"
                if unf: body = f"unfolding {unf[1]}\n" + body
                answers['@' + g] = [g, body, '']
            elif not a.startswith('('):
                # a helper named, of another type
                answers['@' + g] = [g, f"{g} = {a}", '']
            else:
                answers['@' + g] = [g, (f"unfolding {unf[1]}\n" if unf else '') + f"{g} = {fn.term(a, fn.cls_of.get(g), g)}", '']
    ren = {old: v[0] for old, v in answers.items() if not old.startswith('@') and old != v[0]}
    for v in answers.values():
        v[1] = re.sub(rf"(?<=[ (;,\[←∙])({NAME})", lambda m: ren.get(m[1], m[1]), v[1]).replace(' c κs)', ' c)').replace(' c κs ', ' c ').replace(' κs in', ' in')
        v[1] = re.sub(r" c κs$", " c", v[1])
    helpers[:] = [re.sub(rf"(?<=[ (;,\[←∙])({NAME})", lambda m: ren.get(m[1], m[1]), h) for h in helpers]
    uses = [l for l in head.split('\n') if l.startswith('use ') and '.Tie as tie' not in l and '.Lts as lts' not in l and '.Statement.{statement}' not in l]
    uses.append("use borrow.Enum.Refused.{opened}")
    coms = [l for l in head.split('\n') if l.startswith('--')]
    d = file.parent
    allc = '\n'.join(helpers) + '\n'.join(x[1] for x in answers.values())
    goal_types = sorted({c for c in fn.classes.values() if re.search(rf"(?:(?<![\w.-])|(?<=\)\.)){re.escape(c)}(?![\w-])", allc)})
    if invs:
        txt = '\n'.join(coms + uses + [f"use Rattle.{crate}.proofs.{fdot}.Given as goal", '']) + '\n' + '\n\n'.join(invs) + '\n'
        (d / 'Invariants.antt').write_text(prune(txt))
    if answers or helpers:
        lines = coms + uses + [f"use Rattle.{crate}.proofs.{fdot}.Goals as goal"]
        if goal_types: lines.append(f"use Rattle.{crate}.proofs.{fdot}.Goals.{{{', '.join(goal_types)}}}")
        parts = ['\n'.join(lines)]
        parts += [h.strip('\n') for h in helpers]
        for g, body, com in answers.values():
            if g.startswith('UNPLACED'):
                parts.append('-- ' + g + '\n' + '\n'.join('-- ' + l for l in body.split('\n')))
                continue
            parts.append((com + '\n' if com else '') + f"pub {g} : goal.{g}\n{body}")
        parts = [re.sub(r"not-(?:true|false) (?:_|[^ ()]+) (c\.[^ ,()]*if-not-[^ ,()]+)", r"\1", Fn.params_in(x)) for x in parts]
        (d / 'Answers.antt').write_text(prune('\n\n'.join(parts) + '\n'))
    file.unlink()
    if not any(d.iterdir()): d.rmdir()
    return warn

def prune(txt):
    """drops names that are not used"""
    lines = txt.split('\n')
    body = '\n'.join(l for l in lines if not re.match(r"use |--", l))
    toks = set(re.findall(NAME, body))
    ops = body
    out = []
    for l in lines:
        m = re.match(r"use (\S+)\.\{(.*)\}$", l)
        if m:
            keep = []
            for it in [x.strip() for x in m[2].split(',')]:
                nm = it.split(' as ')[-1]
                if '◌' in nm:
                    bits = [x for x in nm.split('◌') if x]
                    if all(x in body for x in bits): keep.append(it)
                elif nm in toks or nm in ('arith', 'rules') and nm in body: keep.append(it)
            if not keep: continue
            l = f"use {m[1]}.{{{', '.join(keep)}}}"
        out.append(l)
    return '\n'.join(out)

def main():
    crate_dir = pathlib.Path(sys.argv[1]).resolve()
    crate = crate_dir.name
    names = json.loads(pathlib.Path(sys.argv[2]).read_text())
    only = sys.argv[3:]
    for file in sorted(crate_dir.glob('proofs/**/Proof.antt')):
        f = str(file.parent.relative_to(crate_dir / 'proofs'))
        if only and f not in only: continue
        if 'tie.close' not in file.read_text():
            print(f, 'by hand'); continue
        key = f"Rattle-{crate}-proofs.{f.replace('/', '.')}.Lts"
        if key not in names:
            print(f, 'no entry', key); continue
        w = convert(file, names[key], crate, f)
        if w: print(f, '|', '; '.join(w))

main()
