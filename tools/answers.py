#!/usr/bin/env python3
"""Turns old proof files, proofs/F/Proof.antt, to Answers.antt and Invariants.antt.

usage: answers.py [--names DIR] [--old COMMIT] [--keep-search] [--only WORD] CRATE..     at the top of the repository

For each crate it gets names.json by `rt check --generated DIR --old-names` (with --names DIR it reads DIR/CRATE/names.json,
as `rt names DIR` writes it), writes the new files beside each Proof.antt and removes that.
The old names of the needs are read from the Proof.antt of COMMIT, by their order.
What it could not resolve is said in one line each, beginning 'look:'.
It also adds `#![tactic(auto)]` to the crate's root file where it is missing.
"""

import json
import os
import re
import subprocess
import sys
import tempfile

OLD = "99bd68ed9ac9071e20730bba8bde13a6d5e8bab2"
ID = r"[^\s(){}\[\],;.=:→×λ∙⟨⟩|\"]"
WORD = re.compile(rf"(?<!{ID}){ID}+")
RULES = {"search rules", "search needs"}
KEEP = False


def said(*what):
    print("look:", *what)


def norm(name):
    """A name as both kits might spell it."""
    return name.replace("·", "").replace("-", "_").lower()


def need_norm(name):
    n = norm(name)
    m = re.match(r"(.*?)((?:_\d+)?)$", n)
    n, k = m[1], m[2]
    n = re.sub(r"^(overflow|nonzero)_", "", n)
    for a, b in (("_holds", "_init"), ("_less", "_smaller"), ("_again", "_preserved")):
        if n.endswith(a):
            n = n[: -len(a)] + b
    return n + k


def in_rust(path):
    """A path with the source's names spelled as in the source, where all that follows is the source's."""
    facts = ("invariant", "ensures", "requires", "true", "false", "is", "branch", "was", "either")
    if path[0] in ("args", "ranges", "type_inv"):
        return path[:1] + [f.replace("-", "_") for f in path[1:]]
    if len(path) > 1 and path[0] not in ("requires",) and path[1] not in facts:
        return path[:1] + [f if re.search(r"-(own|is|raw|\d+)$|known_told|^not-", f) else f.replace("-", "_") for f in path[1:]]
    return path


class Names:
    """The names of one function, by names.json."""

    def __init__(self, key, d):
        self.key, self.d = key, d
        self.places = d["places"]
        self.by_old = {p[0]: i for i, p in enumerate(self.places)}
        self.by_norm = {norm(p[0]): i for i, p in enumerate(self.places)}
        self.parent = [self.by_old.get(p[1]) if p[1] else None for p in self.places]
        self.new_place = d["places_by_name"]
        self.arms = d.get("arms") or [None] * len(self.places)
        self.needs = {}
        for (old, new), (at, _) in zip(d["needs"], d["asked_at"]):
            self.needs[need_norm(old)] = (new, self.by_old.get(at, 0))
        self.settled = {need_norm(s) for s in d.get("settled", [])}
        self.loops = {norm(l[0][0]): (l[0][1], l[1], ch) for l, ch in zip(d["loops"], d["changed"])}

    def chain(self, i):
        out = []
        while i is not None:
            out.append(i)
            i = self.parent[i]
        return out

    def own(self, i):
        return self.places[i][2]

    def view_chain(self, i):
        """The places as an answer's record has them: the parts of an arm are one record."""
        out, inside = [], None
        for k in self.chain(i):
            a = self.arms[k] if k < len(self.arms) else None
            if a and inside == a[0] and self.last_of_arm(k, i):
                continue
            inside = a[0] if a else None
            out.append(k)
        return out

    def last_of_arm(self, k, i):
        return True

    def arm_top(self, chain, pos):
        """In a chain from the asking place up, the nearest place of the same arm."""
        a = self.arms[chain[pos]]
        top = pos
        while top > 0 and self.arms[chain[top - 1]] and self.arms[chain[top - 1]][0] == a[0]:
            top -= 1
        return top

    def step(self, at, fields):
        kind, what = self.step0(at, fields)
        return (kind, in_rust(what)) if kind == "path" else (kind, what)

    def step0(self, at, fields):
        """The new path for the old fields of a record of the place `at`: ('path', [..]), ('place', index) or ('?', why)."""
        cur, i = at, 0
        while i < len(fields) and fields[i] == "before":
            if cur is None:
                break
            cur = self.parent[cur]
            i += 1
        short = cur is None
        while i < len(fields) and fields[i] == "before":
            i += 1
        if i == len(fields):
            if cur is None:
                return "?", "no place is so far back"
            return "place", cur
        f, rest = fields[i], fields[i + 1 :]
        nf = norm(f)
        if nf in ("args", "requires", "ranges", "fits", "well_formed", "utf8", "pre"):
            f = {"fits": "ranges", "pre": "requires"}.get(nf, f)
            return "path", [f] + rest
        chain = self.chain(at)
        hit = None
        if cur is not None and norm(self.own(cur)[0]) == nf:
            hit = chain.index(cur)
        if hit is None:
            order = []
            if cur is not None:
                order += [chain.index(k) for k in self.chain(cur)]
            order += [p for p in range(len(chain)) if p not in order]
            for p in order:
                if norm(self.own(chain[p])[0]) == nf:
                    hit = p
                    break
        if hit is None:
            return "?", f"no step `{f}`"
        k = chain[hit]
        if self.arms[k]:
            top = self.arm_top(chain, hit)
            arm = self.arms[chain[top]]
            best = None
            for new, place, old in arm[2]:
                if norm(place) == nf and rest[: len(old)] == old and (best is None or len(old) > len(best[1])):
                    best = (new, old)
            if not self.is_done(chain[top]) and top == 0:
                return "path", [self.own(k)[1]] + rest
            if best is None:
                return "?", f"no field of the arm `{arm[0]}` for `{'.'.join([f] + rest[:3])}`"
            return "path", [arm[0], best[0]] + rest[len(best[1]) :]
        if rest and rest[0] in ("auto", "new", "ended", "kept") and len(rest) > 1 and rest[1] in ("0", "1"):
            params = self.d.get("params", {}).get(self.places[k][3])
            n = 1
            while n < len(rest) and rest[n] == "1":
                n += 1
            if params and n < len(rest) and rest[n] == "0" and n - 1 < len(params):
                rest = [rest[0], params[n - 1]] + rest[n + 1 :]
            elif params and n == len(rest) and n - 1 < len(params):
                rest = [rest[0], params[n - 1]]
        typed = (self.d.get("typed") or [[]] * len(self.places))[at] or []
        if rest[:1] == ["given"] and "slice_known" in norm(f):
            for x, step in typed:
                if step and norm(step) == nf:
                    return "path", ["type_inv", x] + rest[1:]
        turned = dict(self.places[k][4]) if len(self.places[k]) > 4 else {}
        if rest and rest[0] in turned:
            rest = [turned[rest[0]]] + rest[1:]
        return "path", [self.own(k)[1]] + rest

    def is_done(self, k):
        """Whether the place has all of its arm."""
        n = self.arms[k][1]
        return not any(
            self.parent[j] == k and self.arms[j] and self.arms[j][0] == self.arms[k][0] for j in range(len(self.places))
        )

    def arm_of(self, at, fields):
        """The arm that an old step belongs to, with the old step, or None."""
        kind = [f for f in fields if f != "before"]
        if len(kind) != 1:
            return None
        chain = self.chain(at)
        for p, k in enumerate(chain):
            if norm(self.own(k)[0]) == norm(kind[0]) and self.arms[k]:
                top = self.arm_top(chain, p)
                return self.arms[chain[top]], kind[0]
        return None

    def befores(self, at, to):
        """How many `.before` lead from the record of an answer at `at` to the place `to`, or None."""
        chain = self.chain(at)
        out, p = 0, 0
        while p < len(chain):
            if chain[p] == to:
                return out
            a = self.arms[chain[p]]
            q = p + 1
            if a:
                while q < len(chain) and self.arms[chain[q]] and self.arms[chain[q]][0] == a[0]:
                    q += 1
            p, out = q, out + 1
        return None


PATH = r"((?:\.[^\s(){}\[\],;.=:→×λ∙⟨⟩|\"]+)*)"


def resolve(body, var, at, names, where):
    """The body with each path on `var`, a record of the place `at`, under its new name."""
    # Names of whole places are written out.
    while True:
        m = re.search(rf"([ \t]*)let ({ID}+) = {re.escape(var)}((?:\.before)*) in[ \t]*(\n?)[ \t]*", body)
        if not m:
            break
        body = body[: m.start()] + m[1] + mine_in(body[m.end() :], m[2], var + m[3])
    known = {var: []}

    def one(m):
        let, root, fields = m[1], m[3], [f for f in m[4].split(".") if f]
        if root not in known:
            return m[0]
        base = known[root]
        whole = base + fields
        if let:
            known.pop(m[2], None)
            if re.match(r"\s+in\s", m.string[m.end() :]):
                known[m[2]] = whole
        if not fields:
            return m[0]
        kind, what = names.step(at, whole)
        if kind == "?":
            found = names.arm_of(at, whole)
            if found:
                kind, what = "path", [found[0][0]]
        if kind == "place":
            n = names.befores(at, what)
            if n is not None and root == var:
                return (let or "") + ".".join([var] + ["before"] * n)
            said(where, f"the place `{names.places[what][0]}` is inside an arm: {m[0]}")
            return m[0]
        if kind == "?":
            said(where, f"{what}: {m[0]}")
            return m[0]
        if base:
            k, short = names.step(at, base)
            if k == "?":
                found = names.arm_of(at, base)
                if found:
                    k, short = "path", [found[0][0]]
            if k == "path" and what[: len(short)] == short:
                return (let or "") + ".".join([root] + what[len(short) :])
            return (let or "") + ".".join([var] + what)
        return (let or "") + ".".join([var] + what)

    body = re.sub(rf"(?<!{ID})(?<!\.)(let ({ID}+) = )?({ID}+){PATH}", one, body)
    # What the lemma said of a test `!x` is now the test's own field.
    term = rf"(?:\([^()]*\)|{ID}+(?:\.{ID}+)*)"
    body = re.sub(rf"\(not-(?:true|false) {term} ({ID}+(?:\.{ID}+)*)\.(true|false)-raw\)", r"\1.\2", body)
    body = re.sub(rf"not-(?:true|false) {term} ({ID}+(?:\.{ID}+)*)\.(true|false)-raw(?!{ID})", r"\1.\2", body)
    return body


def mine_in(text, name, to):
    return re.sub(rf"(?<!{ID})(?<!\.){re.escape(name)}(?!{ID})", lambda _: to, text)


class Item:
    def __init__(self, comment, sig, lines):
        self.comment, self.sig, self.lines = comment, sig, lines


def items_of(text):
    """The file as a header (comments), `use` lines, and items: a signature with what belongs to it."""
    lines = text.split("\n")
    header, uses, items = [], [], []
    i = 0
    while i < len(lines) and (lines[i].startswith("--") or not lines[i].strip()):
        if lines[i].strip():
            header.append(lines[i])
        i += 1
    pending = []
    while i < len(lines):
        l = lines[i]
        if not l.strip():
            i += 1
            if pending and pending[-1] != "":
                pending.append("")
            continue
        if re.match(r"(pub )?use ", l):
            block = [l]
            i += 1
            while i < len(lines) and lines[i][:1].isspace() and lines[i].strip():
                block.append(lines[i])
                i += 1
            uses.append("\n".join(block))
            pending = []
            continue
        if l.startswith("--"):
            pending.append(l)
            i += 1
            continue
        block = [l]
        i += 1
        name = re.match(rf"(?:pub |abbrev |unfoldable |opaque |private )*({ID}+)", l)
        module = l.startswith("module ")
        while i < len(lines):
            n = lines[i]
            if not n.strip():
                if module or any(x[:1].isspace() and x.strip() for x in lines[i + 1 : i + 2]):
                    j = i + 1
                    while j < len(lines) and not lines[j].strip():
                        j += 1
                    if j < len(lines) and lines[j][:1].isspace():
                        block.append(n)
                        i += 1
                        continue
                break
            if n[:1].isspace() or n.startswith(")") or n.startswith("unfolding ") or (name and re.match(rf"{re.escape(name[1])}(?!{ID})", n)):
                block.append(n)
                i += 1
                continue
            break
        items.append(Item(pending, name[1] if name else "", block))
        pending = []
    return header, uses, items


def uses_kept(uses, body, drop):
    """The `use` lines that the body still needs."""
    out = []

    def used(n):
        n = n.strip()
        n = n.split(" as ")[-1].strip() if " as " in n else n
        parts = [p for p in n.split("◌") if p]
        if "◌" in n:
            return all(p in body for p in parts)
        if n in ("[]",):
            return "[]" in body
        return re.search(rf"(?<!{ID})(?<!\.){re.escape(n)}(?!{ID})", body) is not None

    for u in uses:
        if any(re.search(d, u) for d in drop):
            continue
        m = re.match(r"(?s)((?:pub )?use )([^{]*)\.\{(.*)\}\s*$", u)
        if m:
            names = [n.strip() for n in m[3].replace("\n", " ").split(",") if n.strip()]
            keep = [n for n in names if used(n)]
            if keep:
                out.append(f"{m[1]}{m[2].strip()}.{{{', '.join(keep)}}}")
            continue
        m = re.match(r"use (\S+)(?: as (\S+))?\s*$", u)
        if m:
            n = m[2] or m[1].split(".")[-1]
            if re.search(rf"(?<!{ID})(?<!\.){re.escape(n)}\.", body) or re.search(rf"open {re.escape(n)}(?!{ID})", body):
                out.append(u)
            continue
        out.append(u)
    return out


def invariant(item, names, where):
    """The item `abbrev invariant-L : tie.invariant-L` in the new form, or None."""
    text = "\n".join(item.lines)
    m = re.match(rf"(?s)(?:abbrev |pub )*({ID}+) : tie\.(invariant|decreases)-({ID}+)\s*\n(.*)", text)
    if not m:
        said(where, f"an invariant of another form: {item.lines[0]}")
        return None
    name, what, loop, body = m[1], m[2], m[3], m[4]
    if norm(loop) not in names.loops:
        said(where, f"no loop `{loop}`")
        return None
    new, live, changed = names.loops[norm(loop)]
    unfold = ""
    u = re.match(r"(unfolding [^\n]*\n)", body)
    if u:
        unfold, body = u[1], body[u.end() :]
    h = re.match(rf"(?s){re.escape(name)}((?: {ID}+)*)\s*= ?(.*)", body)
    if not h:
        said(where, f"an invariant of another form: {item.lines[1]}")
        return None
    params, rhs = h[1].split(), h[2]
    wanted = [f"l.initial.{x}" if c else f"l.{x}" for x, c in zip(live, changed)]
    wanted += [f"l.{x}" for x, c in zip(live, changed) if c]
    if len(params) != len(wanted):
        said(where, f"the invariant of `{loop}` has {len(params)} arguments, and {len(wanted)} are live: {' '.join(params)} against {' '.join(wanted)}")
        wanted = [f"l.{p}" if not p.endswith("₀") else f"l.initial.{p[:-1]}" for p in params]
    to = {p: w for p, w in zip(params, wanted) if p != "_"}
    for b in re.findall(rf"λ ([^.]*)\.", rhs) + re.findall(r"[({](\S+) :", rhs):
        for w in re.findall(rf"{ID}+", b):
            if w in to:
                said(where, f"`{w}` of the invariant is bound again")

    def sub(mm):
        return to.get(mm[0], mm[0])

    rhs = re.sub(rf"(?<!{ID})(?<!\.){ID}+", sub, rhs)
    return f"abbrev pub {what}-{new} : goal.{what}-{new}\n{unfold}{what}-{new} l ={sep(rhs)}{rhs}", (f"{what}-{loop}", f"{what}-{new}")


def sep(rhs):
    return "" if rhs.startswith("\n") else " " if not rhs.startswith((" ", "\n")) else ""


def convert(path, crate, names, old_text):
    where = path
    text = open(path, encoding="utf-8").read()
    header, uses, items = items_of(text)
    fpath = os.path.dirname(path).split("/proofs/", 1)[1]
    module = f"Rattle.{crate}.proofs.{fpath.replace('/', '.')}"
    now = re.findall(rf"tie\.Need-({ID}+)", text)
    then = re.findall(rf"tie ?\.Need-({ID}+)", old_text or "")
    if len(now) != len(then):
        if old_text:
            said(where, f"{len(now)} needs now and {len(then)} in the old file: going by the names as they stand")
        then = now
    n = 0
    goals, invs, answers, renames = [], [], [], {}
    for it in items:
        head = it.lines[0]
        whole = "\n".join(it.lines)
        k = len(re.findall(r"tie\.Need-", whole))
        mine = then[n : n + k]
        n += k
        if re.search(r"tie\.close", whole):
            continue
        m = re.match(rf"(?:abbrev |pub )*({ID}+) : tie\.(invariant|decreases)-({ID}+)", head)
        if m:
            done = invariant(it, names, where)
            if done:
                invs.append((it.comment, done[0]))
            continue
        m = re.match(rf"(?:pub )?({ID}+) : tie\.Need-", head)
        if not m:
            answers.append(("helper", it, None, None))
            continue
        name, old = m[1], mine[0]
        key = need_norm(old)
        # the right side
        sig_end = 1
        while sig_end < len(it.lines) and it.lines[sig_end][:1].isspace():
            sig_end += 1
        rest = it.lines[sig_end:]
        unfold = []
        while rest and rest[0].startswith("unfolding "):
            unfold.append(rest.pop(0))
        body = "\n".join(rest)
        h = re.match(rf"(?s){re.escape(name)}((?: {ID}+)*)\s*= ?(.*)", body)
        if not h:
            said(where, f"an answer of another form: {head}")
            answers.append(("helper", it, None, None))
            continue
        args, rhs = h[1].split(), h[2]
        trivial = " ".join(rhs.split()) in RULES and not KEEP and not unfold
        if key not in names.needs:
            if key in names.settled or key.startswith(("same_length", "cast_")) or trivial:
                continue
            said(where, f"no goal for the need `{old}`: {' '.join(rhs.split())[:100]}")
            continue
        goal, at = names.needs[key]
        renames[name] = goal
        if trivial:
            continue
        var = args[0] if args else "c"
        answers.append(("answer", it, (goal, at, var, args, unfold, rhs), None))
    out = []
    place_of = lambda t: names.by_norm.get(norm(t))
    for kind, it, what, _ in answers:
        comment = [c for c in it.comment]
        while comment and comment[0] == "":
            comment.pop(0)
        if kind == "answer":
            goal, at, var, args, unfold, rhs = what
            rhs = resolve(rhs, var, at, names, f"{where}: {goal}")
            for a in args[1:]:
                if re.search(rf"(?<!{ID})(?<!\.){re.escape(a)}(?!{ID})", rhs):
                    said(where, f"the answer to `{goal}` uses its argument `{a}`")
            lines = [f"pub {goal} : goal.{goal}"] + unfold + [f"{goal} {var} ={sep(rhs)}{rhs}"]
            out.append((comment, "\n".join(lines).rstrip()))
        else:
            body = "\n".join(it.lines)
            # A helper over places, (c : tie.Then3), or a module over one.
            for m in list(re.finditer(rf"\(({ID}+) : tie\.({ID}+)\)", body)):
                at = place_of(m[2])
                if at is None:
                    said(where, f"no place `{m[2]}`")
                    continue
                first, tail = body[: m.end()], body[m.end() :]
                tail = resolve(tail, m[1], at, names, f"{where}: {it.sig}")
                body = first.replace(m[0], f"({m[1]} : goal.{names.new_place[at]})") + tail
            out.append((comment, body.rstrip()))
    # Names of answers that other items cite.
    defined = {m for _, b in out for m in re.findall(rf"(?m)^(?:pub )?({ID}+) :", b)}
    for i, (c, b) in enumerate(out):
        for name, goal in renames.items():
            if name == goal:
                continue
            pat = rf"(?<!{ID})(?<!\.){re.escape(name)}(?!{ID})"
            if re.search(pat, b) and name not in defined and not re.search(rf"use [^\n]*[{{ ,]{re.escape(name)}[,}} ]", "\n".join(uses)):
                b = re.sub(pat, goal, b)
                out[i] = (c, b)
                if goal not in defined:
                    said(where, f"the answer to `{goal}` is cited, and was dropped")
    folder = os.path.dirname(path)
    drop = [r"\.Statement\.\{", r"\.Tie as tie", r"use Rattle\.std\.proofs\.X"]

    def write(name, parts, via):
        body = "\n\n".join("\n".join(x for x in c if x != "" or True) + ("\n" if c else "") + b for c, b in parts)
        body = re.sub(r"\n{3,}", "\n\n", body)
        kept = uses_kept(uses, body, drop)
        if "goal." in body:
            kept.append(f"use {module}.{via} as goal")
        if re.search(r"(?<![\w'-])tie\.", body):
            said(os.path.join(folder, name), "still has tie.")
        with open(os.path.join(folder, name), "w", encoding="utf-8") as f:
            f.write("\n".join(header + kept) + "\n\n" + body + "\n")

    # A helper that nothing cites goes.
    kept = True
    while kept:
        kept = False
        for i, (c, b) in enumerate(out):
            m = re.match(rf"(?:abbrev |unfoldable )?({ID}+) :", b)
            if b.startswith("pub ") or not m:
                continue
            others = "\n".join(x for j, (_, x) in enumerate(out) if j != i) + "\n".join(x for _, x in invs)
            if not re.search(rf"(?<!{ID})(?<!\.){re.escape(m[1])}(?!{ID})", others):
                del out[i]
                kept = True
                break
    if invs:
        text = "\n".join(b for _, b in invs)
        pre = [o for o in out if not o[1].startswith("pub ") and cited(o[1], text)]
        if pre:
            said(where, "the invariant cites a definition of the proof file, which now stands in both files")
        write("Invariants.antt", pre + invs, "Given")
    if any(b.startswith("pub ") for _, b in out):
        write("Answers.antt", out, "Goals")
    os.remove(path)


def cited(item, text):
    m = re.match(rf"(?:abbrev |unfoldable )?({ID}+) :", item)
    return bool(m and re.search(rf"(?<!{ID})(?<!\.){re.escape(m[1])}(?!{ID})", text))


def root_auto(crate):
    for root in ("lib.rt", "main.rt"):
        p = f"crates/{crate}/src/{root}"
        if not os.path.exists(p):
            continue
        t = open(p, encoding="utf-8").read()
        if "#![tactic(" in t:
            continue
        lines = t.split("\n")
        i = 0
        while i < len(lines) and lines[i].startswith("//"):
            i += 1
        lines.insert(i, "#![tactic(auto)]")
        if i + 1 < len(lines) and lines[i + 1].strip():
            lines.insert(i + 1, "")
        if i and lines[i - 1].strip():
            pass
        open(p, "w", encoding="utf-8").write("\n".join(lines))


def names_of(crate, given):
    if given and os.path.exists(f"{given}/{crate}/names.json"):
        return json.load(open(f"{given}/{crate}/names.json", encoding="utf-8"))
    top = tempfile.mkdtemp(prefix="answers-")
    to = os.path.join(top, "g")
    r = subprocess.run(["rt", "check", "--generated", to, "--old-names"], cwd=f"crates/{crate}", capture_output=True, text=True)
    p = os.path.join(to, "names.json")
    if not os.path.exists(p):
        said(crate, "no names.json: " + " | ".join([l for l in (r.stdout + r.stderr).splitlines() if "error" in l or l.startswith("rt:")][:3])[:500])
        return None
    return json.load(open(p, encoding="utf-8"))


def main():
    global KEEP, OLD
    args = sys.argv[1:]
    given, only, crates = None, None, []
    while args:
        a = args.pop(0)
        if a == "--names":
            given = args.pop(0)
        elif a == "--old":
            OLD = args.pop(0)
        elif a == "--only":
            only = args.pop(0)
        elif a == "--keep-search":
            KEEP = True
        else:
            crates.append(a)
    if not crates:
        print(__doc__)
        sys.exit(2)
    for crate in crates:
        found = []
        for folder, _, files in os.walk(f"crates/{crate}/proofs"):
            if "Proof.antt" in files and (only is None or only in folder):
                found.append(os.path.join(folder, "Proof.antt"))
        root_auto(crate)
        if not found:
            print(f"{crate}: no Proof.antt")
            continue
        d = names_of(crate, given)
        if d is None:
            continue
        n = 0
        for path in sorted(found):
            f = os.path.dirname(path).split("/proofs/", 1)[1]
            key = f"Rattle-{crate}-proofs.{f.replace('/', '.')}.Lts"
            if key not in d:
                like = [k for k in d if norm(k) == norm(key)]
                if not like:
                    said(path, f"names.json has no function {key}")
                    continue
                key = like[0]
            r = subprocess.run(["git", "show", f"{OLD}:{path}"], capture_output=True, text=True)
            old = r.stdout if r.returncode == 0 else None
            if old is None:
                said(path, "not in the old commit")
            convert(path, crate, Names(key, d[key]), old)
            n += 1
        print(f"{crate}: {n} of {len(found)} files turned")


if __name__ == "__main__":
    main()
