#!/usr/bin/env python3
"""The spelling of this repository's own definitions and lemmas: words in snake case, types in camel case.

usage: python3 tools/spelling.py [--edits]     at the top of the repository, once, after the kit's port.py

A name is renamed where it is defined in a crate's specs/ or proofs/ (a definition, lemma, field, constructor or binder), and everywhere it
is cited: in specs/, proofs/, and in src/ outside string literals. Functions of src/ are in snake case already. Names that fall together
are printed, and so are parameters of src/ that would hide a word that their clauses cite.
"""
import collections
import glob
import re
import sys

TOKEN = re.compile(r"(?<![\w'\-])[A-Za-z][\w']*(?:-[\w']+)*")
HYPHENED = re.compile(r"^[a-z][\w']*(?:-[\w']+)+$")
CAMEL = re.compile(r"^[a-z][\w']*?[A-Z]")

# facts, which are spelled as types, and names that would fall together; those of the second table only in their own file
ODD = {
    "nothing-asked": "NothingAsked",
    "answers-are": "AnswersAre",
    "both-reached": "BothReached",
    "Passed-from": "PassedFrom",
    # names that would fall together with another
    "is-nan": "nan_where_is_nan",
    "nan-bits": "bits_of_nan",
    "belowZero": "is_below_zero",
    "dedupeAt": "dedupe_edge_at",
    "grownSaid": "said_of_grown",
    # bound where the patterns above do not look
    "h-in": "h_in",
    "end-too": "end_too",
    "tally-step": "tally_step",
}
ODD_IN = {
    # theorems that would be called as the definition that they are about
    "crates/guards/proofs/InUse.antt": {"check-net": "check_net_in_use", "update-vert": "update_vert_in_use", "orbit-owners": "orbit_owners_in_use"},
    "crates/refusals/proofs/Told.antt": {
        "pair-up": "pair_up_refusals", "update-vert": "update_vert_refusals", "collapse-tri": "collapse_tri_refusals",
        "remove-if-folded": "remove_if_folded_refusals", "form-loop": "form_loop_refusals", "orbit-owners": "orbit_owners_refusals",
    },
    # fields that would be called as the function that they are about
    "crates/dedupesound/proofs/Copied.antt": {"end-of": "end_moved", "start-of": "start_moved"},
    "crates/dedupesound/proofs/Steps.antt": {"end-of": "end_moved", "start-of": "start_moved"},
    "crates/dedupesound/proofs/Sought.antt": {"passed": "Passed"},
    "crates/folds/proofs/Cases.antt": {"unchanged": "Unchanged", "stops": "Stops"},
}


def antt():
    return sorted(glob.glob("crates/*/specs/**/*.antt", recursive=True) + glob.glob("crates/*/proofs/**/*.antt", recursive=True))


def of_function(path):
    """Whether the file belongs to the proof of one function."""
    return path.split("/")[2] == "proofs" and path.count("/") > 3


def code(line):
    """The line without its comment."""
    at = line.find("--")
    return line if at < 0 else line[:at]


def snake(name):
    name = name.replace("-", "_")
    if name[0].islower():
        name = re.sub(r"(?<=[a-z0-9])([A-Z])", lambda m: "_" + m.group(1).lower(), name)
        name = re.sub(r"([A-Z])", lambda m: m.group(1).lower(), name)
    return name


def defined():
    names, kits = set(), set()
    for path in antt():
        with open(path, encoding="utf-8") as f:
            text = "".join(code(line) for line in f)
        for m in re.finditer(r"^\s*use ([\w.'\-]+)\.\{([^}]*)\}", text, re.M):
            if not m.group(1).startswith("Rattle.") or m.group(1).startswith("Rattle.std"):
                kits |= {n.split(" as ")[0].strip() for n in m.group(2).split(",")}
        found = set()
        for line in text.split("\n"):
            m = re.match(r"^\s*(?:\| )?(?:(?:abbrev|unfoldable|pub|data|record) )*([^\s:(){}\[\],;|=λ.]+)(?: \{[^}]*\}| \([^)]*\))*(?: :| :=)(?:\s|$)", line)
            if m and not (of_function(path) and re.search(r": tie\.", line)):
                found.add(m.group(1))
        for m in re.finditer(r"[({]((?:[A-Za-z][\w'\-]*\s+)+):\s", text):
            found |= set(m.group(1).split())
        for m in re.finditer(r"\blet ([A-Za-z][\w'\-]*)\b", text):
            found.add(m.group(1))
        for m in re.finditer(r"λ ((?:[A-Za-z_][\w'\-]*\s*)+)\.", text):
            found |= set(m.group(1).split())
        names |= found
    return names, kits


def mapping():
    names, kits = defined()
    to = dict(ODD)
    for n in sorted(names):
        if n in to:
            continue
        if HYPHENED.match(n) or (CAMEL.match(n)):
            if n in kits:
                print(f"left: {n} is the kit's too")
                continue
            to[n] = snake(n)
    return to, kits


STRING = re.compile(r"""b?"(?:\\.|[^"\\])*"|b'(?:\\.|[^'\\])'""")


def renamed(text, to, source):
    def one(m):
        return to.get(m.group(0), m.group(0))

    if not source:
        return TOKEN.sub(one, text)
    out, at = [], 0
    for m in STRING.finditer(text):
        out.append(TOKEN.sub(one, text[at:m.start()]))
        out.append(m.group(0))
        at = m.end()
    out.append(TOKEN.sub(one, text[at:]))
    return "".join(out)


def parameters(text):
    """Each function of a source: its name, its parameters, and the text of its clauses."""
    for m in re.finditer(r"\bfn (\w+)(?:<[^>]*>)?\(", text):
        depth, at = 1, m.end()
        while depth and at < len(text):
            depth += {"(": 1, ")": -1}.get(text[at], 0)
            at += 1
        names = re.findall(r"(?:^|[,(]\s*)(?:mut )?([a-z_]\w*)\s*:", text[m.end():at - 1], re.M)
        end = re.search(r"^\s*\{\s*$|;\s*$", text[at:], re.M)
        clauses = text[at:at + end.start()] if end else ""
        yield m.group(1), set(names), "\n".join(re.findall(r"(?:requires|ensures)[^{]*\{(.*)\}\s*$", clauses, re.M))


def main():
    to, kits = mapping()
    backwards = collections.defaultdict(set)
    for a, b in to.items():
        backwards[b].add(a)
    for b, froms in sorted(backwards.items()):
        if len(froms) > 1:
            print(f"falls together: {b} from {sorted(froms)}")
    texts = {}
    for path in antt() + sorted(glob.glob("crates/*/src/**/*.rt", recursive=True)):
        with open(path, encoding="utf-8") as f:
            texts[path] = f.read()
    changed = 0
    for path, text in texts.items():
        here = {**to, **ODD_IN.get(path, {})}
        tokens = set(TOKEN.findall("".join(code(line) for line in text.split("\n"))))
        if of_function(path):
            tokens = {t for t in tokens if re.search(r"(?<![\w'.\-])" + re.escape(t) + r"(?![\w'\-])", re.sub(r"(?<![\w])Rattle[\w.]*|^.* : tie\..*$", "", text, flags=re.M))}
        at_once = collections.defaultdict(set)
        for t in sorted(tokens):
            at_once[here.get(t, t)].add(t)
            if t in here and here[t] in tokens and not path.endswith(".rt"):
                print(f"look: {path}: {t} becomes {here[t]}, which is there already")
        for b, froms in sorted(at_once.items()):
            if len(froms) > 1:
                print(f"look: {path}: {sorted(froms)} fall together")
            if t in here and here[t] in kits and t not in kits:
                print(f"look: {path}: {t} becomes {here[t]}, a name that some file takes from the kit")
        new = renamed(text, here, path.endswith(".rt"))
        if path.endswith(".rt"):
            old = {(n): set(TOKEN.findall(c)) for n, p, c in parameters(text)}
            for n, ps, clauses in parameters(new):
                for p in sorted(ps & set(TOKEN.findall(clauses)) - old.get(n, set())):
                    print(f"hidden: {path}: {n}: its parameter {p} hides a word")
        if new != text:
            with open(path, "w", encoding="utf-8") as f:
                f.write(new)
            changed += 1
    print(f"spelling: {len(to)} names, {changed} files")


if __name__ == "__main__":
    main()
