#!/usr/bin/env python3
"""Spells the repository's own names as today's Rattle does: words in snake case, with plain underscores; types and modules keep their capitals.

usage: tools/respell.py [--check] ROOT

It goes over crates/*/specs, proofs and the clauses of src. What is spelled anew is what specs/ and proofs/ declare: definitions, lemmas, fields and
constructors. Functions of src/ and what they hold keep their names, and so do the names that Rattle makes. --check writes nothing and lists what falls together.
"""
import collections, os, re, sys

WORD = r"[^\s(){}.;,@\"«»:\[\]|]+"
HEAD = re.compile(r"(?m)^( *)((?:(?:abbrev|opaque|unfoldable|pub|private|record|data|irreducible|module) )*)(" + WORD + r") (?:[({].*?)?: ")
DECL = re.compile(r"(?m)^( *)((?:(?:abbrev|opaque|unfoldable|pub|private|record|data|irreducible) )*)(" + WORD + r")((?: [({][^\n]*?[)}])*) : ")
TOKEN = re.compile(r"\"(?:[^\"\\\n]|\\.)*\"|(?<![^\s(){}.;,@\"«»])--[^\n]*|" + WORD)
OWN_FILES = ("Proof.antt", "Answers.antt", "Invariants.antt")
MADE = re.compile(r"tie\.|statement\b|goal\.")


# A lemma that would get the name of the definition that it speaks of, and a field that would.
TOGETHER = {
    n: n.replace("-", "_") + "_lem"
    for n in ("after-columns", "after-lines", "after-marks", "down-at", "entry-of", "given-up", "group-taken", "joint-in", "most-stones", "on-picture", "pair-used", "row-at", "rows-met", "seen-in")
} | {"from-right": "from_the_right"}
# The same for a lemma whose name port.py spelled, in its file alone.
TOGETHER_IN = {"crates/match_capstones/proofs/Pairs.antt": {"sets_of": "sets_of_lem"}}


def snake(name):
    """The new spelling of a name, or the name."""
    if name in TOGETHER:
        return TOGETHER[name]
    if not re.match(r"[a-z]", name) or not re.search(r"[A-Z-]", name):
        return name
    out = re.sub(r"(?<=[a-z0-9])([A-Z]+)(?=[A-Z][a-z])", lambda m: "_" + m[1].lower(), name)
    out = re.sub(r"(?<=[a-z0-9])([A-Z])", lambda m: "_" + m[1].lower(), out)
    out = re.sub(r"(?<=[A-Za-z0-9'])-(?=[A-Za-z0-9])", "_", out)
    return out


def files(root, end):
    for folder, dirs, names in os.walk(os.path.join(root, "crates")):
        dirs[:] = sorted(d for d in dirs if d not in ("out", ".git"))
        for f in sorted(names):
            if f.endswith(end):
                yield os.path.join(folder, f)


def declared(root):
    """Old name to new, for what specs/ and proofs/ declare; the helpers of a function's own proof file stand apart, by file."""
    all_, by_file = {}, {}
    for p in files(root, ".antt"):
        own = os.path.basename(p) in OWN_FILES and "/proofs/" in p
        text = open(p, encoding="utf-8").read()
        here = {}
        for m in DECL.finditer(text):
            name, rest = m[3], text[m.end():m.end() + 40]
            if own and not m[1] and (MADE.match(rest) or "statement" in rest):
                continue
            new = snake(name)
            if new != name:
                here[name] = new
        if own:
            by_file[p] = here
        else:
            all_.update(here)
    return all_, by_file


def turn_antt(text, names):
    def one(m):
        w = m[0]
        if w.startswith('"'):
            return w
        if w.startswith("--"):
            return re.sub(r"`([^`\n]+)`", lambda s: "`" + TOKEN.sub(one, s[1]) + "`", w)
        return names.get(w, w)
    return TOKEN.sub(one, text)


RUST = re.compile(r"//[^\n]*|\"(?:\\.|[^\"\\])*\"|b?'(?:\\u\{[0-9a-fA-F_]+\}|\\x..|\\.|[^'\\])'")
CLAUSE = re.compile(r"(?:\b(?:requires|ensures)\s*\*?\s*(?:\w+\s*)?\{|\bghost\s+(?:invariant\s+)?\w*\s*(?::\s*(?:(?:owns|lends)\s*)?|=\s*)?\{)")


def clause_spans(text):
    """Where antt stands in a .rt file: the insides of clauses and of ghost items, and the ghost use lines."""
    spans = [(m.start(), m.end()) for m in re.finditer(r"\bghost\s+use\b[^;]*;", text)]
    for m in CLAUSE.finditer(text):
        depth, i = 1, m.end()
        while depth and i < len(text):
            depth += {"{": 1, "}": -1}.get(text[i], 0)
            i += 1
        spans.append((m.end(), i - 1))
    return sorted(spans)


def turn_rt(text, names):
    out, at = [], 0
    comments = [(m.start(), m.end()) for m in RUST.finditer(text) if m[0].startswith("//")]
    spans = [s for s in clause_spans(text) if not any(a <= s[0] < b for a, b in comments)]
    for a, b in spans:
        if a < at:
            continue
        out.append(("r", text[at:a]))
        out.append(("a", text[a:b]))
        at = b
    out.append(("r", text[at:]))

    def rust(part):
        return re.sub(r"//[^\n]*", lambda m: re.sub(r"`([^`\n]+)`", lambda s: "`" + turn_antt(s[1], names) + "`", m[0]), part)
    return "".join(turn_antt(p, names) if k == "a" else rust(p) for k, p in out)


def vocabulary(text):
    return {m[0] for m in TOKEN.finditer(text) if not m[0].startswith(('"', "--"))}


def main(argv):
    check = "--check" in argv
    root = [a for a in argv if not a.startswith("--")][0]
    names, own = declared(root)
    met = collections.defaultdict(list)
    for p in list(files(root, ".antt")):
        here = {**names, **own.get(p, {}), **TOGETHER_IN.get(os.path.relpath(p, root), {})}
        text = open(p, encoding="utf-8").read()
        words = vocabulary(text)
        for w in words:
            if w in here and here[w] in words:
                met[(w, here[w])].append(os.path.relpath(p, root))
        new = turn_antt(text, here)
        if new != text and not check:
            open(p, "w", encoding="utf-8").write(new)
    for p in files(root, ".rt"):
        text = open(p, encoding="utf-8").read()
        new = turn_rt(text, names)
        if new != text and not check:
            open(p, "w", encoding="utf-8").write(new)
    back = collections.defaultdict(set)
    for a, b in names.items():
        back[b].add(a)
    for b, many in sorted(back.items()):
        if len(many) > 1:
            print("together:", b, sorted(many))
    for (a, b), where in sorted(met.items()):
        print("meets:", a, b, len(where), " ".join(where[:6]))
    print(len(names), "names")


main(sys.argv[1:])
