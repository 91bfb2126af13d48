#!/usr/bin/env python3
"""Brings this repository's own names to the spelling of CONTRACT_STYLE.md's section "Names".

Run it at the top of the repository, with no arguments. It reads what specs/ and the lemma files in proofs/ declare,
works out each name's spelling in snake case, keeps a dash only between two names of things, and puts the new names
wherever the old ones stand: .antt files, clauses and `ghost use` lines of .rt files, wrong programs, and code in
README.md and docs/. Types, code in src/, module names and names that Rattle makes stay. A second run changes nothing.
"""

import collections
import glob
import re

LIBRARY = set(
    "length take drop append map get_or set reverse add sub mul div mod pow zero suc nil cons eq lt le leb eqb and or not if cond"
    " bit true false min max sum head tail update replicate".split()
)
RESERVED = set(
    "data record deriving module where use mod pub package open as unfoldable abbrev axiom unfold unfolding ruleset mutual infix"
    " infixl infixr elim let in do Type coe fcoe tcoe hcom com search grind simp omega rw cc assumption ground subst".split()
)
# Names with a spelling of their own, and names left as they are.
SPECIAL = {"goesOn": "going_on", "no-edge": "no_edge_past", "no-automaton": "no_automaton_past"}
KEPT = set()

WORD = re.compile(r"[^\s(){}\[\],;.:\"`]+")
ASCII = re.compile(r"^[A-Za-z]")


def read(path):
    with open(path, encoding="utf-8", newline="") as f:
        return f.read()


def snake(part):
    if "_" in part:
        return "_".join(snake(p) for p in part.split("_"))
    if not re.match(r"[a-z]", part):
        return part
    part = re.sub(r"([A-Z]+)([A-Z][a-z])", r"\1_\2", part)
    part = re.sub(r"([^A-Z_])([A-Z])", r"\1_\2", part)
    return re.sub(r"[A-Z]", lambda m: m.group().lower(), part)


# What a file declares, as (name, kind): kinds are type, def, lemma, field, con.
def declared(path):
    out = []
    stack = [(0, "module")]
    lines = read(path).split("\n")
    i = 0
    while i < len(lines):
        line = lines[i]
        i += 1
        if not line.strip() or line.lstrip().startswith("--"):
            continue
        indent = len(line) - len(line.lstrip())
        while indent < stack[-1][0]:
            stack.pop()
        if indent != stack[-1][0]:
            continue
        text = line.strip()
        where = stack[-1][1]
        m = re.match(r"((?:abbrev |unfoldable |pub )*)mutual\s*$", text)
        if m:
            stack.append((indent + 2, "defs" if m.group(1) else "module"))
            continue
        m = re.match(r"(?:pub )?(module|record|data)(?: pub)? (\S+)", text)
        if m:
            end = line
            while not re.search(r"\bwhere\s*(--.*)?$", end) and i < len(lines) and lines[i].startswith(" " * (indent + 2)):
                end = lines[i]
                i += 1
            if m.group(1) != "module":
                out.append((m.group(2), "type", ""))
            stack.append((indent + 2, m.group(1)))
            continue
        m = re.match(r"((?:(?:abbrev|unfoldable|pub|axiom) )*)([^\s:(){}=]+(?: [^\s:(){}=]+)*)(?: \{[^:=}]*\})? :(?:\s|$)", text)
        if not m or text.startswith("use "):
            continue
        sig = text
        while i < len(lines) and lines[i].startswith(" " * (indent + 2)) and where in ("module", "defs"):
            sig += " " + lines[i].strip()
            i += 1
        for name in m.group(2).split():
            if where == "record":
                kind = "field"
            elif where == "data":
                kind = "con"
            elif re.search(r"→ Type \d+\s*(--.*)?$|: Type \d+\s*$", text):
                kind = "type"
            elif where == "defs" or "/specs/" in path or "abbrev" in m.group(1) or "unfoldable" in m.group(1):
                kind = "def"
            else:
                kind = "lemma"
            out.append((name, kind, sig))
    return out


LEMMA_FILES = sorted(glob.glob("crates/*/specs/**/*.antt", recursive=True) + glob.glob("crates/*/proofs/*.antt"))
ALL_ANTT = sorted(glob.glob("crates/**/*.antt", recursive=True))
ALL_RT = sorted(glob.glob("crates/**/*.rt", recursive=True))


def uncomment(line):
    m = re.search(r"(?:^|\s)--(?:\s|-|$)", line)
    return (line, "") if not m else (line[: m.start()], line[m.start() :])


# What a library's word in a lemma's name says in its statement.
SAYS = {
    "eq": "≡", "le": "≤", "lt": "<", "add": "+", "sub": "-", "mul": "*", "div": "/", "mod": "%", "pow": "^", "not": "⊥ not", "and": "× &&",
    "or": "⊎ ||", "zero": "0 zero", "nil": "[]", "cons": "∷", "append": "++ append", "if": "cond", "true": "true", "false": "false",
}


def flat(name):
    return "_".join(snake(p) for p in name.split("-"))


# Whether a part of a lemma's name is the name of a thing that the lemma's statement speaks of.
def thing_in(part, sig, things):
    if part in SAYS:
        return any(w in sig.split() or w in WORD.findall(sig) for w in SAYS[part].split())
    said = {flat(w) for w in WORD.findall(sig)}
    return part in said and (part in things or part in LIBRARY or re.search(r"\." + re.escape(part) + r"(?![\w'])", sig) is not None)


# The name's words, with a dash only between two names of things.
def respelled(name, kinds, sigs, things):
    parts = name.split("-")
    if not ASCII.match(name) or "" in parts or "◌" in name:
        return name
    if kinds & {"type"} and re.match(r"[A-Z]", name):
        return name
    parts = [snake(p) for p in parts]
    if kinds & {"field", "con", "def"}:
        return "_".join(parts)
    found = {dashed(parts, sig[sig.index(" : ") + 3 :] if " : " in sig else sig, things) for sig in sigs}
    return found.pop() if len(found) == 1 else "_".join(parts)


def dashed(parts, sig, things):
    units = []
    k = 0
    while k < len(parts):
        for n in range(len(parts), k, -1):
            joined = "_".join(parts[k:n])
            if n == k + 1 or thing_in(joined, sig, things):
                units.append(joined)
                k = n
                break
    out = units[0]
    for left, right in zip(units, units[1:]):
        a, b = left.split("_"), right.split("_")
        ends = any(thing_in("_".join(a[i:]), sig, things) for i in range(len(a)))
        starts = any(thing_in("_".join(b[: i + 1]), sig, things) for i in range(len(b)))
        out += ("-" if ends and starts else "_") + right
    return out


OWN = re.compile(r"^Rattle\.(\w+)\.(specs(?!\.declared)|proofs)\b")
CRATES = {p.split("/")[1] for p in glob.glob("crates/*/")}
USE = re.compile(r"(?m)^(?:ghost |pub )*use ([^\s{;]+?)(?:\.\{([^}]*)\})?;?[ \t]*(?:as \S+)?[ \t]*$")


# Names that a file has from elsewhere than the repository's own definitions and lemmas, or declares itself in a proof folder.
def foreign(path, text):
    out = set()
    for m in USE.finditer(text):
        own = OWN.match(m.group(1))
        if not (own and own.group(1) in CRATES) and m.group(2):
            out |= {w for w in WORD.findall(m.group(2))}
    if re.match(r"crates/[^/]+/proofs/[^/]+/", path):
        for m in re.finditer(r"(?m)^(?:(?:abbrev|unfoldable|pub) )*(\S+) (?:[^=\n]*? )?[:=]", text):
            out.add(m.group(1))
    return out


# The places in .rt text where the logic's names stand: clauses and `ghost use` lines.
def clauses(text):
    out = []
    for m in re.finditer(r"ghost use [^;]*;|\b(?:requires|ensures|decreases|invariant)(?: \w+)?\s*(\{)", text):
        if not m.group(1):
            out.append((m.start(), m.end()))
            continue
        depth, i = 1, m.end()
        while i < len(text) and depth:
            depth += {"{": 1, "}": -1}.get(text[i], 0)
            i += 1
        out.append((m.end(), i))
    return out


def odd(word):
    return re.search(r"[A-Z]", word) is not None or "-" in word


# Replaces the words of a piece of antt text; in a proof folder only the fields in `fields` are put after a dot, where Rattle's own names stand.
def in_code(text, names, fields=None):
    def put(m):
        word = m.group()
        if fields is not None and m.start() and text[m.start() - 1] == "." and word not in fields:
            return word
        return names.get(word, word)

    return WORD.sub(put, text)


def in_comment(text, names):
    return WORD.sub(lambda m: names.get(m.group(), m.group()) if odd(m.group()) else m.group(), text)


def in_antt(text, names, fields=None):
    out = []
    for line in text.split("\n"):
        code, comment = uncomment(line)
        m = re.match(r"(?:pub )?use [^\s{]+", code)
        head = m.group() if m else ""
        out.append(head + in_code(code[len(head) :], names, fields) + in_comment(comment, names))
    return "\n".join(out)


def in_rt(text, names):
    out, at = [], 0
    for start, end in clauses(text):
        out += [in_remarks(text[at:start], names), in_path_list(text[start:end], names)]
        at = end
    return "".join(out) + in_remarks(text[at:], names)


def in_remarks(text, names):
    return re.sub(r"//[^\n]*", lambda m: in_comment(m.group(), names), text)


def in_path_list(text, names):
    m = re.match(r"ghost use [^\s{]+", text)
    head = m.group() if m else ""
    return head + in_code(text[len(head) :], names)


def code_of(path, text):
    if path.endswith(".rt"):
        return "\n".join(text[a:b] for a, b in clauses(text))
    return "\n".join(uncomment(line)[0] for line in text.split("\n"))


def main():
    kinds, sigs = collections.defaultdict(set), collections.defaultdict(list)
    for path in LEMMA_FILES:
        for name, kind, sig in declared(path):
            kinds[name].add(kind)
            sigs[name].append(sig)
    things = {flat(n) for n, k in kinds.items() if k & {"def", "type", "con"}}
    made = set()
    for path in ALL_RT:
        for m in re.finditer(r"\bfn (\w+)", read(path)):
            made.add(m.group(1).replace("_", "-"))
    names = {}
    for name in kinds:
        new = SPECIAL.get(name, name if name in KEPT else respelled(name, kinds[name], sigs[name], things))
        if new != name:
            names[name] = new
    skipped = settle(names, kinds)
    apply(names, {n for n, k in kinds.items() if "field" in k} - made, kinds)
    print(f"{len(names)} names respelled")
    for line in skipped:
        print("  " + line)


# Takes back or changes new names that would fall together with another word of some file.
def settle(names, kinds):
    skipped = []
    texts = {p: read(p) for p in ALL_ANTT + ALL_RT}
    words, alien = {}, {}
    for path, text in texts.items():
        code = code_of(path, text)
        code = re.sub(r"(?m)^((?:ghost |pub )*use) [^\s{;]+", r"\1", code)
        words[path] = {(w.group(), code[max(w.start() - 1, 0) : w.start()] == ".") for w in WORD.finditer(code)}
        alien[path] = foreign(path, text)
    for old in sorted(names):
        if names[old] in RESERVED:
            skipped.append(f"{old}: {names[old]} is a reserved word; kept")
            del names[old]
    for turn in range(6):
        clashes = collections.defaultdict(set)
        for path in texts:
            to = collections.defaultdict(set)
            for w, dotted in words[path]:
                to[(w if w in alien[path] else names.get(w, w), dotted)].add(w)
            for (new, _), olds in to.items():
                if len(olds) > 1:
                    clashes[(new, tuple(sorted(olds)))].add(path)
        if not clashes:
            break
        for (new, olds), paths in sorted(clashes.items()):
            moved = [o for o in olds if names.get(o) == new]
            lemmas = [o for o in olds if kinds.get(o) == {"lemma"}]
            first = sorted(paths)[0]
            if not moved:
                skipped.append(f"{', '.join(olds)} all {new} in {first} ({len(paths)}): unsettled")
                continue
            if len(lemmas) == len(olds) or not lemmas:
                pick = moved[-1]
                if pick in lemmas and "-" in pick and flat_dash(pick) != new and flat_dash(pick) not in kinds:
                    names[pick] = flat_dash(pick)
                    skipped.append(f"{pick}: {new} is taken in {first}; now {names[pick]}")
                else:
                    del names[pick]
                    skipped.append(f"{pick}: {new} is taken in {first} by {', '.join(o for o in olds if o != pick)}; kept")
                continue
            for o in lemmas:
                if names.get(o, o) == new:
                    names[o] = flat_dash(o) if "-" in o and flat_dash(o) != new else new + "_lem"
                    skipped.append(f"{o}: {new} is taken in {first} by {', '.join(p for p in olds if p != o)}; now {names[o]}")
    for name in [n for n in names if names[n] == n]:
        del names[name]
    return skipped


def flat_dash(name):
    return "-".join(snake(p) for p in name.split("-"))


def write(path, old, new):
    if old != new:
        with open(path, "w", encoding="utf-8", newline="") as f:
            f.write(new)


def apply(names, fields, kinds):
    ends = {names.get(n, n) for n in kinds}
    # older spellings of names that are turned already, for text that no compiler reads
    class Wide(dict):
        def get(self, word, default=None):
            if word in names:
                return names[word]
            if not re.match(r"[a-z]", word) or word in kinds or word in ends or not odd(word) or not re.search(r"[a-z][A-Z]", word):
                return default
            return flat(word) if flat(word) in ends else flat_dash(word) if flat_dash(word) in ends else default

    wide = Wide(names)
    for path in ALL_ANTT + ALL_RT:
        text = read(path)
        alien = foreign(path, text)
        here = {o: n for o, n in names.items() if o not in alien}
        if path.endswith(".rt"):
            write(path, text, in_rt(text, here))
        else:
            folder = re.match(r"crates/[^/]+/proofs/[^/]+/", path)
            write(path, text, in_antt(text, here, fields if folder else None))
    for path in sorted(glob.glob("crates/*/must-fail/*.edit")):
        text = read(path)
        logic = re.search(r"(?m)^file: (specs|proofs)/", text)
        out = []
        for line in text.split("\n"):
            m = re.match(r"(old|new):", line)
            if line.startswith("#"):
                line = in_comment(line, wide)
            elif m and logic:
                line = m.group() + in_antt(line[4:], wide)
            elif m:
                line = m.group() + in_rt(line[4:], wide)
            out.append(line)
        write(path, text, "\n".join(out))
    outer = "\n".join(read(p) for p in sorted(glob.glob("include/*.h")))
    for path in ["README.md"] + sorted(glob.glob("docs/*.md")):
        if path in ("docs/CHANGES.md", "docs/PORT.md"):
            continue
        text = read(path)
        new = re.sub(r"`([^`\n]+)`", lambda m: "`" + (in_code(m.group(1), wide) if not re.search(r"[/]", m.group(1)) and m.group(1) not in outer else m.group(1)) + "`", text)
        write(path, text, new)


if __name__ == "__main__":
    main()
