#!/usr/bin/env python3
"""Counts in crates/*/src the places that an older form of the language left (docs/DESIGN-PASS.md), point by point.

usage: forms.py [COMMIT] [-l]     COMMIT: count there and not in the checkout; -l: list the places
"""
import re
import subprocess
import sys


def files(commit):
    """The name and text of each source file."""
    if commit:
        names = subprocess.run(["git", "ls-tree", "-r", "--name-only", commit, "crates"], capture_output=True, text=True, check=True).stdout.split()
    else:
        names = subprocess.run(["git", "ls-files", "crates"], capture_output=True, text=True, check=True).stdout.split()
    for name in sorted(names):
        if re.fullmatch(r"crates/\w+/src/.*\.rt", name):
            if commit:
                text = subprocess.run(["git", "show", f"{commit}:{name}"], capture_output=True, text=True, check=True).stdout
            else:
                with open(name) as f:
                    text = f.read()
            yield name[len("crates/"):].replace("/src/", "/"), text


def code(text):
    """The text without comments."""
    return re.sub(r"//[^\n]*", "", text)


FUNCTION = re.compile(r"(?m)^( *)(?:pub |pub\(crate\) )?(?:extern \"C\" )?fn (\w+)(<[^(]*>)?\(([^{]*?)\)([^{]*?)((?:\n *(?:requires|ensures)[^\n]*(?:\n +[→×][^\n]*| {8,}[^\n]*)*)*)\n?\s*\{\n(.*?)\n\1\}", re.S)


def functions(text):
    """Each function: its name, parameters, result, clauses and body."""
    for m in FUNCTION.finditer(code(text)):
        yield m.group(2), " ".join(m.group(4).split()), m.group(5).strip(), m.group(6), m.group(7)


def lines_with(sources, pattern):
    found = []
    for name, text in sources:
        for i, line in enumerate(code(text).split("\n"), 1):
            if re.search(pattern, line):
                found.append(f"{name}:{i}: {line.strip()}")
    return found


def shaped_enums(sources):
    """Enums of which one case holds a value and another says that there is none."""
    found = []
    for name, text in sources:
        for m in re.finditer(r"(?m)^(?:pub |pub\(crate\) )?enum (\w+)[^{]*\{(.*?)\n\}", code(text), re.S):
            cases = [c.strip() for c in re.findall(r"(?m)^    (\w+(?:\([^)]*\))?)", m.group(2))]
            if len(cases) < 5 and any(re.fullmatch(r"(Refused|Failed|None|Not\w+|Too\w+)(\(.*\))?", c) for c in cases) and any("(" in c for c in cases):
                found.append(f"{name}: enum {m.group(1)}: {', '.join(cases)}")
    return found


def flags(sources):
    """Structs with a field that says whether the others hold a value, or why not."""
    found = []
    for name, text in sources:
        for m in re.finditer(r"(?m)^(?:pub |pub\(crate\) )?struct (\w+)[^{(;]*\{(.*?)\n\}", code(text), re.S):
            if re.search(r"\b(number|fits|read|there|more): (u8|usize|bool),", m.group(2)):
                found.append(f"{name}: struct {m.group(1)}")
    return found


def sentinels(sources):
    """Constants that stand for no value, and those that are a refusal's number."""
    return lines_with(sources, r"^\s*(pub |pub\(crate\) )?const (NOT_NUMBER|FAR|NONE|COUNTERS|LENGTH|WAY|FACT: u8|NODE: u8|AUTOMATON: u8|STATE: u8|DIRECTION: u8|COUNT: u8)\b")


def numbers(sources):
    """Functions that answer a question's number, a log's number or 0, and configurations or entries or FAR."""
    found = []
    for name, text in sources:
        for f, _, result, clauses, _ in functions(text):
            if re.search(r"question$|question_of$|^first_misfit$|^first_without_room$|^question_of$", f) and re.match(r"-> (u8|usize|Stop)", result):
                found.append(f"{name}: {f} {result}")
            if re.search(r"\bfar\b", clauses) and re.match(r"-> u16$", result):
                found.append(f"{name}: {f} {result}")
            if f in ("entry_before", "prior", "arrival", "nearer") and re.match(r"-> u16$", result) and f"{name}: {f} {result}" not in found:
                found.append(f"{name}: {f} {result}")
    return found


def literal_numbers(sources):
    """Refusals by a number in the code."""
    return lines_with(sources, r"\b(refusal|refused_part|Refused|stop_at|stopped|no)\(([1-9]\d?)\b|\bnumber: [1-9]\d?\b|\bnumber == [1-9]\d?\b|return [345]\d;")


def twins(sources):
    """Functions whose bodies are the same but for names and constants."""
    groups = {}
    for name, text in sources:
        for f, _, _, _, body in functions(text):
            shape = re.sub(r"\s+", " ", body)
            shape = re.sub(r"\bb?'[^']*'|b?\"[^\"]*\"", "q", shape)
            shape = re.sub(r"\b[A-Za-z_]\w*\b", "x", re.sub(r"\b\d+\b", "0", shape))
            if len(shape) > 60:
                groups.setdefault(shape, []).append(f"{name}: {f}")
    return [" = ".join(g) for g in groups.values() if len(g) > 1]


def loops(sources):
    """Loops that are no `for`."""
    return lines_with(sources, r"^\s*('\w+: )?(while|loop)\b")


def index_loops(sources):
    """Loops that count by hand."""
    found = []
    for name, text in sources:
        for f, _, _, _, body in functions(text):
            for m in re.finditer(r"(?m)^( *)while [^\n]*\{\n(.*?)\n\1\}", body, re.S):
                if re.search(r"(?m)^\s*\w+ [+-]= 1;", m.group(2)):
                    found.append(f"{name}: {f}")
    return found


def by_hand(sources):
    """Functions that only cast, choose, copy or compare with nothing, as derives and the library do."""
    found = []
    for name, text in sources:
        for f, params, result, _, body in functions(text):
            b = " ".join(body.split())
            if re.fullmatch(r"\w+ as \w+", b) or re.fullmatch(r"if \w+ \{ [\w!]+ \} else \{ [\w!]+ \}", b) or re.fullmatch(r"if \w+ < \w+ \{ return \w+; \} \w+", b):
                found.append(f"{name}: {f}")
            elif re.match(r"is_no_\w+|has_no_\w+$", f) or f in ("copy", "put_words", "row_of", "put_row", "flag_at"):
                found.append(f"{name}: {f}")
    return found


def copied_fields(sources):
    """Values that are built by listing fields that most of them keep."""
    found = []
    for name, text in sources:
        for m in re.finditer(r"\b[A-Z]\w+ \{\n(.*?)\n\s*\}", code(text), re.S):
            kept = re.findall(r"(\w+): (\w+)\.\1,", m.group(1))
            if len(kept) > 1:
                found.append(f"{name}: {len(kept)} fields of {kept[0][1]}")
    return found


def facts(sources):
    """Facts about one value that stand in the clauses of three or more functions."""
    known = {}
    for name, text in sources:
        for f, _, _, clauses, _ in functions(text):
            for fact in set(re.findall(r"length \w+\.(?:now|old) ≡ \w+|\b(?:Packed|Lent|Prepared) t \w+ ?\w*\.now|\bReady arcs\.now|\bPlaced \(length|\bEdgesFit edges\.now|\bSized c\b|length \(paired words\.now\) ≤ entry_limit|Progress \(graph", clauses)):
                known.setdefault(re.sub(r"\.(now|old)", "", fact), []).append(f"{name}: {f}")
    return [f"{k}: {len(v)} functions" for k, v in known.items() if len(v) > 2]


def together(sources):
    """Parameters that travel together through four or more functions."""
    pairs = {}
    for name, text in sources:
        for f, params, _, _, _ in functions(text):
            ps = [p.split(":")[0].strip().replace("mut ", "") for p in params.split(",") if ":" in p]
            for a, b in zip(ps, ps[1:]):
                pairs.setdefault((name.split("/")[0], a, b), []).append(f)
    return [f"{c}: {a}, {b}: {len(v)} functions" for (c, a, b), v in pairs.items() if len(v) > 3]


def buffers(sources):
    """Buffers with a place or a length beside them."""
    found = []
    for name, text in sources:
        for f, params, _, _, _ in functions(text):
            if re.search(r"&mut \[\w+(; [\w:]+)?\], (at|place|top|next|n|done): usize|at: usize, \w+: &mut|\bplace: usize, steps|stack: &mut \[u32\], top|stack: &\[u32\], top|\btail: u16, dist", params):
                found.append(f"{name}: {f}")
    return found


def switches(sources):
    """A step chosen by a flag, a letter or an instruction."""
    found = []
    for name, text in sources:
        for f, params, _, _, body in functions(text):
            if re.search(r"counted: bool|\bop: u8", params) or re.search(r"match (letter|cases::letter)|if letter == b'|call == b'|cases::letter\(line\) == ", body):
                found.append(f"{name}: {f}")
    return found


POINTS = [
    ("1 own enums of the shape of Option or Result", shaped_enums),
    ("1 a flag or a number with values beside it", flags),
    ("1 constants for no value or for a refusal", sentinels),
    ("1 functions that answer a number for a refusal or for none", numbers),
    ("1 refusals by a number in the code (lines)", literal_numbers),
    ("2 groups of functions with one body", twins),
    ("3 loops that are no `for`", loops),
    ("3 of them, loops that count by hand", index_loops),
    ("4 casts, choices, copies, comparisons as functions", by_hand),
    ("4 values built field by field from another", copied_fields),
    ("5 facts in the clauses of three or more functions", facts),
    ("5 pairs of parameters in four or more functions of a crate", together),
    ("6 buffers with a place or a length beside them (functions)", buffers),
    ("7 steps chosen by a flag, letter or instruction (functions)", switches),
]


def main():
    args = [a for a in sys.argv[1:] if a != "-l"]
    sources = list(files(args[0] if args else None))
    for title, count in POINTS:
        found = count(sources)
        print(f"{title}: {len(found)}")
        if "-l" in sys.argv:
            for line in found:
                print(f"    {line}")


if __name__ == "__main__":
    main()
