#!/usr/bin/env python3
"""Lists the places that docs/DESIGN-PASS.md counts: python3 tools/places.py [POINT..] [--list].

Run at the top of the repository. Each line of a point is a pattern over crates/*/src with how often it is found; with --list the places
themselves. The patterns find candidates: docs/DESIGN-PASS.md says which of them are kept, and why.
"""
import collections
import difflib
import glob
import re
import sys

FILES = sorted(glob.glob("crates/*/src/**/*.rt", recursive=True))
TEXT = {f: open(f, encoding="utf-8").read() for f in FILES}


def lines_that(pattern):
    found = re.compile(pattern)
    return [f"{f}:{i}: {l.strip()}" for f in FILES for i, l in enumerate(TEXT[f].splitlines(), 1) if not l.strip().startswith("//") and found.search(l)]


class Function:
    """A function: its file, name, parameters, contract and body."""

    def __init__(self, file, match):
        text = TEXT[file]
        self.file, self.name = file, match.group(1)
        at, depth = match.end() - 1, 0
        start = at
        while True:
            depth += {"(": 1, ")": -1}.get(text[at], 0)
            at += 1
            if depth == 0:
                break
        self.parameters = [p.strip() for p in re.split(r",(?![^\[<]*[\]>])", text[start + 1:at - 1]) if p.strip()]
        body = re.compile(r"(?:^[ ]*\{$|\{$)", re.M)
        here = body.search(text, at)
        while here and re.search(r"(requires|ensures)[^\n]*\{$", text[text.rfind("\n", 0, here.end()) + 1:here.end()]):
            here = body.search(text, here.end())
        self.contract = text[at:here.start()] if here else ""
        at, depth = (here.end() - 1, 0) if here else (len(text), 0)
        start = at
        while at < len(text):
            depth += {"{": 1, "}": -1}.get(text[at], 0)
            at += 1
            if depth == 0:
                break
        self.body = text[start:at]

    def __str__(self):
        return f"{self.file}: {self.name}"


FUNCTIONS = [Function(f, m) for f in FILES for m in re.finditer(r"\bfn (\w+)(?:<[^(]*>)?\(", TEXT[f])]


def tokens(function):
    """The body's words, where a variable counts by where it first stood and a number by being one."""
    names = {}
    words = re.findall(r"\w+|[^\w\s]", re.sub(r"//.*", "", function.body))
    keep = {"if", "else", "for", "in", "while", "return", "let", "mut", "match", "as"}
    out = []
    for i, w in enumerate(words):
        if re.fullmatch(r"\d\w*", w):
            out.append("0")
        elif re.fullmatch(r"\w+", w) and w not in keep and not (i + 1 < len(words) and words[i + 1] == "("):
            out.append("v%d" % names.setdefault(w, len(names)))
        else:
            out.append(w)
    return out


def twins():
    many = [(f, tokens(f)) for f in FUNCTIONS]
    many = [(f, t) for f, t in many if len(t) >= 25]
    out = []
    for i, (f, t) in enumerate(many):
        for g, u in many[i + 1:]:
            m = difflib.SequenceMatcher(None, t, u, False)
            if m.real_quick_ratio() >= 0.85 and m.quick_ratio() >= 0.85 and m.ratio() >= 0.85:
                out.append(f"{f} | {g} ({m.ratio():.2f})")
    return out


def together():
    """Groups of three parameters, by name and type, that stand in three or more functions; only the largest groups."""
    users = collections.defaultdict(set)
    for f in FUNCTIONS:
        ps = [p for p in f.parameters if ":" in p]
        for i in range(len(ps)):
            for j in range(i + 1, len(ps)):
                for k in range(j + 1, len(ps)):
                    users[frozenset((ps[i], ps[j], ps[k]))].add(str(f))
    groups = collections.defaultdict(set)
    for g, who in users.items():
        if len(who) >= 3:
            groups[frozenset(who)] |= g
    return [", ".join(sorted(g)) + " in " + str(len(who)) for who, g in sorted(groups.items(), key=lambda x: -len(x[0]))]


def facts():
    """The heads of what is required, where three or more functions require them."""
    count = collections.Counter()
    for f in FUNCTIONS:
        for clause in re.findall(r"requires[^{]*\{(.*?)\}\n", f.contract, re.S):
            for head in set(re.findall(r"(?:^|[×(]\s*|\s)\(?([A-Z]\w+)(?= )", clause)):
                count[head] += 1
    return [f"{h} in {n}" for h, n in count.most_common() if n >= 3]


POINTS = {
    "1": [
        ("enums", lambda: lines_that(r"\benum \w+ \{")),
        ("a flag, an outcome or a search's result beside other fields", lambda: lines_that(r"^\s*(pub )?\w+: (bool|Outcome|Found),$")),
        ("numbers for kinds or refusals", lambda: lines_that(r"\b(refusal|code|prime_code|flags|exists|yes): u32\b(?!::)")),
        ("enums and structs without comparisons", lambda: lines_that(r"derive\(Clone, Copy\)")),
    ],
    "2": [("functions whose bodies are the same but for names, numbers and a seventh of the words", twins)],
    "3": [
        ("while", lambda: lines_that(r"^\s*while\b")),
        ("for over numbers", lambda: lines_that(r"^\s*for \w+ in .*\.\.")),
    ],
    "4": [
        ("conversions by name", lambda: lines_that(r"\bfn (wide|size|\w*reported|refusal_number|bytes_written|prime_of_code|term)\(")),
        ("max, min and saturating_sub by hand", lambda: lines_that(r"\bfn (larger|longer|less|first_term|end_of_terms)\(")),
        ("arrays copied or converted element by element", lambda: lines_that(r"^\s*\w+(\.\w+)?\[\w+\] = (c|\w+(\.\w+)*\[\w+\]( as u\d+)?);")),
        ("fields named twice", lambda: lines_that(r"^\s*(\w+): \1,$")),
    ],
    "5": [("three parameters or more that stand in three functions or more", together), ("facts required by three functions or more", facts)],
    "6": [
        ("a buffer with its count", lambda: lines_that(r"^\s*pub count: usize,$")),
        ("rows in one flat array", lambda: lines_that(r"\[u32; 128\]")),
        ("places in it by hand", lambda: lines_that(r"\* 4 \+ |\* 4;")),
        ("one array in a struct", lambda: lines_that(r"^\s*pub (v|by|c): \[")),
    ],
    "7": [("a choice between steps", lambda: lines_that(r"^\s*match (leading|q|mark_of)\b|if (marks|outputs < 3|spare\.value == 1) \{"))],
}


def main():
    asked = [a for a in sys.argv[1:] if a in POINTS] or list(POINTS)
    for point in asked:
        for name, find in POINTS[point]:
            found = find()
            print(f"{point}. {name}: {len(found)}")
            if "--list" in sys.argv:
                print("".join(f"    {x}\n" for x in found), end="")


main()
