#!/usr/bin/env python3
"""Spells the repository's own definitions and lemmas as today's Rattle does: words in snake case, a dash only between two names.

usage: tools/respell.py map      writes tools/respell.tsv, old name and new, from the .antt files of crates/
       tools/respell.py apply    replaces those names, as whole words, in crates/ and in the pages named below
       tools/respell.py apply FILE..   the same in these files alone

A definition in lower camel case becomes snake case (modulusOf: modulus_of). In a lemma's name a dash stays where it joins two names of functions or operators
(add-mul), and is an underscore elsewhere (undivided-by: undivided_by). Functions of src/, types, facts, exported names and text in quotes stay as they are.
"""
import os
import re
import sys

TOP = os.path.dirname(os.path.dirname(os.path.abspath(__file__)))
TABLE = os.path.join(TOP, "tools", "respell.tsv")
# What port.py respelled, which turns neither pages nor must-fail edits.
BY_PORT = os.path.join(TOP, "tools", "respelled_by_port.tsv")
NAME = r"[\w'’₀-₉⁰-⁹μφψ-]+"
WORDS = set(
    "add mul sub div mod neg inv pow le lt eq ne suc length append cons drop take get get_or set replicate map sum tabulate reverse head tail all".split()
)
# A plain word, which is added with an underscore on either side.
PLAIN = set("of to at by from if or and not no is are in for as with any all end".split())
# Names that would fall together with another one.
BY_HAND = {}
IN_ONE_FILE = {"crates/answer/proofs/Written.antt": {"two_bytes": "two_bytes_lem"}}
PAGES = ["README.md", "docs"]


def files(*endings):
    for folder, dirs, names in os.walk(os.path.join(TOP, "crates")):
        dirs[:] = sorted(d for d in dirs if d != "out")
        for name in sorted(names):
            if name.endswith(endings):
                yield os.path.join(folder, name)


def read(path):
    with open(path, encoding="utf-8") as file:
        return file.read()


def snake(name):
    return re.sub(r"(?<=[a-z0-9'])([A-Z])", lambda m: "_" + m.group(1).lower(), name)


def is_word(name):
    return not re.match(r"[A-Z]", name)


def declared():
    """The functions and the lemmas that the .antt files declare; a function's own proof (Proof.antt) is left out."""
    functions, lemmas = set(), set()
    for path in files(".antt"):
        if os.path.basename(path) == "Proof.antt":
            continue
        text = read(path)
        for m in re.finditer(rf"^ *((?:(?:unfoldable|abbrev|pub|private|ruleset) )*)({NAME})(?: [({{][^\n]*?)? :(?= |$)", text, re.M):
            (functions if re.search("unfoldable|abbrev", m.group(1)) else lemmas).add(m.group(2))
        for m in re.finditer(rf"\bruleset ({NAME})", text):
            lemmas.add(m.group(1))
    for path in files(".rt"):
        functions |= set(re.findall(r"\bfn (\w+)", read(path)))
    return functions, lemmas - functions


def library():
    """The names that files import from elsewhere."""
    crates = set(os.listdir(os.path.join(TOP, "crates")))
    names = set()
    for path in files(".antt", ".rt"):
        for m in re.finditer(r"^ *(?:ghost )?use ([\w.'+-]+?)\.\{([^}]*)\}", read(path), re.M):
            parts = m.group(1).split(".")
            if not (parts[0] == "Rattle" and parts[1] in crates):
                names |= {part.strip() for part in m.group(2).split(",")}
    return names


def joined(parts, functions):
    """The parts with a dash between two names of functions, and an underscore elsewhere."""
    known = WORDS | {snake(f) for f in functions}
    text = parts[0]
    start = 0
    for k in range(1, len(parts)):
        before = any("_".join(parts[j:k]) in known for j in range(start, k))
        after = any("_".join(parts[k:j]) in known for j in range(k + 1, len(parts) + 1))
        if before and after and not {parts[k - 1], parts[k]} & PLAIN:
            text += "-" + parts[k]
            start = k
        else:
            text += "_" + parts[k]
    return text


def table():
    functions, lemmas = declared()
    foreign = library()
    names = {n for n in functions | lemmas if is_word(n) and n not in foreign and n not in ("--", "-")}
    pairs = {}
    for name in sorted(names):
        if name in BY_HAND:
            new = BY_HAND[name]
        elif "-" in name and not name.startswith("-"):
            parts = [snake(p) for p in name.split("-")]
            new = joined(parts, functions) if all(parts) else name
        else:
            new = snake(name)
        if new != name:
            pairs[name] = new
    # A lemma that would have its function's name gets _lem.
    taken = {pairs.get(f, f) for f in functions}
    for name in lemmas & set(pairs):
        if pairs[name] in taken:
            pairs[name] += "_lem"
    return pairs


def words_of_all():
    words = set()
    for path in files(".antt", ".rt"):
        words |= set(re.findall(NAME, read(path)))
    return words


def write_map():
    pairs = table()
    words = words_of_all()
    seen = {}
    for old, new in pairs.items():
        if new in seen:
            print(f"respell: {old} and {seen[new]} would both be {new}")
        seen[new] = old
        if new in words:
            print(f"respell: {old} would be {new}, which stands already")
    with open(TABLE, "w", encoding="utf-8") as file:
        file.writelines(f"{old}\t{new}\n" for old, new in sorted(pairs.items()))
    print(f"respell: {len(pairs)} names")


def code(text, pairs):
    return re.sub(rf"(?<![\w'-])({NAME})", lambda m: pairs.get(m.group(1), m.group(1)), text)


def prose(text, pairs):
    """A dash in prose joins plain words, so there only names in camel case and names between backticks are meant."""
    parts = text.split("`")
    camel = {old: new for old, new in pairs.items() if "-" not in old}
    return "`".join(code(part, pairs if k % 2 else camel) for k, part in enumerate(parts))


def respelled(path, text, pairs):
    if path.endswith(".md"):
        blocks = text.split("```")
        return "```".join(code(block, pairs) if k % 2 else prose(block, pairs) for k, block in enumerate(blocks))
    remark = {".antt": r"(^|(?<=\s))--\s", ".rt": r"//", ".edit": r"^#"}[os.path.splitext(path)[1]]
    lines = []
    for line in text.split("\n"):
        m = re.search(remark, line)
        k = m.start() if m else len(line)
        lines.append(code(line[:k], pairs) + prose(line[k:], pairs))
    return "\n".join(lines)


def pairs_of(table):
    with open(table, encoding="utf-8") as file:
        return dict(line.rstrip("\n").split("\t") for line in file)


def apply(paths):
    own, all_names = pairs_of(TABLE), pairs_of(BY_PORT) | pairs_of(TABLE)
    changed = 0
    for path in paths:
        text = read(path)
        new = respelled(path, text, IN_ONE_FILE.get(os.path.relpath(path, TOP), {}))
        new = respelled(path, new, all_names if path.endswith((".md", ".edit")) else own)
        if new != text:
            with open(path, "w", encoding="utf-8") as file:
                file.write(new)
            changed += 1
    print(f"respell: {changed} files")


def pages():
    for page in PAGES:
        path = os.path.join(TOP, page)
        if os.path.isfile(path):
            yield path
        for folder, _, names in os.walk(path):
            if not folder.endswith(os.path.join("docs", "changes")):
                for name in sorted(names):
                    if name.endswith(".md"):
                        yield os.path.join(folder, name)


if __name__ == "__main__":
    if sys.argv[1:] == ["map"]:
        write_map()
    elif sys.argv[1:2] == ["apply"]:
        apply(sys.argv[2:] or [*files(".antt", ".rt", ".edit"), *pages()])
    else:
        print(__doc__.strip(), file=sys.stderr)
        sys.exit(2)
