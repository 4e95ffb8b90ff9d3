#!/usr/bin/env python3
"""Brings the names of this repository's definitions and lemmas to the spelling of today's Rattle: words in snake case, types and modules in
camel case. Run once, at the top, after the kit's port.py and before any edit by hand.

A name that specs/ or proofs/ declares gets underscores for capitals and dashes. Where two names would fall together, the one with a dash, which
is a lemma or a field, gets `_lem` after it. The acronyms of modules and types become words: CMAC is Cmac. A name that a file imports from a library
stays in that file. Functions of src/, strings, inputs and outputs are not touched: what changes is code of .antt files, clauses and `ghost use` of
.rt files, the texts of must-fail edits, and code spans of README.md and docs/ that are a name.

With --table it prints the renamings and writes nothing.
"""

import collections
import glob
import os
import re
import sys

WORD = r"""[^\s(){}.;,@"«»]+"""
# Words of the command that a lemma is called like.
WORDS = {"present-80", "present-128"}
ACRONYMS = {"CBC": "Cbc", "CMAC": "Cmac", "CTR": "Ctr", "UTF8": "Utf8"}


def files():
    for pattern in ("crates/*/specs/**/*.antt", "crates/*/proofs/**/*.antt", "crates/*/src/**/*.rt"):
        yield from sorted(glob.glob(pattern, recursive=True))


def read(path):
    with open(path, encoding="utf-8") as it:
        return it.read()


def without_comments(text):
    return re.sub(r"(?m)(?<![^\s(){}.;,])--[^\n]*", "", text)


def declared():
    """Each name that specs/ or a lemma file of proofs/ declares, with the kinds of its declarations."""
    kinds = collections.defaultdict(set)
    paths = glob.glob("crates/*/specs/**/*.antt", recursive=True) + glob.glob("crates/*/proofs/*.antt")
    for path in paths:
        inside = None
        for line in without_comments(read(path)).split("\n"):
            it = re.match(rf"(?:(?:abbrev|unfoldable|pub)\s+)*(data|record)\s+({WORD})", line)
            if it:
                inside = it[1]
                kinds[it[2]].add(inside)
                continue
            it = re.match(rf"(?:(?:abbrev|unfoldable|pub)\s+)*({WORD})(?:\s+\{{[^}}]*\}})*\s*:(?!:)\s", line)
            if it and it[1] not in ("use", "infix", "infixl", "infixr"):
                kinds[it[1]].add("definition" if re.match(r"(pub\s+)?(abbrev|unfoldable)", line) else "lemma")
                inside = None
                continue
            it = re.match(rf"\s+(?:pub\s+)?({WORD}(?: {WORD})*)\s+:\s", line)
            if it:
                for name in it[1].split():
                    kinds[name].add("field" if inside else "local")
        for it in re.finditer(rf"{WORD} as ({WORD})", read(path)):
            if not it[1].startswith(("λ", "(")):
                kinds[it[1]].add("definition")
    for path in glob.glob("crates/*/src/**/*.rt", recursive=True) + glob.glob("crates/*/proofs/*/**/*.antt", recursive=True):
        for it in re.finditer(rf"{WORD} as ({WORD})", read(path)):
            if re.search(r"[a-z0-9][A-Z]", it[1]):
                kinds[it[1]].add("definition")
    return kinds


def snake(name):
    words = re.sub(r"(?<![a-z])get(D|_d)(?![a-z])", "get_or", name)
    words = re.sub(r"(?<=[a-z0-9])[A-Z]", lambda m: "_" + m[0].lower(), words)
    words = words.replace("-", "_")
    return re.sub(r"(?<=[A-Za-z0-9])__+", "_", words)


def table():
    kinds = declared()
    new = {}
    for name in kinds:
        if "◌" in name or not re.search(r"\w", name):
            continue
        if name in ACRONYMS:
            new[name] = ACRONYMS[name]
        elif name[0].isupper() and "-" not in name:
            continue
        elif "-" in name or name.startswith("get_d_") or (name[0].islower() and re.search(r"[a-z0-9][A-Z]", name)):
            new[name] = snake(name)
    meet = collections.defaultdict(set)
    for name in kinds:
        meet[new.get(name, name)].add(name)
    for name in list(new):
        if "-" in name and len(meet[new[name]]) > 1:
            others = meet[new[name]] - {name}
            if any("-" not in o for o in others):
                new[name] = new[name] + "_lem"
    # a lemma that port.py spelled like a definition, and a lemma that would be spelled like a library's word
    for name in kinds:
        if "-" not in name and name not in new and "_" in name and "definition" not in kinds[name] and any(new.get(o) == name and "-" not in o for o in kinds):
            new[name] = name + "_lem"
    for path in files():
        text = read(path)
        theirs = imported(text)
        for name in set(re.findall(WORD, without_comments(text))):
            if name in new and new[name] in theirs and name not in theirs:
                new[name] += "_lem"
    return {a: b for a, b in new.items() if a != b}, kinds


def imported(text):
    """Names that a file imports from a library."""
    found = set()
    for it in re.finditer(r"\buse ([^\s;{]+)\.\{([^}]*)\}", text):
        head = it[1].split(".")
        if head[0] == "Rattle" and os.path.isdir(f"crates/{head[1]}"):
            continue
        found |= {w.strip().split(" as ")[0] for w in it[2].split(",")}
    return found


def turn_code(text, names):
    def turned(m):
        new = names.get(m[0], m[0])
        if new == m[0] + "_lem" and "." in (text[m.start() - 1 : m.start()], text[m.end() : m.end() + 1]):
            return m[0]
        return new

    return re.sub(WORD, turned, text)


def turn_antt(text, names):
    parts = re.split(r'((?<![^\s(){}.;,])--[^\n]*|"(?:[^"\\\n]|\\.)*")', text)
    plain = {a: b for a, b in names.items() if "-" not in a and a not in ACRONYMS}
    for i, part in enumerate(parts):
        if i % 2 == 0:
            parts[i] = turn_code(part, names)
        elif part.startswith("--"):
            parts[i] = re.sub(r"`[^`\n]*`", lambda m: turn_code(m[0], names), part)
            parts[i] = re.sub(r"(?<![\w`.:/-])[a-z]\w*[A-Z]\w*(?![\w/-])", lambda m: plain.get(m[0], m[0]), parts[i])
    return "".join(parts)


def turn_rt(text, names):
    parts = re.split(r'(//[^\n]*|b?"(?:[^"\\\n]|\\.)*")', text)
    names = {a: b for a, b in names.items() if b != a + "_lem"}
    plain = {a: b for a, b in names.items() if "-" not in a and a not in ACRONYMS}
    for i, part in enumerate(parts):
        if i % 2 == 0:
            parts[i] = turn_code(part, names)
        elif part.startswith("//"):
            parts[i] = re.sub(r"(?<![\w.:/-])[a-z]\w*[A-Z]\w*(?![\w/-])", lambda m: plain.get(m[0], m[0]), part)
    return "".join(parts)


def turn_prose(text, names, kinds, crates):
    """Code spans of a page that are a name, also behind 'crate:'."""
    after = {names.get(n, n) for n in kinds}

    def span(m):
        crate, name = m[1], m[2]
        if name not in names and snake(name) in after and crate in crates:
            return f"`{crate}:{snake(name)}`"
        if name in WORDS or name not in names or names[name] == name + "_lem" or (crate is None and kinds[name] <= {"local"}):
            return m[0]
        return f"`{crate}:{names[name]}`" if crate in crates else (f"`{names[name]}`" if crate is None else m[0])

    return re.sub(r"(?<!`)`(?:(\w+):)?([\w'-]+)`(?!`)", span, text)


def main(argv):
    names, kinds = table()
    if argv == ["--table"]:
        for a in sorted(names):
            print(f"{a}\t{names[a]}\t{' '.join(sorted(kinds[a]))}")
        return
    # the files of modules first, then the folders' Lib.antt follow by their text
    for path in files():
        base = os.path.basename(path)[: -len(".antt")] if path.endswith(".antt") else ""
        if base in ACRONYMS:
            os.rename(path, os.path.join(os.path.dirname(path), ACRONYMS[base] + ".antt"))
    names = {**names, **ACRONYMS}
    for path in files():
        text = read(path)
        kept = imported(text)
        mine = {a: b for a, b in names.items() if a not in kept}
        new = turn_antt(text, mine) if path.endswith(".antt") else turn_rt(text, mine)
        if new != text:
            with open(path, "w", encoding="utf-8") as it:
                it.write(new)
    for path in sorted(glob.glob("crates/*/proofs/*/Proof.antt")):
        text = read(path)
        folder = os.path.basename(os.path.dirname(path)).lstrip("+")
        new = re.sub(rf"(?<![^\s(){{}}.;,])(?:{WORD})-spec(?![^\s(){{}}.;,])", lambda m: snake(m[0]), text)
        if new != text:
            with open(path, "w", encoding="utf-8") as it:
                it.write(new)
    for path in sorted(glob.glob("crates/*/must-fail/*.edit")):
        lines = read(path).split("\n")
        at, kept = None, set()
        for i, line in enumerate(lines):
            if line.startswith("file: "):
                head, name = os.path.split(line[len("file: ") :])
                base = name[: -len(".antt")] if name.endswith(".antt") else ""
                lines[i] = f"file: {head}/{ACRONYMS.get(base, base)}.antt" if base else line
                at = lines[i][len("file: ") :].strip()
                crate = path.split("/")[1]
                there = f"crates/{crate}/{at}"
                kept = imported(read(there)) if os.path.isfile(there) else set()
            elif line.startswith(("old:", "new:")):
                mine = {a: b for a, b in names.items() if a not in kept}
                turn = turn_antt if at and at.endswith(".antt") else turn_rt
                lines[i] = line[:4] + turn(line[4:], mine)
        text = "\n".join(lines)
        if text != read(path):
            with open(path, "w", encoding="utf-8") as it:
                it.write(text)
    for path in ["README.md", *sorted(glob.glob("docs/*.md"))]:
        if os.path.isfile(path) and os.path.basename(path) != "PORT.md":
            text = read(path)
            new = turn_prose(text, names, kinds, set(os.listdir("crates")))
            if new != text:
                with open(path, "w", encoding="utf-8") as it:
                    it.write(new)


if __name__ == "__main__":
    main(sys.argv[1:])
