#!/usr/bin/env python3
"""Gives the choice by a test another name: `if◌then◌else◌` of crates/octets/specs/Bytes.antt is `if◌then◌otherwise◌`, since the library has an
operator of the old name and `rt ci` lets no repository have another. Run once, at the top, after port_names.py. It changes the words `else` of
code in specs/ and proofs/, and of the texts of must-fail edits of such files.
"""

import glob
import re


def turn(text):
    parts = re.split(r'((?<![^\s(){}.;,])--[^\n]*|"(?:[^"\\\n]|\\.)*")', text)
    for i in range(0, len(parts), 2):
        part = parts[i].replace("if◌then◌else◌", "if◌then◌otherwise◌")
        parts[i] = re.sub(r"(?<![^\s(){}\[\];,])else(?![^\s(){}\[\];,])", "otherwise", part)
    return "".join(parts)


def main():
    for path in glob.glob("crates/*/specs/**/*.antt", recursive=True) + glob.glob("crates/*/proofs/**/*.antt", recursive=True):
        with open(path, encoding="utf-8") as it:
            text = it.read()
        if turn(text) != text:
            with open(path, "w", encoding="utf-8") as it:
                it.write(turn(text))
    for path in glob.glob("crates/*/must-fail/*.edit"):
        with open(path, encoding="utf-8") as it:
            lines = it.read().split("\n")
        was, at = list(lines), ""
        for i, line in enumerate(lines):
            if line.startswith("file: "):
                at = line
            elif line.startswith(("old:", "new:")) and at.endswith(".antt"):
                lines[i] = line[:4] + turn(line[4:])
        if lines != was:
            with open(path, "w", encoding="utf-8") as it:
                it.write("\n".join(lines))


if __name__ == "__main__":
    main()
