#!/usr/bin/env python3
"""Brings the repository's own names to the spelling of today's Rattle: words in snake case, types and modules as they are.

usage: tools/respell.py            at the top of a checkout, once, right after the kit's port.py

A name is turned where a definition, a law, a field, a constructor or a variable of the .antt files begins with a small letter and has a
capital inside: wordAt becomes word_at, pageOf-whole becomes page_of-whole. It is turned in every .antt file, in what a .rt file says
outside its strings, in must-fail edits, and in README.md, CONTRIBUTING.md and docs/. Functions of src/ have no such name. Where a law
would then have the name of a definition that its file knows, or one that the kit's port.py gave to two, it gets _lem: LAWS and
IN_MACHINE have those.
"""

import glob
import os
import re

WORD = re.compile(r'[^\s(){}.;,@"«»]+')
COMMENT = re.compile(r'(?<![^\s(){}.;,@"«»])--[^\n]*')
RUST = re.compile(r"""[bc]?r(#*)".*?"\1|[bc]?"(?:\\.|[^"\\])*"|b?'(?:\\x..|\\.|[^'\\\n])'""", re.S)
PROSE = re.compile(r"[A-Za-z_][\w-]*(?:'(?!s\b)[\w'-]*)?")
LAWS = ["block_size", "fixed_out", "frame_byte", "held_by", "held_fits", "home_by", "no_write", "number_lt", "number_word", "store_by", "swept_as"]
IN_MACHINE = ["named_by"]


def turned(name):
    pieces = name.split("-")
    for i, piece in enumerate(pieces):
        if re.match("[a-z]", piece):
            pieces[i] = re.sub(r"(?<=[a-z0-9])([A-Z])", lambda m: "_" + m[1].lower(), piece)
            pieces[i] = re.sub(r"[A-Z]", lambda m: m[0].lower(), pieces[i])
    return "-".join(pieces)


def files(*patterns):
    return sorted(f for p in patterns for f in glob.glob(p, recursive=True) if f.split("/")[2:3] != ["out"])


def read(path):
    with open(path, encoding="utf-8") as f:
        return f.read()


def main():
    antt = files("crates/*/specs/**/*.antt", "crates/*/proofs/**/*.antt")
    table = {}
    for path in antt:
        for word in WORD.findall(COMMENT.sub(" ", read(path))):
            if any(re.match(r"[a-z][a-z0-9_]*[A-Z]", piece) for piece in word.split("-")):
                table[word] = turned(word)
    laws = {name: name + "_lem" for name in LAWS}
    in_machine = {name: name + "_lem" for name in IN_MACHINE}

    def words(text, names, pattern=WORD):
        return pattern.sub(lambda m: names.get(m[0], m[0]), text)

    def prose(text):
        return words(text, table, PROSE)

    def outside_strings(text):
        out, at = [], 0
        for m in RUST.finditer(text):
            out += [prose(text[at : m.start()]), m[0]]
            at = m.end()
        return "".join(out) + prose(text[at:])

    count = 0
    for paths, turn in (
        (files("crates/machine/specs/**/*.antt"), lambda t: words(t, in_machine)),
        (antt, lambda t: prose_in_comments(words(t, table | laws), prose)),
        (files("crates/*/src/**/*.rt"), outside_strings),
        (files("crates/*/must-fail/*.edit", "README.md", "CONTRIBUTING.md", "docs/**/*.md"), prose),
    ):
        for path in paths:
            text = read(path)
            new = turn(text)
            if new != text:
                count += 1
                with open(path, "w", encoding="utf-8") as f:
                    f.write(new)
    print(f"respell: {len(table)} names, {count} files")


def prose_in_comments(text, prose):
    return COMMENT.sub(lambda m: prose(m[0]), text)


if __name__ == "__main__":
    os.chdir(os.path.join(os.path.dirname(os.path.abspath(__file__)), ".."))
    main()
