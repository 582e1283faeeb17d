#!/usr/bin/env python3
"""Respells the repository's own definitions and lemmas: a word such as `actionOf` becomes `action_of`.

usage: tools/spelling.py [--clashes] [FOLDER]      in the repository, or in FOLDER

It goes over crates/, in .antt, .rt and .edit files, after port.py, once. Types, modules and facts begin with a
capital and stay; functions of src/ and exported names have no capital and stay; strings are left alone.
--clashes writes nothing and lists the words that would fall together with another.
"""

import os
import re
import sys

WORD = re.compile(r"(?<![A-Za-z0-9_'’])[a-z][a-z0-9]*(?:[A-Z][A-Za-z0-9]*)+(?![A-Za-z0-9_])")
PLAIN = re.compile(r"(?<![A-Za-z0-9_'’])[a-z][a-z0-9_]*(?![A-Za-z0-9_])")
STRING = re.compile(r'b?"(?:[^"\\]|\\.)*"')
# Names of their own: a library's word in the name of a lemma on it, which the library has under another name now; and words
# that would fall together with another one of the same file.
ALSO = {"getD": "get_or", "byCode": "told_by_code", "inOrder": "in_order_of", "someBelow": "any_below"}


def snake(word):
    return ALSO.get(word) or re.sub(r"([A-Z])", lambda m: "_" + m.group(1).lower(), word)


def turned(text, path):
    if not path.endswith(".rt"):
        return WORD.sub(lambda m: snake(m.group(0)), text)
    out, at = [], 0
    for s in STRING.finditer(text):
        out += [WORD.sub(lambda m: snake(m.group(0)), text[at : s.start()]), s.group(0)]
        at = s.end()
    return "".join(out) + WORD.sub(lambda m: snake(m.group(0)), text[at:])


def files(root):
    for folder, dirs, names in os.walk(os.path.join(root, "crates")):
        dirs[:] = sorted(d for d in dirs if d != "out")
        for name in sorted(names):
            if name.endswith((".antt", ".rt", ".edit")):
                yield os.path.join(folder, name)


def main(words):
    clashes = "--clashes" in words
    root = next((w for w in words if not w.startswith("-")), ".")
    camel, plain = set(), set()
    for path in files(root):
        with open(path, encoding="utf-8") as f:
            text = f.read()
        if clashes:
            bare = re.sub(r"(--|//).*", "", text)
            camel |= set(WORD.findall(bare))
            if path.endswith(".antt"):
                plain |= set(PLAIN.findall(bare))
            continue
        new = turned(text, path)
        if new != text:
            with open(path, "w", encoding="utf-8") as f:
                f.write(new)
    for word in sorted(camel):
        if snake(word) in plain:
            print(word, snake(word))
    return 0


if __name__ == "__main__":
    raise SystemExit(main(sys.argv[1:]))
